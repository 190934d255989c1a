"""C and C++ over the archive, whose code is for x86-64: compiled and run as they are on such a machine, elsewhere by a cross compiler and
under an emulator. X86_CC and X86_CXX name the compilers, X86_UNDER the emulator."""

import os

UNDER = os.environ.get("X86_UNDER", "").split()
CC = os.environ.get("X86_CC") or os.environ.get("CC", "cc")
CXX = os.environ.get("X86_CXX", "g++")
# a program that runs under the emulator brings its C library along
LINKED = ["-static"] if UNDER else []


def running(program):
    """The command that runs a program that was built so."""
    return [*UNDER, program]
