"""The step program at its ends: what it does where its output or its input breaks, waits, is slow, or is cut anywhere.

The program is the one that STEPS names, else examples/steps. What it is fed and what it must write is crates/steps/stdin and stdout.
"""

import os
import random
import resource
import signal
import socket
import struct
import subprocess
import sys
import tempfile
import threading
import time
import unittest

ROOT = os.path.dirname(os.path.dirname(os.path.abspath(__file__)))
PROGRAM = os.environ.get("STEPS", os.path.join(ROOT, "examples", "steps")).split()
NOT_WRITTEN = b"steps: stopped, for an answer could not be written: "
NOT_READ = b"steps: stopped, for the input could not be read: "
LONG = 60


def held(name):
    """A file of the step program's crate."""
    with open(os.path.join(ROOT, "crates", "steps", name), "rb") as file:
        return file.read()


INPUT = held("stdin")
OUTPUT = held("stdout")
LINES = [line + b"\n" for line in INPUT.split(b"\n")]
ANSWERS = [line + b"\n" for line in OUTPUT.split(b"\n")]


def start(**how):
    """The program, started."""
    return subprocess.Popen(PROGRAM, **how)


def fed(program, data):
    """Sends the program data, as far as it takes it."""
    try:
        program.stdin.write(data)
        program.stdin.flush()
    except BrokenPipeError:
        return False
    return True


def shut(program):
    """Ends the program's input."""
    try:
        program.stdin.close()
    except BrokenPipeError:
        pass


def line_by_line(program, count):
    """Reads count bytes of answers."""
    got = b""
    while len(got) < count:
        piece = os.read(program.stdout.fileno(), count - len(got))
        if not piece:
            break
        got += piece
    return got


class Ends(unittest.TestCase):
    """Where the program's input and output end."""

    def told(self, said, start_with):
        """Standard error has one line, which begins so."""
        self.assertTrue(said.startswith(start_with), said)
        self.assertTrue(said.endswith(b"\n"), said)
        self.assertEqual(said.count(b"\n"), 1, said)

    def test_one_line(self):
        """A last line without a newline is answered once; where nothing is pending, nothing is written."""
        for given, wanted in ((b"", b""), (b"column 4 1 2 0 1", b"ok 4\n"), (b"column 4 1 2 0 1\n", b"ok 4\n"),
                              (b"\n", b"no 19\n"), (b"x", b"no 19\n"), (b"column 4 1 2 0 1\nbegin 0", b"ok 4\nok 0 4\n"),
                              (b"begin 0\n\n", b"no 2\nno 19\n")):
            ran = subprocess.run(PROGRAM, input=given, capture_output=True, timeout=LONG, check=True)
            self.assertEqual((ran.stdout, ran.stderr), (wanted, b""), given)

    def test_from_zeros(self):
        """Before the first column every cell is 0 and every session free: each call but column is refused by 2."""
        calls = b"begin 3\nquery 0 0\nread 0 0\nupdate 0 0 0\ndelete 0 0\ninsert 0 0\ncommit 0\ntidy 0 0\nabort 3\n"
        ran = subprocess.run(PROGRAM, input=calls + b"column 1 0\nabort 3\nbegin 3\n", capture_output=True, timeout=LONG, check=True)
        self.assertEqual(ran.stdout, b"no 2\n" * 9 + b"ok 1\nno 5\nok 0 1\n")

    def test_whole_input(self):
        """All answers go to standard output, and nothing to standard error."""
        ran = subprocess.run(PROGRAM, input=INPUT, capture_output=True, timeout=LONG, check=True)
        self.assertEqual((ran.stdout, ran.stderr), (OUTPUT, b""))

    def test_full_device(self):
        """On /dev/full the first write fails: one line says so, and no more of the input is read."""
        with tempfile.TemporaryFile() as given, open("/dev/full", "wb") as full:
            given.write(INPUT)
            given.seek(0)
            ran = subprocess.run(PROGRAM, stdin=given, stdout=full, stderr=subprocess.PIPE, timeout=LONG, check=False)
            self.told(ran.stderr, NOT_WRITTEN + b"No space left on device")
            self.assertLessEqual(os.lseek(given.fileno(), 0, os.SEEK_CUR), 65536)

    def filled(self, out, prepare, free):
        """A place for answers that fills, and is freed once the program has stopped: what is there is the beginning of the answers."""
        program = start(stdin=subprocess.PIPE, stdout=out, stderr=subprocess.PIPE, preexec_fn=prepare)
        try:
            taken = 0
            while taken < len(LINES) and fed(program, b"".join(LINES[taken:taken + 10])):
                taken += 10
                time.sleep(0.002)
            self.assertLess(taken, len(LINES))
            free(program)
            fed(program, b"begin 0\n" * 1000)
            shut(program)
            said = program.stderr.read()
        finally:
            program.kill()
            program.wait(LONG)
            program.stderr.close()
        self.told(said, NOT_WRITTEN)
        out.seek(0)
        there = out.read()
        self.assertEqual(there, OUTPUT[:len(there)])
        self.assertGreater(len(there), 0)
        self.assertLess(len(there), len(OUTPUT))

    def test_full_file_system(self):
        """A small file system that fills and is freed."""
        with tempfile.TemporaryDirectory() as folder:
            mounted = subprocess.run(["mount", "-t", "tmpfs", "-o", "size=64k", "none", folder], capture_output=True, check=False)
            if mounted.returncode:
                self.skipTest("this machine forbids mounting a small file system")
            try:
                ballast = os.path.join(folder, "ballast")
                with open(ballast, "wb") as file:
                    file.write(b"x" * 32768)
                with open(os.path.join(folder, "out"), "w+b") as out:
                    self.filled(out, None, lambda program: os.remove(ballast))
            finally:
                subprocess.run(["umount", folder], check=True)

    def test_full_limit(self):
        """A limit on the file's size that is reached, and then raised."""
        def limited():
            signal.signal(signal.SIGXFSZ, signal.SIG_IGN)
            resource.setrlimit(resource.RLIMIT_FSIZE, (30000, resource.RLIM_INFINITY))

        def raised(program):
            try:
                resource.prlimit(program.pid, resource.RLIMIT_FSIZE, (resource.RLIM_INFINITY, resource.RLIM_INFINITY))
            except ProcessLookupError:
                pass

        with tempfile.TemporaryFile() as out:
            self.filled(out, limited, raised)

    def test_closed_pipe(self):
        """Nobody reads the answers: the write fails, and the program stops. The kit's start of a program sets the signal aside."""
        for how in (signal.SIG_DFL, signal.SIG_IGN):
            read, write = os.pipe()
            os.close(read)
            program = start(stdin=subprocess.PIPE, stdout=write, stderr=subprocess.PIPE, restore_signals=False,
                            preexec_fn=lambda how=how: signal.signal(signal.SIGPIPE, how))
            os.close(write)
            fed(program, INPUT)
            shut(program)
            said = program.stderr.read()
            program.stderr.close()
            self.assertEqual(program.wait(LONG), 0)
            self.told(said, NOT_WRITTEN + b"Broken pipe")

    def test_closed_input(self):
        """No standard input, or one that cannot be read."""
        ran = subprocess.run(PROGRAM, preexec_fn=lambda: os.close(0), capture_output=True, timeout=LONG, check=False)
        self.assertEqual(ran.stdout, b"")
        self.told(ran.stderr, NOT_READ + b"Bad file descriptor")
        folder = os.open(ROOT, os.O_RDONLY)
        ran = subprocess.run(PROGRAM, stdin=folder, capture_output=True, timeout=LONG, check=False)
        os.close(folder)
        self.assertEqual(ran.stdout, b"")
        self.told(ran.stderr, NOT_READ + b"Is a directory")

    def test_closed_output(self):
        """No standard output."""
        how = {"preexec_fn": lambda: os.close(1), "stderr": subprocess.PIPE, "timeout": LONG, "check": False}
        ran = subprocess.run(PROGRAM, input=b"column 4 1 2 0 1\n", **how)
        self.told(ran.stderr, NOT_WRITTEN + b"Bad file descriptor")
        ran = subprocess.run(PROGRAM, input=b"", **how)
        self.assertEqual(ran.stderr, b"")

    def test_broken_input(self):
        """A read that fails is not the end of the input: a pending line is not answered."""
        with socket.create_server(("127.0.0.1", 0)) as server:
            client = socket.create_connection(server.getsockname())
            ours, _ = server.accept()
            program = start(stdin=client.fileno(), stdout=subprocess.PIPE, stderr=subprocess.PIPE)
            client.close()
            ours.sendall(b"column 4 1 2 0 1\nbegin 0")
            self.assertEqual(line_by_line(program, 5), b"ok 4\n")
            ours.setsockopt(socket.SOL_SOCKET, socket.SO_LINGER, struct.pack("ii", 1, 0))
            ours.close()
            rest, said = program.communicate(timeout=LONG)
            self.assertEqual(rest, b"")
            self.told(said, NOT_READ + b"Connection reset by peer")

    def test_ends_that_do_not_wait(self):
        """Ends that do not wait are tried again: no line and no answer is lost, however slow the peers are."""
        given, theirs = os.pipe()
        ours, answers = os.pipe()
        os.set_blocking(given, False)
        os.set_blocking(answers, False)
        program = start(stdin=given, stdout=answers, stderr=subprocess.PIPE)
        os.close(given)
        os.close(answers)

        def send():
            for at in range(0, len(INPUT), 40000):
                time.sleep(0.05)
                with_all(theirs, INPUT[at:at + 40000])
            os.close(theirs)

        def with_all(end, data):
            while data:
                data = data[os.write(end, data):]

        sender = threading.Thread(target=send)
        sender.start()
        time.sleep(0.3)
        got = b""
        while True:
            piece = os.read(ours, 30000)
            if not piece:
                break
            got += piece
            time.sleep(0.02)
        sender.join()
        os.close(ours)
        _, said = program.communicate(timeout=LONG)
        self.assertEqual((got, said), (OUTPUT, b""))

    def test_cut_anywhere(self):
        """A slow pipe, with lines cut anywhere."""
        chance = random.Random(1)
        program = start(stdin=subprocess.PIPE, stdout=subprocess.PIPE, stderr=subprocess.PIPE)

        def send():
            at = 0
            while at < len(INPUT):
                much = chance.choice((1, 2, 7, 60, 300, 3000))
                fed(program, INPUT[at:at + much])
                at += much
                if chance.randrange(8) == 0:
                    time.sleep(0.001)
            shut(program)

        sender = threading.Thread(target=send)
        sender.start()
        got = program.stdout.read()
        said = program.stderr.read()
        sender.join()
        program.stdout.close()
        program.stderr.close()
        self.assertEqual((program.wait(LONG), got, said), (0, OUTPUT, b""))

    def test_ended_in_mid_input(self):
        """Ended by a signal in mid input: every whole line that was sent is answered, and what was written ends with a whole line."""
        for count in (1, 7, 300):
            wanted = b"".join(ANSWERS[:count])
            program = start(stdin=subprocess.PIPE, stdout=subprocess.PIPE, stderr=subprocess.PIPE)
            fed(program, b"".join(LINES[:count]) + LINES[count][:4])
            got = line_by_line(program, len(wanted))
            program.terminate()
            rest, said = program.communicate(timeout=LONG)
            self.assertEqual((got + rest, said, program.returncode), (wanted, b"", -signal.SIGTERM))

    def test_exit_status(self):
        """examples/status: 0 where the whole input was answered, 1 where the program stopped before."""
        status = os.path.join(ROOT, "examples", "status")
        done = subprocess.run([status], input=INPUT, capture_output=True, timeout=LONG)
        self.assertEqual((done.returncode, done.stdout, done.stderr), (0, OUTPUT, b""))
        with open("/dev/full", "wb") as full:
            done = subprocess.run([status], input=INPUT, stdout=full, stderr=subprocess.PIPE, timeout=LONG)
        self.assertEqual(done.returncode, 1)
        self.assertTrue(done.stderr.startswith(NOT_WRITTEN), done.stderr)


if __name__ == "__main__":
    unittest.main(argv=[sys.argv[0], "-v"] + sys.argv[1:])
