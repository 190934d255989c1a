"""Kerenvuf from Python: the eleven calls, over tables in memory or in a file. Standard library only, Python 3.9 or newer, Linux.

    python/build                                    proves and builds the shared library, once (x86-64)

    index = kerenvuf.Index.open("crowns.kv")        in a file; kerenvuf.Index() is in memory
    index.create(4, [0, 0, 2, None])                four values; a value for each row, None where it is absent
    with index.session() as marker:                 a free session, a snapshot of this moment
        for row in marker.rows(0):
            marker.update(row, 1)
        marker.commit()                             what is not committed is dropped at the end of the block

A call that is refused raises `Refused`, with the refusal's number, name and sentence, and has changed nothing.

Locks: each call takes an exclusive lock on the file (fcntl.flock) and gives it back; `with index:` holds it over several calls, that
no other process comes between. Sessions are there so that nobody waits for anybody's work, so a session holds no lock.
Threads: an index may be used by several threads; one call runs at a time. A session belongs to one thread.
Processes: each opens the file itself; an index that is carried over a fork opens it again at its first call.

The file (docs/INTERFACE.md): a header of 64 bytes, then the seven tables one after another, in the machine's order of bytes. It is mapped
into memory, so that an accepted call is in the file when it returns, whatever happens to this process; after an accepted commit, tidy
and create it is on the disk too (msync), unless it was opened with sync=False. A create makes a new file and renames it into place. Any
other call that is killed inside may leave half of its stores: `save` makes a copy to come back to.
"""

import collections
import contextlib
import ctypes
import enum
import errno
import fcntl
import mmap
import operator
import os
import platform
import struct
import tempfile
import threading

VERSION = "1.2"
LAYOUT = 1
THRESHOLD = 8
ABSENT = 255

# The seven tables: name, bytes of an element, elements.
TABLES = (
    ("clock", 4, 6),
    ("slots", 4, 288),
    ("words", 8, 3072),
    ("heads", 4, 32),
    ("log", 4, 2048),
    ("changes", 4, 4096),
    ("sessions", 112, 16),
)
SIZES = tuple(size * length for _, size, length in TABLES)
OFFSETS = {name: sum(SIZES[:place]) for place, (name, _, _) in enumerate(TABLES)}
SIZE = sum(SIZES)
VECTOR = 32

# The file's header: a mark, the layout, a number that shows the order of bytes, and the bytes of each table; zeros up to 64 bytes.
HEADER = struct.Struct("=8sII7I20x")
MARK = b"KERENVUF"
ORDER = 0x01020304
START = HEADER.pack(MARK, LAYOUT, ORDER, *SIZES)


class Refusal(enum.IntEnum):
    """The refusals: a number, and a sentence. The same table is in include/kerenvuf.h and docs/LINES.md."""

    def __new__(cls, number, sentence):
        """A number that carries its sentence."""
        member = int.__new__(cls, number)
        member._value_ = number
        member.sentence = sentence
        return member

    NO_ROOM = 1, "a table is too short for its full limit"
    DAMAGED = 2, "the tables are damaged, or no create was accepted yet"
    BAD_COLUMN = 3, "C is not 1 to 32, over 2048 rows, or a value is not below C"
    NO_SESSION = 4, "the session number is above 15"
    NOT_OPEN = 5, "the session is not open"
    NO_VALUE = 6, "the value is not below C"
    NO_ROW = 7, "the row is not below the session's start row count"
    ROW_ABSENT = 8, "the row is absent, or listed as deleted"
    LIST_FULL = 9, "the session's list has 32 entries already"
    SHORT_SCRATCH = 10, "the scratch has fewer than 32 words"
    LIST_EMPTY = 11, "the session's list is empty"
    CONFLICT = 12, "a listed row was committed or tidied since the session was opened"
    NOTHING_TO_MOVE = 13, "the tidy has no row to move"
    STALE = 14, "the tidy was overtaken since the session was opened"
    ROWS_FULL = 15, "the rows would pass 2048"
    RECORDS_FULL = 16, "there are 512 records already"
    CHANGES_FULL = 17, "the changes would pass 2048"
    SLOTS_FULL = 18, "there are 96 slots already"
    UNREADABLE = 19, "the line cannot be read"
    BACKWARD = 20, "the first value is above the last"
    SHORT_LIST = 21, "the list is shorter than the answer"


# The refusals at which an index goes on once it was created again from its own rows.
FULL = (Refusal.RECORDS_FULL, Refusal.CHANGES_FULL, Refusal.SLOTS_FULL)


class Refused(Exception):
    """A call was refused: `number`, `name`, `sentence`, and `call`, what was asked. Nothing was changed."""

    def __init__(self, number, call=""):
        """The refusal of that number."""
        super().__init__(number, call)
        self.call = call
        try:
            self.number = Refusal(number)
            self.name, self.sentence = self.number.name, self.number.sentence
        except ValueError:
            self.number, self.name, self.sentence = number, "UNKNOWN", "no refusal has this number"

    def __str__(self):
        """The call, the number, the name and the sentence."""
        return f"{self.call or 'the call'} was refused by {int(self.number)}, {self.name}: {self.sentence}"


class AllOpen(Exception):
    """All 16 sessions are open, and none was named."""


class WrongFile(ValueError):
    """The file has no tables of this layout."""


class Unavailable(ImportError):
    """The shared library is not there, or cannot be loaded on this machine."""


# The answers, as tuples: the numbers that the step program writes after `ok`, in the same order.
Created = collections.namedtuple("Created", "rows")
Begun = collections.namedtuple("Begun", "stamp rows")
Found = collections.namedtuple("Found", "flips due rows")
Held = collections.namedtuple("Held", "value")
Listed = collections.namedtuple("Listed", "length")
Committed = collections.namedtuple("Committed", "stamp rows")
Tidied = collections.namedtuple("Tidied", "stamp moved")
Dropped = collections.namedtuple("Dropped", "length")

# What is in use of the index, and its limits.
Used = collections.namedtuple("Used", "rows records changes slots")
LIMITS = Used(2048, 512, 2048, 96)
# An open session, as it stands in the tables.
Open = collections.namedtuple("Open", "number stamp rows length")


# The shared library.


class Answer(ctypes.Structure):
    """kv_answer."""

    _fields_ = [(name, ctypes.c_uint32) for name in ("refusal", "kind", "a", "b", "c")]


GONE = 4
ARGUMENTS = {"create": 1, "begin": 1, "query": 3, "span": 3, "read": 2, "update": 3, "delete": 2, "insert": 2, "commit": 1, "tidy": 2,
             "abort": 1}
LENT = [ctypes.c_void_p, ctypes.c_size_t]
# The calls that a buffer is lent to after the tables: a query's scratch, a span's list.
BUFFERED = ("query", "span")
_library = None


def places():
    """Where the shared library is looked for, in this order."""
    here = os.path.dirname(os.path.abspath(__file__))
    named = os.environ.get("KERENVUF_LIBRARY")
    return [named] if named else [os.path.join(here, "libkerenvuf.so"), os.path.join(here, "..", "target", "shared", "libkerenvuf.so")]


def library():
    """The shared library; `Unavailable` says why there is none."""
    global _library
    if _library is None:
        machine = platform.machine()
        if machine != "x86_64":
            raise Unavailable(f"the library is for x86-64 and this machine is {machine}: use the step program, as examples/marking.py does")
        path = next((path for path in places() if os.path.exists(path)), None)
        if path is None:
            raise Unavailable(f"no library at {' or '.join(places())}: python/build makes it")
        try:
            loaded = ctypes.CDLL(path)
            for name, count in ARGUMENTS.items():
                call = getattr(loaded, "kv_" + name)
                call.restype = Answer
                call.argtypes = LENT * len(TABLES) + LENT * (name in BUFFERED) + [ctypes.c_uint64] * count + LENT * (name == "create")
        except (OSError, AttributeError) as why:
            raise Unavailable(f"{path} cannot be used: {why}") from why
        _library = loaded
    return _library


# Where the tables lie.


class Memory:
    """Tables in memory."""

    def __init__(self):
        """All 0."""
        self.cells = (ctypes.c_uint64 * (SIZE // 8))()
        self.address = ctypes.addressof(self.cells)
        self.age = 0

    def enter(self):
        """Nobody else has these tables."""

    def leave(self):
        """Nobody waits for them."""

    def sync(self):
        """There is no disk."""

    def put(self, data):
        """Other tables take the place of these."""
        ctypes.memmove(self.address, data, SIZE)
        self.age += 1

    def close(self):
        """Nothing is held."""


class File:
    """Tables in a file that is mapped into memory. `age` is another each time that another file has come into its place."""

    def __init__(self, path, sync):
        """Opens the file, or makes it with all tables 0."""
        self.path = os.path.realpath(path)
        self.synced = sync
        self.file = self.map = self.bytes = None
        self.age = 0
        self.open(os.O_CREAT)
        self.leave()

    def open(self, more=0):
        """Opens and locks the file that the path names now, and maps it."""
        while True:
            file = os.fdopen(os.open(self.path, os.O_RDWR | os.O_CLOEXEC | more, 0o666), "r+b", buffering=0)
            fcntl.flock(file, fcntl.LOCK_EX)
            if self.named(file):
                break
            file.close()
        try:
            self.check(file)
        except BaseException:
            file.close()
            raise
        self.take(file)

    def take(self, file):
        """Maps an open file that is locked and checked, in the place of the one before."""
        self.drop()
        self.file, self.pid = file, os.getpid()
        self.map = mmap.mmap(file.fileno(), len(START) + SIZE)
        self.bytes = (ctypes.c_char * (len(START) + SIZE)).from_buffer(self.map)
        self.address = ctypes.addressof(self.bytes) + len(START)
        self.age += 1

    def named(self, file):
        """Whether the path still names this open file: a create, or a copy brought back, puts another in its place."""
        try:
            found = os.stat(self.path)
        except FileNotFoundError:
            return False
        own = os.fstat(file.fileno())
        return (found.st_dev, found.st_ino) == (own.st_dev, own.st_ino)

    def check(self, file):
        """Raises WrongFile unless the file has tables of this layout; an empty file becomes one."""
        size = os.fstat(file.fileno()).st_size
        if size == 0:
            fill(file, bytes(SIZE))
            size = os.fstat(file.fileno()).st_size
        head = os.pread(file.fileno(), len(START), 0)
        if len(head) < len(START) or not head.startswith(MARK):
            raise WrongFile(f"{self.path} is no file of an index")
        _, layout, order, *sizes = HEADER.unpack(head)
        if order != ORDER:
            raise WrongFile(f"{self.path} was written on a machine with the other order of bytes")
        if layout != LAYOUT:
            raise WrongFile(f"{self.path} has tables of layout {layout}, and this module knows layout {LAYOUT}")
        if tuple(sizes) != SIZES or size != len(START) + SIZE:
            raise WrongFile(f"{self.path} has {size} bytes with tables of {sizes}; an index has {len(START) + SIZE} with {list(SIZES)}")

    def enter(self):
        """Takes the lock of the file that the path names now."""
        if self.file is None:
            raise ValueError("the index is closed")
        if self.pid != os.getpid():
            self.open()
            return
        fcntl.flock(self.file, fcntl.LOCK_EX)
        if not self.named(self.file):
            try:
                self.open()
            except BaseException:
                self.leave()
                raise

    def leave(self):
        """Gives the lock back."""
        if self.file is not None:
            fcntl.flock(self.file, fcntl.LOCK_UN)

    def sync(self):
        """Has the tables on the disk, where that is wanted."""
        if self.synced:
            self.map.flush()

    def put(self, data):
        """Other tables take the place of these, in a new file that is renamed into place, locked: no moment has half of them."""
        self.take(written(self.path, data, os.fstat(self.file.fileno()).st_mode))

    def drop(self):
        """Lets go of the map and the file."""
        self.bytes = None
        if self.map is not None:
            self.map.close()
            self.file.close()
            self.map = self.file = None

    def close(self):
        """Lets go of the file; its lock goes with it."""
        self.drop()


def fill(file, data):
    """Writes header and tables into an open file, the whole of them."""
    if file.write(START + data) != len(START) + len(data):
        raise OSError(errno.ENOSPC, "there is no room for the whole file")


def written(path, data, mode=None):
    """Writes a file of an index: under another name, locked, to the disk, then renamed. The open file."""
    folder = os.path.dirname(path)
    descriptor, beside = tempfile.mkstemp(prefix=os.path.basename(path) + ".", dir=folder)
    file = os.fdopen(descriptor, "r+b", buffering=0)
    try:
        fcntl.flock(file, fcntl.LOCK_EX)
        fill(file, data)
        if mode is None:
            mask = os.umask(0)
            os.umask(mask)
            mode = 0o666 & ~mask
        os.fchmod(file.fileno(), mode & 0o7777)
        os.fsync(file.fileno())
        os.rename(beside, path)
    except BaseException:
        os.unlink(beside)
        file.close()
        raise
    at = os.open(folder, os.O_RDONLY)
    try:
        os.fsync(at)
    finally:
        os.close(at)
    return file


# Numbers as the calls take them.


def number(given):
    """A number for a call: one that no 64 bits hold is out of range however written, so the largest stands for it."""
    given = operator.index(given)
    return given if 0 <= given < 1 << 64 else (1 << 64) - 1


def column_bytes(column):
    """A column as the create takes it. Bytes go as they are; otherwise None is absent, and a number that is no value is 254."""
    if isinstance(column, (bytes, bytearray)):
        return bytes(column)
    return bytes(ABSENT if value is None else min(number(value), 254) for value in column)


def rows_of(words):
    """The rows whose bits are 1 in 32 words, ascending."""
    rows = []
    for place, word in enumerate(words):
        while word:
            low = word & -word
            rows.append(64 * place + low.bit_length() - 1)
            word ^= low
    return tuple(rows)


class Index:
    """The index: the eleven calls, each under the lock. `with index:` holds the lock over several."""

    def __init__(self, tables=None):
        """An index in memory, all tables 0 until the first create."""
        self._library = library()
        self._tables = Memory() if tables is None else tables
        self._scratch = (ctypes.c_uint64 * VECTOR)()
        self._list = (ctypes.c_uint16 * LIMITS.rows)()
        self._lock = threading.RLock()
        self._depth = 0

    @classmethod
    def open(cls, path, sync=True):
        """An index in a file, which is made where there is none. Where `sync` is False, the disk is written when the system likes."""
        library()
        return cls(File(path, sync))

    def close(self):
        """Lets go of the file. Open sessions stay open in it."""
        with self._lock:
            self._tables.close()

    def __enter__(self):
        """Takes the lock; blocks nest."""
        self._lock.acquire()
        try:
            if self._depth == 0:
                self._tables.enter()
            self._depth += 1
        except BaseException:
            self._lock.release()
            raise
        return self

    def __exit__(self, *_):
        """Gives the lock back at the outermost end."""
        self._depth -= 1
        try:
            if self._depth == 0:
                self._tables.leave()
        finally:
            self._lock.release()

    # The eleven calls.

    def create(self, values, column):
        """A new index of so many values, with a value for each row, None where it is absent. All sessions are freed."""
        data = column_bytes(column)
        with self:
            made = Memory()
            answer = self._library.kv_create(*lent(made.address), number(values), data, len(data))
            accepted(answer, "create", values, f"{len(data)} rows")
            self._tables.put(ctypes.string_at(made.address, SIZE))
            return Created(answer.a)

    def begin(self, session):
        """Opens a session: its start stamp and row count. Of a session that is open, the start it has."""
        answer = self._call("begin", session)
        return Begun(answer.a, answer.b)

    def query(self, session, value, threshold=THRESHOLD):
        """The rows that hold a value in the session's snapshot, how many are flipped against the vector, and whether a tidy is due."""
        with self:
            answer = self._call("query", session, value, threshold, more=(ctypes.addressof(self._scratch), VECTOR))
            words = self._scratch
            if answer.c:
                words = (ctypes.c_uint64 * VECTOR).from_address(self._tables.address + OFFSETS["words"] + 8 * VECTOR * (answer.c - 1))
            return Found(answer.a, bool(answer.b), rows_of(words))

    def span(self, session, first, last):
        """The rows that hold any value from first to last, both ends in, in the session's snapshot: a list, ascending, each row once."""
        with self:
            answer = self._call("span", session, first, last, more=(ctypes.addressof(self._list), LIMITS.rows))
            return self._list[:answer.a]

    def read(self, session, row):
        """The value of a row in the session's snapshot, None where it is absent."""
        answer = self._call("read", session, row)
        return Held(None if answer.kind == GONE else answer.a)

    def update(self, session, row, value):
        """Lists that a row is to hold a value: the length of the list."""
        return Listed(self._call("update", session, row, value).a)

    def delete(self, session, row):
        """Lists that a row is to be absent: the length of the list."""
        return Listed(self._call("delete", session, row).a)

    def insert(self, session, value):
        """Lists a new row that is to hold a value: the length of the list."""
        return Listed(self._call("insert", session, value).a)

    def commit(self, session):
        """Makes what is listed so, and frees the session: the stamp and the row count after it."""
        with self:
            answer = self._call("commit", session)
            self._tables.sync()
            return Committed(answer.a, answer.b)

    def tidy(self, session, value):
        """Folds what changed in a value into its vector: the stamp, and how many rows were moved."""
        with self:
            answer = self._call("tidy", session, value)
            self._tables.sync()
            return Tidied(answer.a, answer.b)

    def abort(self, session):
        """Frees a session: the length of the list that is dropped."""
        return Dropped(self._call("abort", session).a)

    def _call(self, name, *numbers, more=()):
        """One call under the lock; its answer, unless it was refused."""
        with self:
            answer = getattr(self._library, "kv_" + name)(*lent(self._tables.address), *more, *map(number, numbers))
        return accepted(answer, name, *numbers)

    # Beside the calls.

    def session(self, named=None, keep=False):
        """An open session, on a snapshot of this moment: of a free number, or of the number that is named. Where that one is open, by
        an earlier run of this script, what it listed is dropped, unless `keep` asks to go on with it as it is."""
        with self:
            if named is None:
                taken = {place.number for place in self.sessions()}
                named = next((place for place in range(TABLES[-1][2]) if place not in taken), None)
                if named is None:
                    raise AllOpen("all 16 sessions are open: abort one of those that index.sessions() names")
            elif not keep:
                with contextlib.suppress(Refused):
                    self.abort(named)
            return Session(self, named, *self.begin(named))

    def sessions(self):
        """The open sessions: number, start stamp, start row count, length of the list."""
        with self:
            cells = ctypes.string_at(self._tables.address + OFFSETS["sessions"], SIZES[-1])
        shown = [struct.unpack_from("=4I", cells, place * TABLES[-1][1]) for place in range(TABLES[-1][2])]
        return [Open(place, *rest) for place, (live, *rest) in enumerate(shown) if live]

    def column(self):
        """The value of every row at this moment, None where it is absent: what a create takes to start over with the same rows."""
        with self, self.session() as reader:
            return [value for _, value in reader]

    @property
    def values(self):
        """C, the number of values; 0 before the first create."""
        return self._clock()[0]

    def used(self):
        """How many rows, records, changes and slots there are; LIMITS has the most."""
        _, _, stamp, rows, slots, changes = self._clock()
        return Used(rows, stamp, changes, slots)

    def _clock(self):
        """The six cells of the clock."""
        with self:
            return struct.unpack("=6I", ctypes.string_at(self._tables.address, SIZES[0]))

    def save(self, path):
        """A copy of this moment in another file, whole or not at all; `Index.open` takes it."""
        with self:
            data = ctypes.string_at(self._tables.address, SIZE)
        written(os.path.realpath(path), data).close()


class Session:
    """An open session of an index, to be used in a `with` block: at its end what was not committed is dropped."""

    def __init__(self, index, number_, stamp, rows):
        """The session of that number, opened at that stamp with so many rows."""
        self.index, self.number, self.stamp, self.row_count = index, number_, stamp, rows
        self._age = index._tables.age

    def __enter__(self):
        """It is open already."""
        return self

    def __exit__(self, *_):
        """Frees it, unless it was committed or aborted."""
        if self._age is not None:
            with contextlib.suppress(Refused):
                self.abort()

    def query(self, value, threshold=THRESHOLD):
        """The rows that hold a value, with flips and due."""
        return self._ask("query", value, threshold)

    def span(self, first, last):
        """The rows that hold any value from first to last, both ends in, ascending."""
        return self._ask("span", first, last)

    def read(self, row):
        """The value of a row."""
        return self._ask("read", row)

    def update(self, row, value):
        """Lists that a row is to hold a value."""
        return self._ask("update", row, value)

    def delete(self, row):
        """Lists that a row is to be absent."""
        return self._ask("delete", row)

    def insert(self, value):
        """Lists a new row that is to hold a value."""
        return self._ask("insert", value)

    def tidy(self, value):
        """Folds what changed in a value into its vector."""
        return self._ask("tidy", value)

    def commit(self):
        """Makes what is listed so. The session is over then; after a refusal it is open with its list."""
        return self._ask("commit", last=True)

    def abort(self):
        """Drops what is listed. The session is over then."""
        return self._ask("abort", last=True)

    def rows(self, value):
        """The rows that hold a value, ascending."""
        return self.query(value).rows

    def __iter__(self):
        """Every row with its value, None where it is absent, ascending."""
        held = {row: value for value in reversed(range(self.index.values)) for row in self.rows(value)}
        return iter([(row, held.get(row)) for row in range(self.row_count)])

    def __len__(self):
        """How many rows the snapshot has."""
        return self.row_count

    def _ask(self, name, *numbers, last=False):
        """The index's call of that name. A session that is over, by its own hand or by a create, stays over: its number may be
        another's by now."""
        with self.index:
            if self._age != self.index._tables.age:
                raise Refused(Refusal.NOT_OPEN, called(name, self.number, *numbers))
            answer = getattr(self.index, name)(self.number, *numbers)
            if last:
                self._age = None
            return answer


def lent(address):
    """The fourteen arguments that every call starts with: where each table is, and its length."""
    return [given for name, _, length in TABLES for given in (address + OFFSETS[name], length)]


def called(name, *numbers):
    """A call as it was asked."""
    return f"{name}({', '.join(map(str, numbers))})"


def accepted(answer, name, *numbers):
    """The answer, unless it is a refusal."""
    if answer.refusal:
        raise Refused(answer.refusal, called(name, *numbers))
    return answer
