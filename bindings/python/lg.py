"""The grant index for luggage lockers: functions over its C interface (include/lg.h), by ctypes alone.

`Index` owns its memory, and threads may share one: it makes one call at a time. The functions make the same calls on a pool that the
caller holds: any writable buffer of unsigned 16-bit words at an even address, as array.array("H"), `pool_words(capacity)` of them;
include/lg.h says what they are. There other threads run during a call, and the caller sees to it that readers alone share a pool and that
a writer (start, grant, revoke, load) has it alone. `block` and `block_part` read one block of a grants file, `compare_openings` holds a
door record against a panel record.

A call that is refused raises `Refused` and leaves all memory as it was; a value that does not fit its field, and memory that can't be
lent, raise ValueError before the library is asked.

The library is the file that the script `build` makes: liblg.so in the folder target/python of the repository, or what the environment
variable LG_LIBRARY names. Where it isn't there, importing this module raises ImportError, which says how to make it.
"""
import array
import collections
import ctypes
import enum
import operator
import os
import struct
import threading

DOUBLE_WORD = 0xFFFFFFFF
WORD = 0xFFFF
BYTE = 0xFF
MOST_CELLS = 2048
BARS, OPENS = 0, 1

Grant = collections.namedtuple("Grant", "number rank kind bounds")
Count = collections.namedtuple("Count", "live free")
Comparison = collections.namedtuple("Comparison", "agree left_in_door left_in_panel")


class Bounds(collections.namedtuple("Bounds", "staff_from staff_to door_from door_to quarter_from quarter_until")):
    """A box. Both ends of staff and of doors belong to it. Quarters are half-open, as Python's ranges are: quarter_until is the first that
    isn't covered, so 65534 is the last that can be."""

    __slots__ = ()


class Choice(enum.Enum):
    """Which grants of a box list takes.

    TOUCHING: those that touch the box: they cover one of its staff numbers, one of its doors and one of its quarters. Those that hold it
              are among them.
    HOLDING:  those that hold the box: they cover all of its staff numbers, doors and quarters.
    """

    TOUCHING = "touching"
    HOLDING = "holding"


class Opening(collections.namedtuple("Opening", "door quarter staff")):
    """An entry of a door record or a panel record."""

    __slots__ = ()
    _FORM = struct.Struct(">HHI")

    def to_bytes(self):
        """The entry's 8 bytes, high byte first: door (2), quarter (2), staff (4)."""
        return self._FORM.pack(*_fits(WORD, self.door, self.quarter), *_fits(DOUBLE_WORD, self.staff))

    @classmethod
    def from_bytes(cls, entry):
        """The opening that an entry's 8 bytes say."""
        if len(entry) != cls._FORM.size:
            raise ValueError("an entry has %d bytes, not %d" % (cls._FORM.size, len(entry)))
        return cls(*cls._FORM.unpack(entry))


class Fault(enum.IntEnum):
    """The faults of documents 01 and 02 under the library's names; tests/faults compares them with the library's.

    A fault is its number, its sentence and, where a value is returned beside it, which of the word's two values that is.
    """

    BadPool = 1, "not a pool"
    Reversed = 2, "a range ends before it starts, or the quarters cover nothing"
    ZeroNumber = 3, "the grant number is 0"
    UnknownKind = 4, "the kind is above 1"
    AlreadyLive = 5, "the number is already live"
    Full = 6, "no cell is free"
    NotLive = 7, "the number is not live"
    ListTooShort = 8, "the list is too short", "a"
    BrokenLinks = 9, "the pool's links are broken"
    BadLength = 10, "not 1 to 68 whole blocks, or no such block"
    BadLayout = 11, "wrong mark, number, counts, door order or fill", "b"
    BadChecksum = 12, "wrong check", "b"
    BadRecord = 13, "wrong record", "b"
    BufferTooShort = 14, "too few bytes", "b"
    RankTooLow = 16, "the rank is below 200, for more than 1000 doors"
    BadOpeningsLength = 24, "a record is not whole entries, or has more than 4096"
    UnorderedQuarters = 25, "a quarter in a record is below the one before it"

    def __new__(cls, number, sentence, place=None):
        fault = int.__new__(cls, number)
        fault._value_ = number
        fault.sentence = sentence
        fault.place = place
        return fault


class Refused(Exception):
    """A call was refused.

    number: the fault's number in document 01's table
    fault:  the Fault of this number, or None where only a later library has it
    value:  what is returned beside the fault: the count or the length needed, or the block; otherwise None
    """

    def __init__(self, number, a=0, b=0):
        self.number = int(number)
        self.fault = next((fault for fault in Fault if fault == number), None)
        sentence, place = (self.fault.sentence, self.fault.place) if self.fault else ("fault %d" % number, None)
        self.value = {"a": a, "b": b}.get(place)
        super().__init__(sentence if self.value is None else "%s (%d)" % (sentence, self.value))


_MAKE = (
    "`tools/build c_api` in the repository and then its script bindings/python/build make target/python/liblg.so there;"
    " the environment variable LG_LIBRARY names one elsewhere"
)


def _library():
    """The library, with its functions declared; ImportError says how to make one where it can't be had."""
    here = os.path.dirname(os.path.abspath(__file__))
    path = os.environ.get("LG_LIBRARY") or os.path.normpath(os.path.join(here, "..", "..", "target", "python", "liblg.so"))
    try:
        library = ctypes.CDLL(path)
        for name, arguments in _ARGUMENTS.items():
            function = getattr(library, "lg_" + name)
            function.argtypes = arguments
            function.restype = ctypes.c_uint64
    except (OSError, AttributeError) as error:
        raise ImportError("the grant index's library can't be had: %s; %s" % (error, _MAKE), path=path) from error
    return library


_POOL = [ctypes.c_void_p, ctypes.c_size_t]
_MEMORY = [ctypes.c_void_p, ctypes.c_size_t]
_BOX = [ctypes.c_uint16] * 6
_ARGUMENTS = {
    "start": _POOL,
    "grant": _POOL + [ctypes.c_uint16, ctypes.c_uint8, ctypes.c_uint8] + _BOX,
    "revoke": _POOL + [ctypes.c_uint16],
    "list": _POOL + _BOX + _MEMORY,
    "list_holding": _POOL + _BOX + _MEMORY,
    "decide": _POOL + [ctypes.c_uint16] * 3 + [ctypes.c_void_p],
    "count": _POOL,
    "write": _POOL + [ctypes.c_uint16] * 2 + _MEMORY,
    "load": _POOL + _MEMORY,
    "match": _POOL + _MEMORY,
    "block": _MEMORY + [ctypes.c_uint64],
    "block_part": _MEMORY + [ctypes.c_uint64],
    "compare_openings": _MEMORY + _MEMORY,
}
_lg = _library()


def _fits(highest, *values):
    """The values, each of which is a whole number from 0 to `highest`: ctypes would cut a larger one."""
    for value in values:
        if not 0 <= operator.index(value) <= highest:
            raise ValueError("%d is not 0 to %d" % (value, highest))
    return values


def _box(bounds):
    if len(bounds) != 6:
        raise ValueError("a box has six ends, not %d" % len(bounds))
    return _fits(WORD, *bounds)


def _lend(memory, element):
    """Address and length of a writable buffer, and a view that holds it for the call. Memory of no length may lie at any address and
    is not lent: something aligned stands for it."""
    view = memoryview(memory)
    if not view.c_contiguous or view.ndim != 1 or view.itemsize != ctypes.sizeof(element):
        raise ValueError("not a flat buffer of %d-byte elements" % ctypes.sizeof(element))
    held = (element * len(view)).from_buffer(view) if len(view) else (element * 0)()
    address = ctypes.addressof(held)
    if address % ctypes.alignment(element):
        raise ValueError("16-bit words must begin at an even address, not at %#x: lend memory that is made of words" % address)
    return address, len(view), held


def _apart(pool, lent):
    """Both memories, which no call may be lent as one."""
    if pool[0] < lent[0] + ctypes.sizeof(lent[2]) and lent[0] < pool[0] + ctypes.sizeof(pool[2]):
        raise ValueError("the pool and the lent memory overlap")
    return pool, lent


def _words(memory):
    return _lend(memory, ctypes.c_uint16)


def _copied(data):
    """Address and length of the bytes of a file or a record, and a copy that holds them for the call."""
    held = ctypes.create_string_buffer(bytes(data), len(data) + 1)
    return ctypes.addressof(held), len(data), held


def _unpack(word):
    """The values a and b of an accepted call's word."""
    number, a, b = word & 0xFF, word >> 8 & 0xFFFFFF, word >> 32
    if number != 0:
        raise Refused(number, a, b)
    return a, b


def pool_words(capacity):
    """How many words a pool of a capacity of 1 to 2048 has."""
    return 3 + 11 * capacity


def start(pool):
    """Makes an empty index, whatever the words were. Refuses 1."""
    address, length, _held = _words(pool)
    _unpack(_lg.lg_start(address, length))


def grant(pool, number, rank, kind, bounds):
    """Adds a grant; kind: 0 bars, 1 opens; bounds: `Bounds`, or its six values. Refuses 1, 3, 4, 2, 16, 9, 5 and 6, in this order."""
    fields = _fits(WORD, number) + _fits(BYTE, rank, kind) + _box(bounds)
    address, length, _held = _words(pool)
    _unpack(_lg.lg_grant(address, length, *fields))


def revoke(pool, number):
    """Drops the grant of a number. Refuses 1, 3, 9 and 7, in this order."""
    _fits(WORD, number)
    address, length, _held = _words(pool)
    _unpack(_lg.lg_revoke(address, length, number))


def list_into(pool, bounds, choice, numbers):
    """Writes the numbers of the live grants that touch a box, or of those that hold it, ascending, from the start of `numbers`, and
    returns how many; elements past them stay. choice: a `Choice`. Refuses 1, 2, 9 and 8, in this order; the choice makes no difference to
    1, 2 and 9."""
    fields = _box(bounds)
    if not isinstance(choice, Choice):
        raise ValueError("%r is not a Choice" % (choice,))
    (address, length, _held), (list_address, list_length, _lent) = _apart(_words(pool), _words(numbers))
    function = _lg.lg_list if choice is Choice.TOUCHING else _lg.lg_list_holding
    return _unpack(function(address, length, *fields, list_address, list_length))[0]


def decide(pool, staff, door, quarter):
    """The grant that decides at a point, or None; its kind says whether it opens. At quarter 65535, which no grant covers, always None.
    Refuses 1 and, but for that quarter, 9, in this order."""
    _fits(WORD, staff, door, quarter)
    out = (ctypes.c_uint16 * 10)()
    address, length, _held = _words(pool)
    decided, _ = _unpack(_lg.lg_decide(address, length, staff, door, quarter, ctypes.addressof(out)))
    if decided == 0:
        return None
    return Grant(out[0], out[1], OPENS if decided == 1 else BARS, Bounds(*out[3:9]))


def count(pool):
    """Live grants, and cells that are free. Refuses 1 and 9, in this order."""
    address, length, _held = _words(pool)
    return Count(*_unpack(_lg.lg_count(address, length)))


def write_into(pool, door_from, door_to, memory):
    """Writes the grants file of a range of doors and returns its length; bytes beyond it stay. Refuses 1, 2, 9 and 14, in this
    order."""
    _fits(WORD, door_from, door_to)
    (address, length, _held), (bytes_address, bytes_length, _lent) = _apart(_words(pool), _lend(memory, ctypes.c_uint8))
    return _unpack(_lg.lg_write(address, length, door_from, door_to, bytes_address, bytes_length))[1]


def load(pool, file):
    """Makes the pool what start and then the file's grants make it, whatever the words were. Refuses 1, the file's faults (10; then
    for each block 12, 11, 13) and 6, in this order."""
    address, length, _held = _words(pool)
    file_address, file_length, _file_held = _copied(file)
    _unpack(_lg.lg_load(address, length, file_address, file_length))


def match(pool, file):
    """Holds the pool's grants that touch the file's doors against the file: None where they are equal, or the lowest number at which
    they differ. Refuses 1, the file's faults and 9, in this order."""
    address, length, _held = _words(pool)
    file_address, file_length, _file_held = _copied(file)
    return _unpack(_lg.lg_match(address, length, file_address, file_length))[0] or None


def block(file, number):
    """The verdict on one block of a file, judged alone. Refuses 10, 12 and 11, in this order."""
    _fits(2**64 - 1, number)
    address, length, _held = _copied(file)
    _unpack(_lg.lg_block(address, length, number))


def block_part(file, number):
    """The slice of the file that a block's records occupy; an empty one for block 0 and for a block that `block` refuses."""
    _fits(2**64 - 1, number)
    address, length, _held = _copied(file)
    part, where = _unpack(_lg.lg_block_part(address, length, number))
    return slice(where, where + part)


def compare_openings(door_record, panel_record):
    """Holds the door record against the panel record. An entry found several times in both agrees as often as in the one that has it
    less often; the others are left. A record has at most 4,096 entries (`Opening.to_bytes`), whose quarters do not fall. Refuses 24,
    tested on both records, and then 25."""
    door_address, door_length, _door_held = _copied(door_record)
    panel_address, panel_length, _panel_held = _copied(panel_record)
    agree, left = _unpack(_lg.lg_compare_openings(door_address, door_length, panel_address, panel_length))
    return Comparison(agree, left >> 16, left & WORD)


class Index:
    """An index of up to `capacity` grants, 1 to 2048, that owns its pool. Threads may share it: a method waits until no other is at
    work on it. A copy is an index of its own. With the same live grants two indexes may hold other words: to compare them, compare
    what they write for doors 0 to 65535."""

    def __init__(self, capacity):
        if not 1 <= operator.index(capacity) <= MOST_CELLS:
            raise ValueError("an index has 1 to {:,} cells, not {}".format(MOST_CELLS, capacity))
        self.pool = array.array("H", bytes(2 * pool_words(capacity)))
        self._alone = threading.RLock()
        start(self.pool)

    def __getstate__(self):
        with self._alone:
            return self.pool[:]

    def __setstate__(self, pool):
        self.pool = pool
        self._alone = threading.RLock()

    def start(self):
        with self._alone:
            start(self.pool)

    def grant(self, number, rank, kind, bounds):
        with self._alone:
            grant(self.pool, number, rank, kind, bounds)

    def revoke(self, number):
        with self._alone:
            revoke(self.pool, number)

    def list(self, bounds, choice):
        """The numbers of the live grants that touch a box, or of those that hold it, ascending; choice: a `Choice`."""
        with self._alone:
            numbers = array.array("H", bytes(2 * count(self.pool).live))
            return numbers[: list_into(self.pool, bounds, choice, numbers)].tolist()

    def decide(self, staff, door, quarter):
        with self._alone:
            return decide(self.pool, staff, door, quarter)

    def count(self):
        with self._alone:
            return count(self.pool)

    def write(self, door_from, door_to):
        """The grants file of a range of doors."""
        with self._alone:
            try:
                needed = write_into(self.pool, door_from, door_to, bytearray())
            except Refused as refused:
                if refused.fault != Fault.BufferTooShort:
                    raise
                needed = refused.value
            file = bytearray(needed)
            write_into(self.pool, door_from, door_to, file)
            return bytes(file)

    def load(self, file):
        with self._alone:
            load(self.pool, file)

    def match(self, file):
        with self._alone:
            return match(self.pool, file)
