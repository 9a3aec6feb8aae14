#!/usr/bin/env python3
"""What the Python module adds to the calls: threads that share an index, its copies, what it refuses before the library is asked, the
names of a box's ends, list's choice, and openings by their fields; its lists and its comparisons of records are held against the plain
scan.

    module.py      says what is not as it should be
"""
import copy
import ctypes
import os
import pickle
import random
import subprocess
import sys
import threading
import time

ROOT = os.path.join(os.path.dirname(os.path.abspath(__file__)), "..", "..")
MODULE = os.path.join(ROOT, "bindings", "python")
sys.path[:0] = [MODULE, os.path.join(ROOT, "tests", "plain")]
import book
import lg
import openings

WRITERS = ("lg_start", "lg_grant", "lg_revoke", "lg_load")
EVERYTHING = (0, lg.WORD) * 3
THREADS = 4
GRANTS = 40
PAIRS = 500
INDEXES = 200


def check(holds, what):
    if not holds:
        sys.exit("compare: Python: " + what)


class Drawn:
    """The library with calls that are drawn out, so that two which may be at work on one pool at once are, for certain: a writer
    stores its words a while after it read them, a reader looks whether the words stayed. Other threads run meanwhile, as they do in
    any call by ctypes."""

    def __init__(self, library):
        self.library = library
        self.disturbed = 0

    def __getattr__(self, name):
        function = getattr(self.library, name)

        def call(address, length, *arguments):
            words = (ctypes.c_uint16 * length).from_address(address)
            own = type(words).from_buffer_copy(words)
            before = bytes(own)
            word = function(ctypes.addressof(own), length, *arguments)
            time.sleep(0.0002)
            if bytes(words) != before:
                self.disturbed += 1
            if name in WRITERS:
                ctypes.memmove(words, own, ctypes.sizeof(own))
            return word

        return call


def at_work(index, thread, accepted, refused):
    """One thread's grants, each followed by a question of another kind; notes each grant that was accepted."""
    questions = (
        index.count,
        lambda: index.list(EVERYTHING, lg.Choice.TOUCHING),
        lambda: index.list(EVERYTHING, lg.Choice.HOLDING),
        lambda: index.decide(thread, thread, thread),
        lambda: index.match(index.write(0, lg.WORD)),
        lambda: copy.copy(index).count(),
    )
    for i in range(GRANTS):
        number = 1 + thread * GRANTS + i
        try:
            index.grant(number, 200 + thread, lg.OPENS, (thread, thread, i, lg.WORD, 0, lg.WORD))
            accepted.append(number)
            questions[i % len(questions)]()
            if i % 4 == 3:
                index.revoke(number)
                accepted.remove(number)
        except lg.Refused as why:
            refused.append("grant %d: %s" % (number, why))


def try_threads():
    """Threads that share an index lose nothing: the live grants are those that were accepted and not revoked."""
    library, lg._lg = lg._lg, Drawn(lg._lg)
    index = lg.Index(THREADS * GRANTS)
    accepted, refused = [], []
    threads = [threading.Thread(target=at_work, args=(index, t, accepted, refused)) for t in range(THREADS)]
    for thread in threads:
        thread.start()
    for thread in threads:
        thread.join()
    drawn, lg._lg = lg._lg, library
    live = index.list(EVERYTHING, lg.Choice.TOUCHING)
    check(live == sorted(accepted), "threads that share an index: %d grants were accepted, %d are live" % (len(accepted), len(live)))
    check(not refused, "%d calls of threads that share an index were refused; the first: %s" % (len(refused), (refused or [""])[0]))
    check(drawn.disturbed == 0, "%d calls were at work on a pool while another changed it" % drawn.disturbed)
    return len(accepted)


def try_copies():
    """A copy is an index of its own, with the same grants."""
    index = lg.Index(2)
    index.grant(1, 200, lg.OPENS, EVERYTHING)
    for other in (copy.copy(index), copy.deepcopy(index), pickle.loads(pickle.dumps(index))):
        check(other.list(EVERYTHING, lg.Choice.TOUCHING) == [1], "a copy has other grants")
        other.grant(2, 200, lg.OPENS, EVERYTHING)
        check(index.list(EVERYTHING, lg.Choice.TOUCHING) == [1], "a copy's grant is in the index that it was copied from")


def says(act, *parts):
    """The act is refused by the module, with a message that has these parts."""
    try:
        act()
    except ValueError as why:
        check(all(part in str(why) for part in parts), "the message has no %s: %s" % (" and ".join(parts), why))
        return
    check(False, "not refused, and this should be said: " + " ".join(parts))


def try_memory():
    """A pool or a list at an odd address is refused, and is not changed; memory of no length may lie anywhere."""
    length = 2 * lg.pool_words(1)
    memory = bytearray(b"\xa5" * (length + 2))
    odd = next(view for view in (memoryview(memory)[at : at + length] for at in (0, 1)) if address_of(view) % 2).cast("H")
    pool = lg.Index(1).pool
    says(lambda: lg.start(odd), "even address", "%#x" % address_of(odd))
    says(lambda: lg.grant(odd, 1, 200, lg.OPENS, EVERYTHING), "even address")
    for choice in lg.Choice:
        says(lambda: lg.list_into(pool, EVERYTHING, choice, odd), "even address")
        check(lg.list_into(pool, EVERYTHING, choice, odd[:0]) == 0, "no room at an odd address is not enough for no hits")
    check(set(memory) == {0xA5}, "memory at an odd address was changed")


def address_of(view):
    return ctypes.addressof((ctypes.c_char * view.nbytes).from_buffer(view))


def try_capacities():
    """A capacity that no pool has is refused with the capacities that there are."""
    for capacity in (0, -1, 2049, 65536):
        says(lambda: lg.Index(capacity), "1 to 2,048 cells", "not %d" % capacity)
    for capacity in (1, 2048):
        check(lg.Index(capacity).count() == (0, capacity), "no index of %d cells" % capacity)


def try_quarters():
    """A grant covers the quarters of Python's range from quarter_from to quarter_until; where that is empty, it is refused."""
    everything = lg.Bounds(*EVERYTHING)
    for covered in (range(88, 120), range(1), range(lg.WORD), range(lg.WORD - 1, lg.WORD)):
        index = lg.Index(1)
        bounds = everything._replace(quarter_from=covered.start, quarter_until=covered.stop)
        index.grant(1, 200, lg.OPENS, bounds)
        for quarter in {0, 1, 87, 88, 119, 120, 121, lg.WORD - 2, lg.WORD - 1, lg.WORD}:
            right = lg.Grant(1, 200, lg.OPENS, bounds) if quarter in covered else None
            decided = index.decide(1, 1, quarter)
            check(decided == right, "%s is right at quarter %d, the module answers %s" % (right, quarter, decided))
    for start, stop in ((0, 0), (88, 88), (lg.WORD, lg.WORD), (89, 88)):
        empty = everything._replace(quarter_from=start, quarter_until=stop)
        lists = [lambda choice=choice: lg.Index(1).list(empty, choice) for choice in lg.Choice]
        for act in (lambda: lg.Index(1).grant(1, 200, lg.OPENS, empty), *lists):
            why = refusal(act)
            check(why.fault == lg.Fault.Reversed and "cover nothing" in str(why), "quarters %d to %d: %s" % (start, stop, why))


def refusal(act):
    """The refusal of an act that the library refuses."""
    try:
        act()
    except lg.Refused as why:
        return why
    check(False, "not refused")


def try_choices():
    """List takes a Choice and nothing that looks like one; it lists the grants that hold a box, or those that touch it too."""
    index = lg.Index(3)
    index.grant(1, 200, lg.OPENS, EVERYTHING)
    index.grant(2, 200, lg.OPENS, (5, 9, 5, 9, 5, 9))
    index.grant(3, 200, lg.OPENS, (9, 9, 9, 9, 9, 10))
    for choice in ("holding", "HOLDING", 0, 1, None, book.Choice.HOLDING, lg.Choice):
        says(lambda: index.list(EVERYTHING, choice), "not a Choice", repr(choice))
    listed = {choice: index.list((5, 9, 5, 9, 5, 9), choice) for choice in lg.Choice}
    check(listed == {lg.Choice.TOUCHING: [1, 2], lg.Choice.HOLDING: [1, 2]}, "the lists of a grant's own box: %s" % listed)
    listed = {choice: index.list((5, 9, 5, 9, 5, 10), choice) for choice in lg.Choice}
    check(listed == {lg.Choice.TOUCHING: [1, 2, 3], lg.Choice.HOLDING: [1]}, "the lists of a box that is a quarter longer: %s" % listed)


def any_box(drawn):
    """A box of few values, whose staff and doors are in order and whose quarters cover one at least."""
    staff, doors, quarters = (sorted(drawn.choice((0, 1, 2, 3, 4, lg.WORD)) for _ in range(2)) for _ in range(3))
    if quarters[0] == quarters[1]:
        quarters = [0, lg.WORD]
    return (*staff, *doors, *quarters)


def one_off(drawn, box):
    """The box with an end moved by one."""
    end = drawn.randrange(6)
    return tuple(min(lg.WORD, max(0, value + drawn.choice((-1, 1)))) if i == end else value for i, value in enumerate(box))


def try_lists():
    """Lists under either choice are the plain scan's, of any boxes, of those of grants and of those that are one off at an end."""
    drawn = random.Random(1)
    seen = set()
    for _ in range(INDEXES):
        index, plain = lg.Index(8), book.Book(8)
        boxes = [any_box(drawn) for _ in range(8)]
        for number, box in enumerate(boxes, 1):
            index.grant(number, 200, lg.OPENS, box)
            plain.grant(book.Grant(number, 200, lg.OPENS, *box))
        for box in boxes + [one_off(drawn, box) for box in boxes] + [any_box(drawn)]:
            both = []
            for choice in lg.Choice:
                right = outcome(plain.list, book.Refused, book.box_of(box), book.Choice[choice.name], 8)
                ours = outcome(index.list, lg.Refused, box, choice)
                check(ours == right, "%s is right, the module answers %s to %s of %s among %s" % (right, ours, choice, box, boxes))
                both.append(right)
            seen.add("refused" if both[0] == lg.Fault.Reversed else len(both[0]) - len(both[1]) > 0)
    check(seen == {"refused", False, True}, "the lists compared have only these outcomes: %s" % seen)


def try_entries():
    """An entry is door, quarter and staff with the high byte first; a value that does not fit its field is refused."""
    opening = lg.Opening(0x0102, 0x0304, 0x05060708)
    entry = bytes((1, 2, 3, 4, 5, 6, 7, 8))
    check(opening.to_bytes() == entry, "%s has the bytes %s" % (opening, opening.to_bytes().hex()))
    check(lg.Opening.from_bytes(entry) == opening, "%s is read as %s" % (entry.hex(), lg.Opening.from_bytes(entry)))
    highest = lg.Opening(lg.WORD, lg.WORD, lg.DOUBLE_WORD)
    check(highest.to_bytes() == b"\xff" * 8, "%s has the bytes %s" % (highest, highest.to_bytes().hex()))
    for field, above in (("door", lg.WORD + 1), ("quarter", lg.WORD + 1), ("staff", lg.DOUBLE_WORD + 1)):
        for value in (-1, above):
            says(opening._replace(**{field: value}).to_bytes, "%d is not 0 to %d" % (value, above - 1))
    for length in (0, 7, 9):
        says(lambda: lg.Opening.from_bytes(bytes(length)), "8 bytes, not %d" % length)


def any_record(drawn):
    """A record of openings that repeat, few of them or as many as there may be, at times with a quarter that falls, one entry too many,
    or a rest that is none."""
    length = drawn.choice((0, 1, 2, 5, 20, 60) * 4 + (4096, 4097))
    quarters = sorted(drawn.choice((0, 1, 255, 256, lg.WORD)) for _ in range(length))
    if drawn.randrange(8) == 0:
        drawn.shuffle(quarters)
    staff = (0, 1, 65536, lg.DOUBLE_WORD)
    record = b"".join(lg.Opening(drawn.choice((0, 1, 256)), quarter, drawn.choice(staff)).to_bytes() for quarter in quarters)
    return record + bytes(drawn.choice((0, 0, 0, 0, 0, 0, 0, drawn.randrange(8))))


def outcome(act, refused, *arguments):
    """The numbers that an act answers, or a fault's number."""
    try:
        return tuple(act(*arguments))
    except refused as why:
        return why.fault


def try_openings():
    """Comparisons answer as the plain scan does, with each number under its name, on whatever memory the records are in."""
    drawn = random.Random(1)
    memories = (bytes, bytearray, lambda record: memoryview(bytearray(record)))
    seen = set()
    for _ in range(PAIRS):
        door, panel = any_record(drawn), any_record(drawn)
        right = outcome(openings.compare, book.Refused, door, panel)
        ours = outcome(lg.compare_openings, lg.Refused, drawn.choice(memories)(door), drawn.choice(memories)(panel))
        check(ours == right, "%s is right, the module answers %s to records %s and %s" % (right, ours, door.hex(), panel.hex()))
        seen.add(right if isinstance(right, int) else right[0] > 0)
    check(seen == {True, False, 24, 25}, "the records compared have only these outcomes: %s" % seen)
    one, other = (lg.Opening(1, 2, staff).to_bytes() for staff in (3, 4))
    compared = lg.compare_openings(one * 3, one + other * 3)
    check(compared._asdict() == {"agree": 1, "left_in_door": 2, "left_in_panel": 3}, "numbers under other names: %s" % (compared,))


def try_library(path):
    """Without a library, importing the module says how to make one."""
    environment = dict(os.environ, LG_LIBRARY=path, PYTHONPATH=MODULE)
    tried = subprocess.run([sys.executable, "-c", "import lg"], env=environment, stderr=subprocess.PIPE, text=True)
    said = tried.stderr.strip().splitlines()[-1:]
    parts = ("ImportError", path, "tools/build c_api", "bindings/python/build", "LG_LIBRARY")
    check(said and all(part in said[0] for part in parts), "import without a library at %s says: %s" % (path, said))


try_copies()
try_memory()
try_capacities()
try_quarters()
try_choices()
try_lists()
try_entries()
try_openings()
try_library(os.path.join(ROOT, "no", "liblg.so"))
try_library(os.path.abspath(__file__))
print(
    "compare: threads that share a Python index keep all of %d grants; the module refuses what can't be lent; the lists of %d indexes and"
    " %d pairs of records as the plain scan has them" % (try_threads(), INDEXES, PAIRS)
)
