#!/usr/bin/env python3
"""Replays a trace through the Python wrapper: every answer and every digest must be as the trace has it.

    replay.py TRACE

A line `pool WORDS` begins anew; every other line is a call, `=`, the word of the C interface, and the digests of pool and lent memory.
"""
import array
import os
import sys
import zlib

sys.path.insert(0, os.path.join(os.path.dirname(os.path.abspath(__file__)), "..", "..", "bindings", "python"))
import lg

GUARDS = 16  # as many as the words of a cell, and more


class Guarded:
    """Memory with guards before and behind it that must stay."""

    def __init__(self, typecode, contents):
        self.guard = array.array(typecode, [0xA5] * GUARDS)
        self.all = self.guard + array.array(typecode, contents) + self.guard
        self.view = memoryview(self.all)[GUARDS : len(self.all) - GUARDS]

    def digest(self):
        if self.all[:GUARDS] != self.guard or self.all[-GUARDS:] != self.guard:
            raise AssertionError("memory outside what was lent changed")
        return zlib.crc32(self.view)


def pattern(length):
    """What lent memory holds before a call."""
    return [(i * 40503 + 42405) & 0xFFFF for i in range(length)]


def words(digits):
    return [] if digits == "-" else [int(digits[i : i + 4], 16) for i in range(0, len(digits), 4)]


def data(digits):
    return b"" if digits == "-" else bytes.fromhex(digits)


def grant(pool, *fields):
    lg.grant(pool, *fields[:3], fields[3:])
    return 0, 0, Guarded("H", [])


def listed(choice, pool, *fields):
    lent = Guarded("H", pattern(fields[6]))
    try:
        return lg.list_into(pool, fields[:6], choice, lent.view), 0, lent
    except lg.Refused as refused:
        refused.lent = lent
        raise


def touching(pool, *fields):
    return listed(lg.Choice.TOUCHING, pool, *fields)


def holding(pool, *fields):
    return listed(lg.Choice.HOLDING, pool, *fields)


def decide(pool, *point):
    lent = Guarded("H", pattern(10))
    try:
        decided = lg.decide(pool, *point)
    except lg.Refused as refused:
        refused.lent = lent
        raise
    if decided is None:
        return 0, 0, lent
    number, rank, kind, bounds = decided
    return 1 if kind == lg.OPENS else 2, 0, Guarded("H", [number, rank, kind, *bounds, 0])


def written(pool, door_from, door_to, length):
    lent = Guarded("B", [word & 0xFF for word in pattern(length)])
    try:
        return 0, lg.write_into(pool, door_from, door_to, lent.view), lent
    except lg.Refused as refused:
        refused.lent = lent
        raise


def part(file, number):
    piece = lg.block_part(file, number)
    return piece.stop - piece.start, piece.start


def compared(door, panel):
    """The values a and b of a comparison, and both records, one behind the other; `same` stands for one memory as both."""
    lent = Guarded("B", data(door) + (b"" if panel == "same" else data(panel)))
    door_record, behind = lent.view[: len(data(door))], lent.view[len(data(door)) :]
    try:
        agree, left_in_door, left_in_panel = lg.compare_openings(door_record, door_record if panel == "same" else behind)
    except lg.Refused as refused:
        refused.lent = lent
        raise
    return agree, left_in_door << 16 | left_in_panel, lent


def make(pool, name, fields):
    """The values a and b of a call, and the memory lent to it."""
    calls = {"grant": grant, "list": touching, "list_holding": holding, "decide": decide, "write": written}
    if name in calls:
        return calls[name](pool, *map(int, fields))
    nothing = Guarded("H", [])
    if name in ("start", "revoke"):
        getattr(lg, name)(pool, *map(int, fields))
        return 0, 0, nothing
    if name == "count":
        return *lg.count(pool), nothing
    if name == "load":
        lg.load(pool, data(fields[0]))
        return 0, 0, nothing
    if name == "match":
        return lg.match(pool, data(fields[0])) or 0, 0, nothing
    if name == "block":
        lg.block(data(fields[1]), int(fields[0]))
        return 0, 0, nothing
    if name == "part":
        return *part(data(fields[1]), int(fields[0])), nothing
    return compared(*fields)


def answer(pool, name, fields):
    """The word of the C interface, made again from what the wrapper says, and the lent memory."""
    try:
        a, b, lent = make(pool, name, fields)
        return a << 8 | b << 32, lent
    except lg.Refused as refused:
        value = refused.value or 0
        lent = getattr(refused, "lent", Guarded("H", []))
        return refused.number | (value << 8 if refused.number == 8 else value << 32), lent


def replay(trace):
    calls = 0
    for line in trace:
        name, *fields = line.split()
        if name == "pool":
            pool = Guarded("H", words(fields[0]))
            continue
        word, lent = answer(pool.view, name, fields[:-4])
        given = ["%016x" % word, "%08x" % pool.digest(), "%08x" % lent.digest()]
        if given != fields[-3:]:
            sys.exit("compare: Python answers %s to:\n%s" % (" ".join(given), line))
        calls += 1
    return calls


with open(sys.argv[1]) as trace:
    print("compare: %d calls answered alike through the Python wrapper" % replay(trace))
