"""The command openings against the plain comparison: compare_records.py PROGRAM SEED. Random records, with a base day and without."""
import datetime
import pathlib
import random
import struct
import subprocess
import sys
import tempfile

from openings import compare, left

BASE = datetime.datetime(2026, 1, 1)
SHOWN = 20
PAIRS = 40

program, seed = str(pathlib.Path(sys.argv[1]).resolve()), int(sys.argv[2])
pick = random.Random(seed)


def random_record(most, kinds):
    """Up to so many entries of so many doors, quarters and staff numbers, so that few kinds stand often."""
    entries = [(pick.randrange(kinds), pick.randrange(kinds), pick.randrange(kinds)) for _ in range(pick.randrange(most + 1))]
    return b"".join(struct.pack(">HHI", *entry) for entry in sorted(entries, key=lambda entry: entry[1]))


def row(number, entry, base):
    door, quarter, staff = struct.unpack(">HHI", entry)
    moment = (BASE + datetime.timedelta(minutes=15 * quarter)).strftime(" (%Y-%m-%d %H:%M)") if base else ""
    return f"  entry {number}: door {door}, quarter {quarter}{moment}, staff {staff}"


def side(name, record, other, base):
    found = left(record, other)
    if found:
        yield f"left in the {name} record:"
        yield from (row(number, entry, base) for number, entry in found[:SHOWN])
    if len(found) > SHOWN:
        yield f"  and {len(found) - SHOWN} more"


def told(door, panel, base):
    agree, in_door, in_panel = compare(door, panel)
    yield f"{agree} agree, {in_door} left in the door record, {in_panel} left in the panel record"
    yield from side("door", door, panel, base)
    yield from side("panel", panel, door, base)


def ask(folder, door, panel, base):
    (folder / "door.rec").write_bytes(door)
    (folder / "panel.rec").write_bytes(panel)
    arguments = [program, "openings", folder / "door.rec", folder / "panel.rec"] + (["2026-01-01"] if base else [])
    asked = subprocess.run(arguments, capture_output=True, timeout=10)
    wanted = "".join(line + "\n" for line in told(door, panel, base))
    status = 1 if len(wanted.splitlines()) > 1 else 0
    if (asked.stdout.decode(), asked.stderr, asked.returncode) != (wanted, b"", status):
        sys.exit(f"program: seed {seed}: openings tells\n{asked.stdout.decode()}{asked.stderr.decode()}and not\n{wanted}")


with tempfile.TemporaryDirectory() as name:
    for i in range(PAIRS):
        kinds = pick.choice([1, 2, 3, 65536])
        ask(pathlib.Path(name), random_record(60, kinds), random_record(60, kinds), i % 2 == 0)
print(f"program: seed {seed}: {PAIRS} pairs of records compared as the plain scan compares them")
