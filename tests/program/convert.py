"""bin/convert-journal against plain computations: convert.py bytes|answers CONVERTER PROGRAM SEED.

bytes: random files, most lines of which are slips, are converted; every byte of the new one, or every line that is refused, is compared.
answers: random old journals are converted and cut, and the panel is asked about every point: it must answer what a plain list of the old journal's
grants answers while the quarter to is the last one covered, and what the plain book answers after the new journal."""
import pathlib
import random
import re
import subprocess
import sys
import tempfile

from book import Grant, outranks, share
from slips import LONGEST, lines_of, read, replay

DOORS = STAFF = range(4)
# A grant's quarters are of these, so that there are old grants from a quarter to itself, and ones that end at the last quarter that can be covered.
QUARTERS = [*range(9), *range(65528, 65535)]
REFUSED = re.compile(r"convert-journal: .*, line (\d+): the quarter to is 65535, ")
ANSWER = re.compile(r"staff (\d+), door (\d+), quarter (\d+): (?:(OPENS|BARRED), by grant (\d+)|NO GRANT, do not open)")

mode = sys.argv[1]
converter, program = (str(pathlib.Path(name).resolve()) for name in sys.argv[2:4])
seed = int(sys.argv[4])
pick = random.Random(seed)


def end(what):
    sys.exit(f"convert: seed {seed}: {what}")


def convert(journal, folder):
    """The new journal, or None; and the lines that are refused for their quarter to. Nothing else is left in the folder."""
    old, new = folder / "old", folder / "new"
    old.write_bytes(journal)
    ran = subprocess.run([converter, "old", "new"], cwd=folder, capture_output=True, timeout=60, check=False)
    refused = [int(number) for number in REFUSED.findall(ran.stderr.decode(errors="replace"))]
    if ran.returncode != (1 if refused else 0):
        end(f"the converter ends with status {ran.returncode}: {ran.stderr.decode(errors='replace')}")
    if old.read_bytes() != journal:
        end("the old journal was changed")
    names = {path.name for path in folder.iterdir()}
    if names != ({"old"} if refused else {"old", "new"}):
        end(f"the converter leaves {names}")
    return None if refused else new.read_bytes(), refused


# Every byte.


def spoiled(line):
    """A grant's line spoiled in one place, or changed in a way that a slip may be."""
    fields = line.split(b" ")
    place = pick.randrange(1, len(fields))
    other = [b"", b"65536", b"99999999999999999999", b"256", b"255", b"-1", b"+1", b"1.0", b"0x1", b"\xc3\xa9", b"1\0", b"\t1", b"00000" + fields[place]]
    changed = fields[:place] + [pick.choice(other)] + fields[place + 1 :]
    zeros = fields[:place] + [b"0" * (LONGEST + pick.randrange(-1, 2) - len(line)) + fields[place]] + fields[place + 1 :]
    whole = [line + b"\r", line + b" ", b" " + line, line.lower(), line.replace(b" ", b"  ", 1), line + b" 1", line[:-1], b"G", b"", b"G" + line]
    return pick.choice([b" ".join(changed), b" ".join(zeros), pick.choice(whole), bytes(pick.choices(range(256), k=9)).replace(b"\n", b"")])


def random_line(highest):
    """A slip or another line, with a quarter to up to the highest."""
    ends = [pick.choice([0, 9, 99, 4095, 65534, pick.randrange(65536)]) for _ in range(5)]
    grant = b"G %d %d %d " % (pick.randrange(65536), pick.randrange(256), pick.randrange(3))
    grant += b" ".join(b"%d" % value for value in ends) + b" %d" % pick.choice([9, 63, 9999, highest, pick.randrange(highest)])
    if pick.random() < 0.3:
        return spoiled(grant)
    return pick.choice([grant, grant, b"R 7", b"L 1 2 3 4 5 6", b"D 1 2 3", b"C"])


def raised(line):
    """The line as it must be in the new journal."""
    slip = read(line)
    if slip is None or slip[0] != "G":
        return line
    before, to = line[: line.rindex(b" ") + 1], line[line.rindex(b" ") + 1 :]
    return before + str(int(to) + 1).zfill(len(to)).encode()


def is_at_end(line):
    slip = read(line)
    return slip is not None and slip[0] == "G" and slip[1][-1] == 65535


def try_bytes(highest):
    """Whether a random journal was converted, and not refused. No line in it outgrows a slip by being raised."""
    lines = (random_line(highest) for _ in range(pick.randrange(40)))
    journal = b"".join(line + b"\n" for line in lines if len(raised(line)) <= max(LONGEST, len(line)))
    if pick.random() < 0.5:
        journal = journal[:-1]
    with tempfile.TemporaryDirectory() as folder:
        new, refused = convert(journal, pathlib.Path(folder))
    wanted = [number for number, line in enumerate(journal.split(b"\n"), 1) if is_at_end(line)]
    if refused != wanted:
        end(f"lines {refused} are refused, and not {wanted}")
    if new is not None and new != b"\n".join(raised(line) for line in journal.split(b"\n")):
        end(f"the new journal is another one than\n{journal!r}\nraised:\n{new!r}")
    return new is not None


# Every answer.


def old_journal(count):
    """Grants and revokes, with the last quarter covered as quarter to."""
    lines, live = [], []
    for number in pick.sample(range(1, 65536), count):
        ends = [end for values in (STAFF, DOORS, QUARTERS) for end in sorted(pick.choices(values, k=2))]
        lines.append(f"G {number} {pick.randrange(3)} {pick.randrange(2)} {' '.join(str(e) for e in ends)}\n")
        live.append(number)
        if pick.random() < 0.2:
            lines.append(f"R {live.pop(pick.randrange(len(live)))}\n")
    return "".join(lines).encode()


def live_grants(journal):
    """What an old journal leaves: the book of today would refuse a grant from a quarter to itself."""
    live = {}
    for letter, values in map(read, lines_of(journal)):
        if letter == "G":
            live[values[0]] = Grant(*values)
        else:
            del live[values[0]]
    return list(live.values())


def decide_as_before(live, point):
    """The deciding grant while the last quarter counted, or None: every range closed."""
    best = None
    for grant in live:
        if all(share(ends, (value, value)) for ends, value in zip(grant.box, point)) and (best is None or outranks(grant, best)):
            best = grant
    return best


def answer(grant):
    return None if grant is None else (("BARRED", "OPENS")[grant.kind], grant.number)


def run(words, text=""):
    ran = subprocess.run([program, *words], input=text, capture_output=True, text=True, timeout=60, check=False)
    if ran.returncode or ran.stderr:
        end(f"grants {' '.join(words)}: status {ran.returncode}, on standard error: {ran.stderr}")
    return ran.stdout


def ask_panel(bank, points):
    """What the panel answers about each point."""
    text = run(["panel", bank], "".join("may %d %d %d\n" % point for point in points))
    return {(int(s), int(d), int(q)): (does, int(number)) if does else None for s, d, q, does, number in ANSWER.findall(text)}


def try_answers(count):
    journal = old_journal(count)
    points = [(s, d, q) for s in STAFF for d in DOORS for q in [*QUARTERS, 9, 65527, 65535]]
    with tempfile.TemporaryDirectory() as name:
        folder = pathlib.Path(name)
        new, refused = convert(journal, folder)
        if refused:
            end(f"lines {refused} are refused")
        bank = str(folder / "bank")
        run(["cut", str(folder / "new"), "0", "3", bank])
        given = ask_panel(bank, points)
    live, book = live_grants(journal), replay(new)
    for point in points:
        before, after = answer(decide_as_before(live, point)), answer(book.decide(*point))
        if not before == after == given[point]:
            end(f"staff, door, quarter {point}: before {before}, in the new journal's book {after}, from the panel {given[point]}")
    return len(points)


if mode == "bytes":
    # Every other journal may have a quarter to that can't be raised.
    tries = [try_bytes(65534 + i % 2) for i in range(40)]
    converted = sum(tries)
    if not 0 < converted < len(tries):
        end("no journal was refused, or every one")
    print(f"convert: seed {seed}: {converted} journals converted to the last byte, {len(tries) - converted} refused as they must be")
else:
    asked = sum(try_answers(count) for count in (0, 1, 7, 20, 40))
    print(f"convert: seed {seed}: {asked} answers after converting as before it")
