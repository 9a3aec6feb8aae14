"""The panel against the plain book: ask.py PROGRAM SEED. Random grants are cut to a file, and random questions asked of it, with a base day and
without. Which grants hold a whole shift is asked here of a grant's staff numbers, doors and quarters, as ranges of numbers."""
import datetime
import itertools
import pathlib
import random
import subprocess
import sys
import tempfile

from book import box_of, outranks, share
from grants_file import file_of
from slips import replay

DOORS = (2, 7)
BASE = datetime.datetime(2026, 1, 1)
# Grants begin and end at these, and they are asked about: the last that a grant can cover is 65534.
QUARTERS = [*range(11), 65533, 65534, 65535]

program, seed = str(pathlib.Path(sys.argv[1]).resolve()), int(sys.argv[2])
pick = random.Random(seed)
# The kinds of `covers` that have been asked, of a door of the bank where they say nothing of it, and those that must be.
reached = set()
KINDS = {"held", "not held", "a grant's own quarters", "from one earlier", "to one later", "one quarter", "empty", "reversed", "foreign door"}
KINDS |= {"day and time", "from within a quarter", "to within a quarter"}


def span(most):
    ends = sorted(pick.choices(range(most + 1), k=2))
    return f"{ends[0]} {ends[1]}"


def shift():
    start, end = sorted(pick.sample(QUARTERS, 2))
    return f"{start} {end}"


def journal_of(count):
    numbers = pick.sample(range(1, 65536), count)
    return "".join(f"G {n} {pick.randrange(4)} {pick.randrange(2)} {span(12)} {span(9)} {shift()}\n" for n in numbers).encode()


def moment(quarter):
    """The day and time at which a quarter begins."""
    return (BASE + datetime.timedelta(minutes=15 * quarter)).strftime("%Y-%m-%d %H:%M")


def asked_quarter(quarter, base):
    return f"quarter {quarter} ({moment(quarter)})" if base else f"quarter {quarter}"


def standing(rows, g):
    """In words, by asking of each staff number of g whether a row that outranks it has it too."""
    higher = [h for h in rows if outranks(h, g)]
    lost = [any(share(h.staff, (s, s)) for h in higher) for s in range(g.staff[0], g.staff[1] + 1)]
    if all(lost):
        return ", OVERRIDDEN"
    return ", in part" if any(lost) else ""


def row(values, does):
    return "".join(f"{v:8}" for v in values) + "  " + does


def who(book, door, quarter, base):
    rows = book.hits(box_of((0, 65535, door, door, quarter, quarter + 1)))
    yield f"door {door}, {asked_quarter(quarter, base)}"
    yield "  number    rank   staff      to   until  day and time      does"
    for i, g in enumerate(rows):
        if i > 0 and i % 16 == 0:
            yield "more: press Enter"
            yield ""
        until = g.quarters[1]
        does = ("bars", "opens")[g.kind] + standing(rows, g)
        yield row([g.number, g.rank, *g.staff, until], f"{moment(until) if base else '-':16}  {does}")
    if rows:
        yield f"{len(rows)} in all"
        yield "in part: a higher grant decides for some of its staff, so ask may"
        yield "OVERRIDDEN: higher grants decide for all its staff, so do not act on it"
    else:
        yield "no grant: nobody may open it"
    yield ""


def may(book, staff, door, quarter, base):
    g = book.decide(staff, door, quarter)
    asked = f"staff {staff}, door {door}, {asked_quarter(quarter, base)}: "
    if g is None:
        yield asked + "NO GRANT, do not open"
    else:
        yield asked + ("BARRED", "OPENS")[g.kind] + f", by grant {g.number}"
        yield "  number    rank   staff      to   doors      to quarter   until  does"
        yield row([g.number, g.rank, *g.staff, *g.doors, *g.quarters], ("bars", "opens")[g.kind])
        if base:
            yield f"from {moment(g.quarters[0])} until {moment(g.quarters[1])}"
    yield ""


def refusal():
    yield "refused 2: a range starts above its end, or the quarters end where they start: put the lower number first; " \
        "the quarter to is the first that isn't covered"


def foreign(book, door):
    touching = len(book.touching(DOORS))
    grants = "1 grant" if touching == 1 else f"{touching} grants"
    yield f"door {door} is not of this bank: ask about one of its own"
    yield f"doors {DOORS[0]} to {DOORS[1]}, {grants}, {len(file_of(DOORS, book))} bytes"


def ours(door):
    return DOORS[0] <= door <= DOORS[1]


def reach(door, kind):
    """A kind of question whose answer is more than that the door isn't the bank's."""
    if ours(door):
        reached.add(kind)


def has_place(g, staff, door):
    return staff in range(g.staff[0], g.staff[1] + 1) and door in range(g.doors[0], g.doors[1] + 1)


def holding(book, staff, door, start, end):
    """The grants that have the staff number, the door, and both the first and the last of the quarters."""
    def has(g):
        quarters = range(*g.quarters)
        return has_place(g, staff, door) and start in quarters and end - 1 in quarters

    return [g for g in book.live if has(g)]


def held_rows(rows):
    if not rows:
        yield "no grant holds all of it"
        return
    yield "  number    rank   staff      to   doors      to quarter   until  does"
    for i, g in enumerate(rows):
        if i > 0 and i % 16 == 0:
            yield "more: press Enter"
            yield ""
        yield row([g.number, g.rank, *g.staff, *g.doors, *g.quarters], ("bars", "opens")[g.kind])
    yield f"{len(rows)} in all"
    yield "a higher grant may decide otherwise for some or all of it; may tells, a quarter at a time"


def beside(book, staff, door, start, end):
    """How the quarters lie to those of the grants that have the staff number and the door."""
    names = {(0, 0): "a grant's own quarters", (-1, 0): "from one earlier", (0, 1): "to one later"}
    off = [(start - g.quarters[0], end - g.quarters[1]) for g in book.live if has_place(g, staff, door)]
    return {names[o] for o in off if o in names}


def covers(book, staff, door, start, end, base):
    if not ours(door):
        reached.add("foreign door")
        yield from foreign(book, door)
    else:
        yield f"staff {staff}, door {door}, from {asked_quarter(start, base)} until {asked_quarter(end, base)}"
        if start < end:
            rows = holding(book, staff, door, start, end)
            reached.add("held" if rows else "not held")
            reached.update(beside(book, staff, door, start, end))
            yield from held_rows(rows)
        else:
            yield from refusal()
    yield ""


def near(quarter):
    """The quarter, or one beside it."""
    return pick.choice([q for q in (quarter - 1, quarter, quarter, quarter + 1) if 0 <= q <= 65535])


def shift_of(g):
    """A grant's own values, or nearly: which staff number and door, and quarters from and to."""
    return pick.choice(g.staff), pick.choice(g.doors), near(g.quarters[0]), near(g.quarters[1])


def any_shift(book):
    if book.live and pick.random() < 0.7:
        return shift_of(pick.choice(book.live))
    return pick.randrange(14), pick.randrange(10), pick.choice(QUARTERS), pick.choice(QUARTERS)


def typed_moments(door, start, end):
    """A day and time in the first quarter, and one in the last quarter or at its end."""
    after, before = pick.choice([0, 0, 1, 14]), pick.choice([0, 0, 1, 14]) if end else 0
    reach(door, "day and time")
    if after:
        reach(door, "from within a quarter")
    if before:
        reach(door, "to within a quarter")
    first, last = (BASE + datetime.timedelta(minutes=m) for m in (15 * start + after, 15 * end - before))
    return f"{first:%Y-%m-%d %H:%M} {last:%Y-%m-%d %H:%M}"


def covers_line(staff, door, start, end, base):
    """The line that asks it, in numbers or as days and times."""
    if end <= start:
        reach(door, "empty" if end == start else "reversed")
    if end == start + 1:
        reach(door, "one quarter")
    quarters = typed_moments(door, start, end) if base and pick.random() < 0.5 else f"{start} {end}"
    return f"covers {staff} {door} {quarters}"


def run(words, text=""):
    """What the program prints; it may say nothing on standard error."""
    ran = subprocess.run([program, *words], input=text, capture_output=True, text=True, check=False)
    if ran.returncode or ran.stderr:
        sys.exit(f"ask: seed {seed}: grants {' '.join(words)}: status {ran.returncode}, on standard error: {ran.stderr}")
    return ran.stdout


def one_question(book, base):
    """A line to type, and the lines that the panel must print."""
    door, quarter, staff = pick.randrange(DOORS[0], DOORS[1] + 1), pick.choice(QUARTERS), pick.randrange(14)
    word = pick.choice(("who", "may", "may", "covers"))
    if word == "who":
        return f"who {door} {quarter}", list(who(book, door, quarter, base))
    if word == "may":
        return f"may {staff} {door} {quarter}", list(may(book, staff, door, quarter, base))
    box = any_shift(book)
    return covers_line(*box, base), list(covers(book, *box, base))


def questions_and_answers(book, count, base):
    """Lines to type, with an empty one for each screenful after the first, and the lines that the panel must print."""
    questions, answers = [], []
    for _ in range(count):
        line, shown = one_question(book, base)
        questions += [line] + [""] * shown.count("more: press Enter")
        answers += shown
    return questions, answers


def first_difference(given, right):
    for i, (a, b) in enumerate(itertools.zip_longest(given, right, fillvalue="(nothing)")):
        if a != b:
            return f"line {i + 1} is\n  {a}\nand not\n  {b}"
    return None


def ask(book, bank, count, base):
    """Asks of the file of so many grants; how many lines were typed."""
    questions, answers = questions_and_answers(book, 80, base)
    words = ["panel", str(bank)] + (["2026-01-01"] if base else [])
    given = run(words, "".join(q + "\n" for q in questions)).split("\n\n", 1)[1].splitlines()
    difference = first_difference(given, answers)
    if difference is not None:
        sys.exit(f"ask: seed {seed}, {count} grants: the panel and the plain book differ: {difference}")
    return len(questions)


def try_grants(count, folder):
    """Cuts so many grants, asks, matches; how many lines were typed."""
    journal = journal_of(count)
    book = replay(journal)
    path, bank = folder / "journal", folder / "bank"
    path.write_bytes(journal)
    run(["cut", str(path), str(DOORS[0]), str(DOORS[1]), str(bank)])
    if bank.read_bytes() != file_of(DOORS, book):
        sys.exit(f"ask: seed {seed}, {count} grants: another file than document 01's")
    typed = ask(book, bank, count, base=False) + ask(book, bank, count, base=True)
    if run(["match", str(path), str(bank)]) != "equal\n":
        sys.exit(f"ask: seed {seed}, {count} grants: the file that was cut doesn't match")
    return typed


asked = 0
for count in (0, 1, 5, 31, 32, 60):
    with tempfile.TemporaryDirectory() as folder:
        asked += try_grants(count, pathlib.Path(folder))
if KINDS - reached:
    sys.exit(f"ask: seed {seed}: no such question was asked: {', '.join(sorted(KINDS - reached))}")
print(f"ask: {asked} questions as the plain book answers them")
