"""A bank restored from paper: restored.py PROGRAM SEED. Journals that leave the same grants, in other orders and with revokes in between, must be cut
into the same files, byte for byte, and each matches the others' files. A journal that differs in one value of one grant must be cut into another
file for all doors, and match names that grant."""
import itertools
import pathlib
import random
import subprocess
import sys
import tempfile

from slips import replay

ALL_DOORS = (0, 65535)
ONE_BANKS = (2, 7)
FIELDS = ["rank", "kind", "staff from", "staff to", "door from", "door to", "quarter from", "quarter to"]

program, seed = str(pathlib.Path(sys.argv[1]).resolve()), int(sys.argv[2])
pick = random.Random(seed)
# What the journals have had, and what they must.
reached = set()
MUST = {"another box revoked", "another grant revoked", "a grant given again", *FIELDS}
# The sets that are tried: how many grants, and values up to which number; and the sizes of which one grant is changed too.
SETS = [(0, 9), (1, 9), (2, 1), (5, 9), (31, 20), (32, 65535), (300, 65535)]
DIFFERING = (1, 5, 32)


def grant(number, top):
    """A grant as the values of its slip; a supervisor's, since it may be for many doors."""
    spans = [sorted(pick.choices(range(top + 1), k=2)) for _ in range(2)] + [sorted(pick.sample(range(top + 1), 2))]
    return [number, pick.randrange(200, 256), pick.randrange(2), *itertools.chain(*spans)]


def granting(values):
    return "G " + " ".join(str(v) for v in values)


def revoking(number):
    return f"R {number}"


def with_revokes(grants, top):
    """The slips of grants in this order, and between them slips that are revoked again."""
    spare = iter(sorted(set(range(1, 3 * len(grants) + 9)) - {g[0] for g in grants}))
    given, others = [], []
    for own in grants:
        number = own[0]
        if pick.random() < 0.3:
            reached.add("another box revoked")
            yield from (granting(grant(number, top)), revoking(number))
        yield granting(own)
        given.append(own)
        if pick.random() < 0.3:
            others.append(next(spare))
            yield granting(grant(others[-1], top))
        if others and pick.random() < 0.3:
            reached.add("another grant revoked")
            yield revoking(others.pop(pick.randrange(len(others))))
        if pick.random() < 0.2:
            reached.add("a grant given again")
            again = pick.choice(given)
            yield from (revoking(again[0]), granting(again))
    yield from (revoking(number) for number in pick.sample(others, len(others)))


def orders(grants, top):
    """Journals that leave these grants: ascending, descending, and twice in any order with revokes in between."""
    yield [granting(g) for g in grants]
    yield [granting(g) for g in reversed(grants)]
    for _ in range(2):
        yield list(with_revokes(pick.sample(grants, len(grants)), top))


def run(words, statuses):
    ran = subprocess.run([program, *map(str, words)], capture_output=True, text=True, timeout=10)
    if ran.returncode not in statuses or ran.stderr:
        sys.exit(f"restored: seed {seed}: grants {' '.join(map(str, words))} ends with {ran.returncode}: {ran.stdout}{ran.stderr}")
    return ran.stdout


def written(folder, name, slips):
    """A journal of these slips."""
    path = folder / f"{name}.txt"
    path.write_text("".join(slip + "\n" for slip in slips), encoding="ascii")
    return path


def cut(journal, doors):
    file = journal.with_suffix(".lgf")
    run(["cut", journal, *doors, file, "empty"], {0})
    return file


def files_alike(journals, doors):
    """Whether all journals are cut into one file, which all of them match."""
    files = [cut(journal, doors) for journal in journals]
    for journal, file in zip(journals, files):
        if file.read_bytes() != files[0].read_bytes():
            sys.exit(f"restored: seed {seed}: {journal.name} leaves the grants of {journals[0].name}, but gives another file for doors {doors}")
    for journal in journals:
        if run(["match", journal, files[0]], {0, 1}) != "equal\n":
            sys.exit(f"restored: seed {seed}: {journal.name} does not match its file for doors {doors}")


def changed(grants, field, top):
    """The grants with another value in one field of one of them; None where that grant has no other there."""
    own = pick.choice(grants)
    others = [v for v in ([200, 255] if field == 1 else [0, 1] if field == 2 else range(top + 1)) if v != own[field]]
    pick.shuffle(others)
    for value in others:
        other = own[:field] + [value] + own[field + 1 :]
        if other[3] <= other[4] and other[5] <= other[6] and other[7] < other[8]:
            return own[0], [other if g is own else g for g in grants]
    return None


def try_differences(grants, top, folder):
    """Each field of some grant changed: another file for all doors, and match names the number."""
    journal = written(folder, "right", [granting(g) for g in grants])
    file = cut(journal, ALL_DOORS)
    for field, name in enumerate(FIELDS, start=1):
        found = changed(grants, field, top)
        if found is None:
            continue
        number, others = found
        reached.add(name)
        other = written(folder, "other", with_revokes(pick.sample(others, len(others)), top))
        if cut(other, ALL_DOORS).read_bytes() == file.read_bytes():
            sys.exit(f"restored: seed {seed}: grant {number} has another {name}, but the file for all doors is the same")
        if not run(["match", other, file], {1}).startswith(f"differs, first at grant {number}\n"):
            sys.exit(f"restored: seed {seed}: match does not name grant {number}, which has another {name}")


def left_by(journal):
    """The grants that a journal leaves in the plain book, as the values of slips."""
    return [[g.number, g.rank, g.kind, *itertools.chain(*g.box)] for g in replay(journal.read_bytes()).live]


def try_set(count, top, folder):
    """Journals that leave one set of so many grants; how many there are."""
    grants = [grant(number, top) for number in sorted(pick.sample(range(1, 3 * count + 2), count))]
    journals = [written(folder, f"order{i}", slips) for i, slips in enumerate(orders(grants, top))]
    if any(left_by(journal) != grants for journal in journals):
        sys.exit(f"restored: seed {seed}: a journal does not leave the grants that it should")
    for doors in (ALL_DOORS, ONE_BANKS):
        files_alike(journals, doors)
    if count in DIFFERING:
        try_differences(grants, top, folder)
    return len(journals)


journals = 0
for count, top in SETS:
    with tempfile.TemporaryDirectory() as name:
        journals += try_set(count, top, pathlib.Path(name))
if MUST - reached:
    sys.exit(f"restored: seed {seed}: no journal has had {', '.join(sorted(MUST - reached))}")
print(f"restored: seed {seed}: {journals} journals cut into the files of the same grants in other orders")
