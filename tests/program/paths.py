"""The command path against a tree that is built of the grants in their order: paths.py PROGRAM SEED. Random journals of grants and revokes, and the
bank's files that are cut from them."""
import itertools
import pathlib
import random
import subprocess
import sys
import tempfile

from slips import lines_of, read, replay
from book import Grant
from tree import Tree

DOORS = (2, 7)
HEADS = "    cell   level  number    rank   staff      to   doors      to quarter   until  does"
NOT_LIVE = "refused 7: no grant has this number: list the grants to find the right one"
# At most so many numbers are asked of a journal, and of a file.
MOST = 30

program, seed = str(pathlib.Path(sys.argv[1]).resolve()), int(sys.argv[2])
pick = random.Random(seed)
# The kinds of grants that have been asked for, and those that must be.
reached = set()
KINDS = {"the root's", "a terminal cell's", "in between", "in a cell that was free again", "in another's place", "below 50 others", "revoked"}
KINDS |= {"of a file", "not of the file"}


def span(top):
    return "{} {}".format(*sorted(pick.choices(range(top + 1), k=2)))


def quarters(top):
    return "{} {}".format(*sorted(pick.sample(range(top + 1), 2)))


def grant_slip(number, top):
    """A grant of values up to the top; a supervisor's, since it may be for many doors."""
    return f"G {number} {pick.randrange(200, 256)} {pick.randrange(2)} {span(top)} {span(top)} {quarters(top)}"


def journal_of(count, top):
    """So many slips, a third of them revokes; the lower the values and numbers, the deeper the tree."""
    live, fresh = [], pick.sample(range(1, max(top, count) + 1), count)
    for _ in range(count):
        if live and pick.random() < 1 / 3:
            yield f"R {live.pop(pick.randrange(len(live)))}"
        else:
            live.append(fresh.pop())
            yield grant_slip(live[-1], top)


def tree_of(journal):
    """The tree after a journal; the numbers that were revoked; the cells that were freed, and the numbers of the grants that were moved."""
    tree, revoked, freed, moved = Tree(), set(), set(), set()
    for line in lines_of(journal):
        letter, values = read(line)
        if letter == "G":
            tree.grant(Grant(*values))
            continue
        links, side = tree.links(values[0])[-1]
        freed.add(links[side].cell)
        tree.revoke(values[0])
        revoked.add(values[0])
        if links[side]:
            moved.add(links[side].grant.number)
    return tree, revoked, freed, moved


def tree_of_file(grants):
    """The tree of a loaded file: its grants, in its order, from the first cell on."""
    tree = Tree()
    for g in grants:
        tree.grant(g)
    return tree


def row(level, node):
    g = node.grant
    return "".join(f"{v:8}" for v in [node.cell, level, g.number, g.rank, *g.staff, *g.doors, *g.quarters]) + "  " + ("bars", "opens")[g.kind]


def shown(tree, number):
    """What must be printed, and the status."""
    way = tree.way_up(number)
    lines = [HEADS] + [row(level, node) for level, node in way] if way else [NOT_LIVE]
    return "".join(line + "\n" for line in lines), 0 if way else 1


def run(words):
    ran = subprocess.run([program, *words], capture_output=True, text=True, timeout=10)
    return ran.stdout, ran.stderr, ran.returncode


def ask(tree, file, number):
    text, status = shown(tree, number)
    given = run(["path", str(file), str(number)])
    if given != (text, "", status):
        sys.exit(f"paths: seed {seed}: grants path {file.name} {number} ends with {given[2]} and prints\n{given[0]}{given[1]}and not\n{text}")


def note_kinds(tree, number, freed, moved):
    """Where the grant of the number stands."""
    level, own = tree.way_up(number)[0]
    reached.add("the root's" if level == 0 else "in between" if any(own.children) else "a terminal cell's")
    reached.update(kind for kind, is_so in {
        "in a cell that was free again": own.cell in freed,
        "in another's place": number in moved,
        "below 50 others": level >= 50,
    }.items() if is_so)


def some_of(numbers):
    numbers = sorted(numbers)
    return numbers if len(numbers) <= MOST else pick.sample(numbers, MOST)


def ask_journal(journal, live, path):
    tree, revoked, freed, moved = tree_of(journal)
    asked = some_of(live)
    for number in asked:
        note_kinds(tree, number, freed, moved)
        ask(tree, path, number)
    gone = some_of(revoked)[:3]
    reached.update("revoked" for _ in gone)
    for number in gone + [n for n in (1, 65535) if n not in live]:
        ask(tree, path, number)
    return len(asked)


def ask_file(book, bank):
    held = book.touching(DOORS)
    tree, asked = tree_of_file(held), some_of(g.number for g in held)
    for number in asked:
        ask(tree, bank, number)
    others = some_of({g.number for g in book.live} - {g.number for g in held})[:3]
    for number in others:
        ask(tree, bank, number)
    reached.update(kind for kind, numbers in {"of a file": asked, "not of the file": others}.items() if numbers)
    return len(asked)


def try_journal(count, top, folder):
    """Asks of a journal of so many slips and of a file that is cut from it; how many paths were shown."""
    journal = "".join(slip + "\n" for slip in journal_of(count, top)).encode()
    book, path, bank = replay(journal), folder / "journal", folder / "bank"
    path.write_bytes(journal)
    cut = run(["cut", str(path), str(DOORS[0]), str(DOORS[1]), str(bank)])
    if cut[1:] != ("", 0):
        sys.exit(f"paths: seed {seed}: no file is cut: {cut[1]}")
    return ask_journal(journal, {g.number for g in book.live}, path) + ask_file(book, bank)


paths = 0
for count, top in itertools.product((0, 1, 3, 10, 40, 150, 400), (9, 300, 65535)):
    with tempfile.TemporaryDirectory() as name:
        paths += try_journal(count, top, pathlib.Path(name))
if KINDS - reached:
    sys.exit(f"paths: seed {seed}: no grant was asked for that is {', '.join(sorted(KINDS - reached))}")
print(f"paths: seed {seed}: {paths} grants shown as the tree has them")
