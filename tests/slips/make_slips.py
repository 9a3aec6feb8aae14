"""Writes slips, the same ones for the same arguments: random ones, and those that a wrong program is likely to get wrong.

    make_slips.py SEED COUNT > slips      with tests/plain in PYTHONPATH

Equal boxes, single points, ends at 0, 32767, 32768 and 65535; quarters that end where others begin, decisions at the first quarter, the last
one and the one after it, and at 65535; numbers that are live already, revokes of live and of dead numbers; the refusals 2 to 7 and 16,
alone and together, 2 for equal quarters too; 1,000 doors and 1,001, ranks 199 and 200; lines of another form of many kinds. From 2600 slips
on the book is filled once and listed whole, so that 6 comes too.
"""
import sys

from book import CAPACITY
from slips import FORMS

WHOLE = "L 0 65535 0 65535 0 65535"
EDGES = [0, 1, 32766, 32767, 32768, 32769, 65534, 65535]


class Numbers:
    """Numbers that no version of Python changes: a linear congruence modulo 2 ** 64, of which the upper bits are used."""

    def __init__(self, seed):
        self.state = seed % 2 ** 64

    def below(self, n):
        self.state = (self.state * 6364136223846793005 + 1442695040888963407) % 2 ** 64
        return (self.state >> 33) % n

    def one_of(self, things):
        return things[self.below(len(things))]

    def chance(self, percent):
        return self.below(100) < percent


class Slips:
    def __init__(self, seed):
        self.numbers = Numbers(seed)
        self.live = []
        self.dead = []
        self.boxes = [(100, 199, 1, 40, 32, 64)]

    # Values and boxes.

    def value(self):
        if self.numbers.chance(30):
            return self.numbers.one_of(EDGES)
        return self.numbers.below(self.numbers.one_of([8, 64, 1024, 65536]))

    def ends(self):
        way = self.numbers.below(8)
        if way == 0:
            at = self.value()
            return at, at
        if way == 1:
            return 0, 65535
        return tuple(sorted((self.value(), self.value())))

    def quarters_from(self, start, apart):
        """Quarters that start there, or at 65534 at the latest, and end so much later, or at 65535."""
        start = min(start, 65534)
        return start, min(start + apart, 65535)

    def quarters(self):
        first, last = self.ends()
        return self.quarters_from(first, max(last - first, 1))

    def before_or_after(self, box):
        """The same box with quarters that end where it begins, or begin where it ends."""
        first, last = box[4:]
        if first > 0 and (last == 65535 or self.numbers.chance(50)):
            return box[:4] + (first - 1 - self.numbers.below(min(first, 3)), first)
        return box[:4] + self.quarters_from(last, 1 + self.numbers.below(3))

    def box(self):
        if self.numbers.chance(20):
            return self.numbers.one_of(self.boxes)
        if self.numbers.chance(10):
            box = self.before_or_after(self.numbers.one_of(self.boxes))
        else:
            box = self.ends() + self.ends() + self.quarters()
        self.boxes.append(box)
        return box

    def small_box(self):
        staff, door = self.value(), self.value()
        small = (staff, min(staff + self.numbers.below(3), 65535), door, min(door + self.numbers.below(3), 65535))
        return small + self.quarters_from(self.value(), 1 + self.numbers.below(3))

    def with_doors(self, box, apart):
        """The same box with other doors, the last of them so far behind the first."""
        first = self.numbers.below(65536 - apart)
        return box[:2] + (first, first + apart) + box[4:]

    def turned(self, box):
        """The same box with one range from above to, or with quarters that end where they start."""
        turned = list(box)
        i = 2 * self.numbers.below(3)
        turned[i], turned[i + 1] = self.numbers.one_of([(1, 0), (65535, 65534), (32768, 32767), (65535, 0)])
        if i == 4 and self.numbers.chance(50):
            turned[5] = turned[4] = self.value()
        return tuple(turned)

    def fresh(self):
        while True:
            n = self.numbers.one_of([1, 65535, 1 + self.numbers.below(64), 1 + self.numbers.below(65535)])
            if n not in self.live:
                return n

    # Slips of document 01's form.

    def grant(self, n, rank, kind, box):
        return "G %d %d %d %d %d %d %d %d %d" % ((n, rank, kind) + box)

    def rank(self):
        return self.numbers.one_of([0, 1, 1, 7, 254, 255, self.numbers.below(256)])

    def rank_for(self, box):
        """A rank that is high enough for the doors of a box."""
        return self.rank() if box[3] - box[2] < 1000 else self.numbers.one_of([200, 200, 201, 254, 255])

    def granted(self, box):
        n = self.fresh() if self.live else self.numbers.one_of([7, 65535])
        if len(self.live) < CAPACITY:
            self.live.append(n)
        if self.numbers.chance(6):
            return self.grant(n, 199, self.numbers.below(2), self.with_doors(box, 999))
        if self.numbers.chance(6):
            return self.grant(n, 200, self.numbers.below(2), self.with_doors(box, 1000))
        return self.grant(n, self.rank_for(box), self.numbers.below(2), box)

    def live_number(self):
        return self.numbers.one_of(self.live) if self.live else 1

    def refused_grant(self):
        """A grant with one or several of the faults 3, 4, 2, 16 and 5."""
        n, live, rank, kind, box = self.fresh(), self.live_number(), self.rank(), self.numbers.below(2), self.box()
        ways = [(0, kind, box), (live, kind, box), (live, kind, box), (n, self.numbers.one_of([2, 3, 255]), box)]
        if self.numbers.chance(40):
            rank, box = self.numbers.one_of([0, 1, 199]), self.with_doors(box, self.numbers.one_of([1000, 1001, 65535]))
            ways = [(n, kind, box), (0, kind, box), (live, kind, box), (n, 2, box)]
        turned = self.turned(box)
        number, kind, box = self.numbers.one_of(ways + [(0, 2, turned), (n, 2, turned), (n, kind, turned), (live, kind, turned)])
        return self.grant(number, rank, kind, box)

    def revoke(self):
        way = self.numbers.below(6)
        if way == 0:
            return "R 0"
        if way == 1 and self.dead:
            n = self.numbers.one_of(self.dead)
        elif way == 2:
            n = self.fresh()
        else:
            n = self.live_number()
        if n in self.live:
            self.live.remove(n)
            self.dead.append(n)
        return "R %d" % n

    def list(self):
        way = self.numbers.below(40)
        if way == 0 and len(self.live) < 300:
            return WHOLE
        if way < 6:
            return "L %d %d %d %d %d %d" % self.turned(self.box())
        if way < 26 or len(self.live) > 300:
            return "L %d %d %d %d %d %d" % self.small_box()
        return "L %d %d %d %d %d %d" % self.box()

    def decide(self):
        if self.numbers.chance(60):
            box = self.numbers.one_of(self.boxes)
            staff, door = (box[i + self.numbers.below(2)] for i in (0, 2))
            return "D %d %d %d" % (staff, door, self.numbers.one_of([box[4], box[5] - 1, box[5]]))
        return "D %d %d %d" % (self.value(), self.value(), self.value())

    def good(self):
        way = self.numbers.below(100)
        if way < 34:
            return self.granted(self.box())
        if way < 44:
            return self.refused_grant()
        if way < 58:
            return self.revoke()
        if way < 74:
            return self.list()
        if way < 96:
            return self.decide()
        return "C"

    # A slip written otherwise: a value keeps its meaning under leading zeros; everything else makes the line bad.

    def zeros(self, slip):
        fields = slip.split(" ")
        if len(fields) > 1:
            i = 1 + self.numbers.below(len(fields) - 1)
            fields[i] = "0" * self.numbers.one_of([1, 2, 5, 40, 4000]) + fields[i]
        return " ".join(fields)

    def spoiled(self):
        """A slip of each letter, spoiled in one place."""
        letter = self.numbers.one_of("GRLDC")
        fields = [letter] + [str(self.numbers.below(2)) for _ in FORMS[letter]]
        slip = " ".join(fields)
        i = self.numbers.below(len(fields))
        way = self.numbers.below(24)
        if way == 0:
            return ""
        if way == 1:
            return " " + slip
        if way == 2:
            return slip + " "
        if way == 3:
            return slip.replace(" ", "  ", 1) if " " in slip else slip + "  "
        if way == 4:
            return slip.replace(" ", "\t", 1) if " " in slip else slip + "\t"
        if way == 5:
            return slip + "\r"
        if way == 6:
            return slip.lower()
        if way == 7:
            return slip + " 0"
        if way == 8:
            return " ".join(fields[:-1])
        if way == 9:
            return self.numbers.one_of("ABEFHIXgz?0-") + slip[1:]
        if way == 10:
            return letter + slip
        if way == 11:
            return slip.replace(" ", "", 1) if " " in slip else slip + "1"
        if way == 12:
            return slip.replace(" ", ",") + ","
        if way == 13:
            return self.numbers.one_of([" ", "   ", "\t", "\r", "0", "ok", "bad", "\x00", "\x7f", "\u00e9", "\udcff"])
        # A field that is no number, or too wide.
        if len(fields) == 1:
            return slip + self.numbers.one_of(["\x00", "\u00a0", "\udcff", ";", " -1", " 65536"])
        i = max(i, 1)
        wide = {14: "65536", 15: "65537", 16: "65545", 17: "131072", 18: "4294967296", 19: "18446744073709551616"}
        odd = ["+1", "-1", "1.0", "0x1", "1e1", "1_0", "a", "'", "1/", "1:", "\u0661", "1\x00"]
        if way in wide:
            fields[i] = wide[way]
        elif way == 20:
            fields[i] = "9" * self.numbers.one_of([6, 20, 40, 400, 4000])
        elif way == 21:
            fields[i] = "1" + "0" * self.numbers.one_of([5, 9, 19, 64, 640])
        elif way == 22 and letter == "G":
            fields[2 + self.numbers.below(2)] = self.numbers.one_of(["256", "257", "512", "65535"])
        else:
            fields[i] = self.numbers.one_of(odd)
        return " ".join(fields)

    def mixed(self):
        way = self.numbers.below(100)
        if way < 74:
            return self.good()
        if way < 80:
            return self.zeros(self.good())
        return self.spoiled()


def write(seed, count):
    slips = Slips(seed)
    fill_at = count // 10 if count >= 2600 else count
    filling = False
    for i in range(count):
        if i == fill_at:
            filling = True
        if not filling:
            line = slips.mixed()
        elif len(slips.live) < CAPACITY:
            line = slips.granted(slips.small_box())
        else:
            line = WHOLE
            filling = False
        sys.stdout.buffer.write(line.encode(errors="surrogateescape") + b"\n")


write(int(sys.argv[1]), int(sys.argv[2]))
