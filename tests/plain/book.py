"""The plain book of document 01, with the cards of document 02 that have landed: the live grants in a plain list, every question a scan
of it. It shares nothing with the product."""

import enum

CAPACITY = 2048


class Refused(Exception):
    """A refusal, with document 01's number of the fault."""

    def __init__(self, fault):
        super().__init__(f"refused {fault}")
        self.fault = fault


def box_of(ends):
    """Staff, doors and quarters, each from and to. Both ends of staff and of doors belong to it; of quarters, the to is the first that is
    no longer covered."""
    return tuple(ends[0:2]), tuple(ends[2:4]), tuple(ends[4:6])


def share(a, b):
    """Whether two ranges of staff or of doors share a value: condition 5 of source 001."""
    return a[0] <= b[1] and a[1] >= b[0]


def share_time(a, b):
    """Whether two ranges of quarters overlap: either begins before the other is over."""
    return a[0] < b[1] and b[0] < a[1]


def overlap(a, b):
    return share(a[0], b[0]) and share(a[1], b[1]) and share_time(a[2], b[2])


def values(box):
    """The staff numbers, the doors and the quarters of a box, each as a range of Python's."""
    staff, doors, quarters = box
    return range(staff[0], staff[1] + 1), range(doors[0], doors[1] + 1), range(*quarters)


def lies_inside(box, grant_box):
    """Whether all staff numbers, all doors and all quarters of a box are a grant's: the first and the last of each are."""
    return all(value in all_of for part, all_of in zip(values(box), values(grant_box)) for value in (*part[:1], *part[-1:]))


class Relation(enum.Enum):
    """What the test of a grant against a box says."""

    APART = enum.auto()
    TOUCHES = enum.auto()
    HOLDS = enum.auto()


class Choice(enum.Enum):
    """Which grants list takes."""

    TOUCHING = enum.auto()
    HOLDING = enum.auto()


def relation(grant_box, box):
    if not overlap(grant_box, box):
        return Relation.APART
    return Relation.HOLDS if lies_inside(box, grant_box) else Relation.TOUCHES


def takes(choice, said):
    """Whether list takes a grant of which the test says so; one that holds the box touches it."""
    return said is Relation.HOLDS or (said is Relation.TOUCHES and choice is Choice.TOUCHING)


def covers(box, staff, door, quarter):
    return box[0][0] <= staff <= box[0][1] and box[1][0] <= door <= box[1][1] and quarter in range(*box[2])


def is_reversed(box):
    """Whether staff or doors end before they start, or quarters cover nothing."""
    staff, doors, quarters = box
    return staff[0] > staff[1] or doors[0] > doors[1] or not range(*quarters)


def is_too_wide(grant):
    """Whether a grant is over more than 1,000 doors, both ends counted, with a rank below 200."""
    first, last = grant.doors
    return last - first + 1 > 1000 and grant.rank < 200


class Grant:
    def __init__(self, number, rank, kind, *ends):
        self.number, self.rank, self.kind = number, rank, kind
        self.box = box_of(ends)
        self.staff, self.doors, self.quarters = self.box


def outranks(g, h):
    """The higher rank decides; at equal rank the higher number."""
    return (g.rank, g.number) > (h.rank, h.number)


class Book:
    """C and the live grants, ascending by number."""

    def __init__(self, capacity=CAPACITY):
        self.capacity = capacity
        self.live = []

    def find(self, number):
        return [g for g in self.live if g.number == number]

    def hits(self, box, choice=Choice.TOUCHING):
        return [g for g in self.live if takes(choice, relation(g.box, box))]

    def touching(self, doors):
        return [g for g in self.live if share(g.doors, doors)]

    def grant(self, grant):
        refuse_if(grant.number == 0, 3)
        refuse_if(grant.kind > 1, 4)
        refuse_if(is_reversed(grant.box), 2)
        refuse_if(is_too_wide(grant), 16)
        refuse_if(self.find(grant.number), 5)
        refuse_if(len(self.live) == self.capacity, 6)
        self.live = sorted(self.live + [grant], key=lambda g: g.number)

    def revoke(self, number):
        refuse_if(number == 0, 3)
        refuse_if(not self.find(number), 7)
        self.live = [g for g in self.live if g.number != number]

    def list(self, box, choice, room):
        """The numbers of the grants that touch a box, or of those that hold it, into a list with room for so many."""
        refuse_if(is_reversed(box), 2)
        numbers = [g.number for g in self.hits(box, choice)]
        refuse_if(len(numbers) > room, 8)
        return numbers

    def decide(self, staff, door, quarter):
        """The grant that decides, or None, as always at 65535: a range of quarters has no value above 65534."""
        best = None
        for g in self.live:
            if covers(g.box, staff, door, quarter) and (best is None or outranks(g, best)):
                best = g
        return best

    def count(self):
        return len(self.live), self.capacity - len(self.live)


def refuse_if(cause, fault):
    if cause:
        raise Refused(fault)
