"""A door record against a panel record (document 02, card 13), by counting how often each entry stands in either. It shares nothing
with the product."""
import collections

from book import refuse_if

ENTRY = 8
MOST = 4096


def entries(record):
    """Door (2 bytes), quarter (2), staff (4) of each opening, high byte first."""
    return [bytes(record[i : i + ENTRY]) for i in range(0, len(record), ENTRY)]


def has_wrong_length(record):
    return len(record) % ENTRY != 0 or len(record) // ENTRY > MOST


def has_falling_quarter(record):
    """Whether an entry's quarter is below that of the entry before it."""
    quarters = [entry[2] * 256 + entry[3] for entry in entries(record)]
    return any(later < earlier for earlier, later in zip(quarters, quarters[1:]))


def compare(door, panel):
    """How many entries agree, how many are left in the door record, and how many in the panel record."""
    refuse_if(has_wrong_length(door) or has_wrong_length(panel), 24)
    refuse_if(has_falling_quarter(door) or has_falling_quarter(panel), 25)
    in_door, in_panel = collections.Counter(entries(door)), collections.Counter(entries(panel))
    both = in_door & in_panel
    return tuple(sum(times.values()) for times in (both, in_door - both, in_panel - both))


def left(record, other):
    """Those of a record's entries that the other has not: number, from 1, and entry. Of equal ones the last, so it goes backward."""
    spare = collections.Counter(entries(record)) - collections.Counter(entries(other))
    found = []
    for number, entry in reversed(list(enumerate(entries(record), 1))):
        if spare[entry] > 0:
            spare[entry] -= 1
            found.append((number, entry))
    return found[::-1]
