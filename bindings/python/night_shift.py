"""A night at a bank of lockers: head office grants, cuts a file for the bank, the bank loads it and decides by it.

    bindings/python/build && python3 bindings/python/night_shift.py
"""
import lg

# Quarter-hours from the operator's base day: ten in the evening until six in the morning, when the shift is over.
NIGHT = (88, 120)

office = lg.Index(2048)
office.grant(7, 10, lg.OPENS, (100, 199, 1, 40, *NIGHT))
office.grant(3, 20, lg.BARS, (150, 150, 12, 12, 0, 65535))
# A correction: at equal rank the higher number decides.
office.grant(8, 10, lg.BARS, (190, 199, 1, 40, *NIGHT))

# A refusal says why, and leaves the index as it was.
try:
    office.revoke(9)
except lg.Refused as refused:
    print("number 9 revoked: refused with %d, %s" % (refused.number, refused))

# The file has all grants that touch the bank's doors, whole.
cut = office.write(1, 20)
print("a file of %d bytes, its records in %d of them" % (len(cut), len(cut[lg.block_part(cut, 1)])))

bank = lg.Index(64)
bank.load(cut)
print("the bank's grants:", bank.list((0, 65535, 1, 20, *NIGHT), lg.Choice.TOUCHING))
# A roster asks for the grants that cover all of a shift: all its staff, doors and quarters.
print("for all of the shift of staff 100 to 199:", bank.list((100, 199, 1, 20, *NIGHT), lg.Choice.HOLDING))
for staff in (120, 150, 195, 200):
    grant = bank.decide(staff, 12, 90)
    if grant is None:
        print("no grant for %d at door 12" % staff)
    elif grant.kind == lg.OPENS:
        print("door 12 opens for %d by grant %d" % (staff, grant.number))
    else:
        print("door 12 is barred for %d by grant %d" % (staff, grant.number))

# Later, head office holds its grants against the bank's file.
office.revoke(3)
number = office.match(cut)
print("the bank is up to date" if number is None else "the bank differs first at grant %d" % number)
