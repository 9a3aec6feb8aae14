"""Document 01's grants file as plain bytes, with the cards of document 02 that have landed. It shares nothing with the product."""

BLOCK = 512
CHECK = 510
RECORDS = 31
MARK = bytes.fromhex("4C474632")


def word(n):
    """A number of 16 bits, high byte first."""
    return bytes([n // 256, n % 256])


def check(covered):
    """The byte 1 followed by the bytes, read as one base-256 number, modulo 65521."""
    value = 1
    for b in covered:
        value = (value * 256 + b) % 65521
    return word(value)


def block(number, contents):
    """A block: mark, number, contents, fill, check."""
    begun = MARK + word(number) + contents
    covered = begun + bytes(CHECK - len(begun))
    return covered + check(covered)


def record(g):
    return word(g.number) + bytes([g.rank, g.kind]) + b"".join(word(end) for ends in g.box for end in ends)


def file_of(doors, book):
    """The file of a door range and of a book's grants that touch it."""
    grants = book.touching(doors)
    blocks = [block(0, word(len(grants)) + word(doors[0]) + word(doors[1]))]
    for i in range(0, len(grants), RECORDS):
        held = grants[i : i + RECORDS]
        blocks.append(block(len(blocks), word(len(held)) + b"".join(record(g) for g in held)))
    return b"".join(blocks)
