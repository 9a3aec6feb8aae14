"""The slip program as document 01 describes it, on the plain book: one line for each slip of standard input.

    slips.py < slips > answers

Document 01 leaves some things open, decided here as in the program: leading zeros are allowed, a last line without a newline is a line,
and a line of more than 4,096 bytes is of another form, since no call needs as many.
"""
import sys

from book import Book, Choice, Grant, Refused, box_of

LENT = 2048
LONGEST = 4096

WORD = 65535
BYTE = 255
BOX = [WORD] * 6
# The highest value of each field.
FORMS = {"G": [WORD, BYTE, BYTE] + BOX, "R": [WORD], "L": BOX, "D": [WORD] * 3, "C": []}


def number(field, highest):
    """The value of a decimal field, or None: not decimal, or too wide."""
    if field == b"" or field.strip(b"0123456789") != b"":
        return None
    digits = field.lstrip(b"0")
    if len(digits) > 5:
        return None
    value = int(digits or b"0")
    return value if value <= highest else None


def read(line):
    """The letter and the numbers of a slip, or None for a line of another form."""
    if len(line) > LONGEST:
        return None
    letter, *fields = line.split(b" ")
    letter = letter.decode("latin-1")
    form = FORMS.get(letter)
    if form is None or len(fields) != len(form):
        return None
    values = [number(field, highest) for field, highest in zip(fields, form)]
    return None if None in values else (letter, values)


def do(book, letter, values):
    """What a slip's call prints when it is accepted."""
    if letter == "G":
        book.grant(Grant(*values))
        return "ok"
    if letter == "R":
        book.revoke(*values)
        return "ok"
    if letter == "L":
        numbers = book.list(box_of(values), Choice.TOUCHING, LENT)
        return " ".join(["list", str(len(numbers))] + [str(n) for n in numbers])
    if letter == "D":
        g = book.decide(*values)
        return "none" if g is None else f"{('barred', 'opens')[g.kind]} {g.number}"
    return "count {} {}".format(*book.count())


def answer(book, line):
    slip = read(line)
    if slip is None:
        return "bad"
    try:
        return do(book, *slip)
    except Refused as refused:
        return str(refused)


def lines_of(text):
    lines = text.split(b"\n")
    return lines[:-1] if lines[-1] == b"" else lines


def replay(journal):
    """The book after a journal whose slips are all accepted."""
    book = Book()
    for line in lines_of(journal):
        do(book, *read(line))
    return book


def main():
    book = Book()
    for line in lines_of(sys.stdin.buffer.read()):
        print(answer(book, line))


if __name__ == "__main__":
    main()
