"""Damaged copies of a sound grants file of two or more records in one block: damage.py FILE FOLDER."""
import pathlib
import sys

from grants_file import BLOCK, CHECK, check, word


def change(number, place, new):
    """New bytes at a place of a block, with the block's check made right again."""

    def apply(file):
        at = BLOCK * number
        block = bytearray(file[at : at + BLOCK])
        block[place : place + len(new)] = new
        block[CHECK:] = check(block[:CHECK])
        return file[:at] + bytes(block) + file[at + BLOCK :]

    return apply


# The mark of files in whose records the quarter to was the last one covered.
OLDER_MARK = bytes.fromhex("4C474631")


def in_older_form(file):
    """Every block with the older mark, and its check made right: a file as it was cut then."""
    for number in range(len(file) // BLOCK):
        file = change(number, 0, OLDER_MARK)(file)
    return file


DAMAGES = {
    "empty": lambda f: b"",
    "cut_off": lambda f: f[:1000],
    "too_long": lambda f: f + f[BLOCK : 2 * BLOCK] * 67,
    "one_byte": lambda f: f[:600] + bytes([f[600] ^ 1]) + f[601:],
    "mark": change(0, 0, b"ZIP1"),
    "mark_of_block_1": change(1, 3, b"3"),
    "older_form": in_older_form,
    "older_mark_of_block_1": change(1, 0, OLDER_MARK),
    "block_number": change(1, 4, word(7)),
    "too_many_grants": change(0, 6, word(2049)),
    "block_count": change(0, 6, word(40)),
    "record_count": change(1, 6, word(1)),
    "door_order": change(0, 8, word(40) + word(1)),
    "fill_of_block_0": change(0, 300, b"\1"),
    "fill_of_block_1": change(1, 509, b"\1"),
    "number_0": change(1, 8, word(0)),
    "number_not_above": change(1, 24, word(3)),
    "kind": change(1, 8 + 3, b"\2"),
    "staff_reversed": change(1, 8 + 4, word(151)),
    "doors_reversed": change(1, 24 + 8, word(65535)),
    "quarters_reversed": change(1, 24 + 12, word(64) + word(32)),
    "quarters_equal": change(1, 24 + 12, word(32) + word(32)),
    "rank_too_low": change(1, 24 + 8, word(1) + word(1001)),
    "doors_elsewhere": change(1, 24 + 8, word(500) + word(600)),
}

file = pathlib.Path(sys.argv[1]).read_bytes()
folder = pathlib.Path(sys.argv[2])
for name, damage in DAMAGES.items():
    (folder / name).write_bytes(damage(file))
