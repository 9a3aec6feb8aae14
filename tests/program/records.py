"""Records of openings, sound and not: records.py FOLDER."""
import pathlib
import struct
import sys


def record(openings):
    """The bytes of a record: door, quarter and staff of each entry."""
    return b"".join(struct.pack(">HHI", *opening) for opening in openings)


# The manual's example.
DOOR = [(12, 40, 120), (12, 41, 120), (12, 41, 120), (7, 88, 150), (12, 88, 300)]
PANEL = [(12, 40, 120), (12, 41, 120), (7, 88, 150), (3, 90, 120)]

RECORDS = {
    "door": record(DOOR),
    "panel": record(PANEL),
    "other_order": record(DOOR[:3] + DOOR[4:] + DOOR[3:4]),
    "empty": b"",
    "once": record(DOOR[1:2]),
    "thrice": record(DOOR[1:2] * 3),
    "highest": record([(65535, 65535, 4294967295)]),
    "twenty": record((1, quarter, 7) for quarter in range(20)),
    "many": record((1, quarter, 7) for quarter in range(143)),
    "most": record((1, quarter, 7) for quarter in range(4096)),
    "too_many": record((1, quarter, 7) for quarter in range(4097)),
    "too_many_and_broken_off": record((1, quarter, 7) for quarter in range(5000)) + b"\0\1\2",
    "broken_off": record(DOOR)[:13],
    "falling": record(DOOR[:2] + DOOR[:1]),
}

folder = pathlib.Path(sys.argv[1])
for name, content in RECORDS.items():
    (folder / (name + ".rec")).write_bytes(content)
