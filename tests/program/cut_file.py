"""Whether a file is document 01's for a journal and a door range: cut_file.py JOURNAL FROM TO FILE."""
import pathlib
import sys

from grants_file import file_of
from slips import replay

journal, file = pathlib.Path(sys.argv[1]).read_bytes(), pathlib.Path(sys.argv[4]).read_bytes()
right = file_of((int(sys.argv[2]), int(sys.argv[3])), replay(journal))
if file != right:
    at = next((i for i, (a, b) in enumerate(zip(file, right)) if a != b), min(len(file), len(right)))
    sys.exit(f"{sys.argv[4]} is not document 01's file: {len(file)} bytes for {len(right)}, the first that differs is {at}")
