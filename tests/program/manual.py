"""The manual's worked examples, as they stand there: manual.py PROGRAM CONVERTER MANUAL. Each block that begins with `$ ` is run, and its lines
compared.

In a block, `$ grants ..`, `$ convert-journal ..`, `$ cat ..` or `$ cmp ..` is a command, `panel> ..` what is then typed, and every other line what
must be printed: on standard error where it begins with `grants:`, else on standard output."""
import pathlib
import subprocess
import sys


def blocks_of(manual):
    """The blocks of a command each, as lines."""
    blocks, block = [], []
    for line in manual.splitlines() + ["end"]:
        inside = line.startswith("    ") or (block and line == "")
        if block and (not inside or line.startswith("    $ ")):
            if block[0].startswith("$ "):
                blocks.append("\n".join(block).strip().splitlines())
            block = []
        if inside:
            block.append(line[4:])
    return blocks


def try_block(programs, block):
    command = block[0].removeprefix("$ ")
    typed = [line.removeprefix("panel> ") for line in block[1:] if line.startswith("panel> ")]
    shown = [line for line in block[1:] if not line.startswith("panel> ")]
    words = command.split(" ")
    words[0] = programs[words[0]]
    ran = subprocess.run(words, input="".join(t + "\n" for t in typed), capture_output=True, text=True, check=False)
    if ran.returncode:
        sys.exit(f"manual: `{command}` ends with status {ran.returncode}")
    wrong = [line for line in shown if line.startswith("grants:")]
    answered = [line for line in shown if not line.startswith("grants:")]
    for stream, given, right in (("output", ran.stdout, answered), ("error", ran.stderr, wrong)):
        if given.splitlines() != right:
            sys.exit(f"manual: `{command}` prints on standard {stream} something else than docs/MANUAL.md says:\n{given}")


programs = {"grants": sys.argv[1], "convert-journal": sys.argv[2], "cat": "cat", "cmp": "cmp"}
blocks = blocks_of(pathlib.Path(sys.argv[3]).read_text(encoding="utf-8"))
if {block[0].split(" ")[1] for block in blocks} != set(programs):
    sys.exit("manual: the worked day is missing, or the conversion of a journal, or a bank restored from paper")
for block in blocks:
    try_block(programs, block)
print(f"manual: {len(blocks)} commands print what docs/MANUAL.md says")
