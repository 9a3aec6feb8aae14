"""Runs a command with a pipe that does not wait: nonblocking.py output|input COMMAND.. Nobody reads the output, nothing comes from the input.
Standard error and the status are the command's."""
import os
import subprocess
import sys

side, command = sys.argv[1], sys.argv[2:]
read_end, write_end = os.pipe()
os.set_blocking(read_end, False)
os.set_blocking(write_end, False)
if side == "output":
    ran = subprocess.run(command, stdin=subprocess.DEVNULL, stdout=write_end, check=False)
else:
    ran = subprocess.run(command, stdin=read_end, check=False)
sys.exit(ran.returncode)
