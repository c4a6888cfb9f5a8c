#!/usr/bin/env python3
"""Prints where the basic blocks of a shared library begin, by objdump: targets of jumps, and what follows a jump or a return.

usage: blocks.py LIBRARY >BLOCKS"""
import re
import subprocess
import sys

said = subprocess.run(
    ["objdump", "-d", "-j", ".text", "--no-show-raw-insn", sys.argv[1]],
    capture_output=True,
    text=True,
    check=True,
).stdout
lines = [(int(it[1], 16), it[2]) for it in re.finditer(r"^ +([0-9a-f]+):\t(.*)$", said, re.M)]
known, starts, after = {at for at, _ in lines}, set(), True
for at, words in lines:
    is_padding = words.split()[0] in ("nop", "nopw", "nopl", "int3", "xchg", "cs", "data16")
    if after and not is_padding:
        starts.add(at)
        after = False
    if (jump := re.match(r"j\w+ +([0-9a-f]+)\b", words)) and int(jump[1], 16) in known:
        starts.add(int(jump[1], 16))
    if re.match(r"j|ret|ud2", words):
        after = True
print("\n".join(f"{it:x}" for it in sorted(starts)))
