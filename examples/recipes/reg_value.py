"""Prints a value of a registry export: reg_value.py FILE NAME. Of hex(2), REG_EXPAND_SZ, and
hex(7), REG_MULTI_SZ, it prints each string on a line.
"""

import itertools
import sys
from pathlib import Path

import dethrux

raw = Path(sys.argv[1]).read_bytes()

# Exports are little endian. REGEDIT4 files are not UTF-16.
bom = dethrux.detect_bom(raw, "little")
text = dethrux.decode(raw[bom.len :], bom.byteorder, "replace")

wanted = f'"{sys.argv[2]}"='
lines = iter(text.split("\r\n"))
line = next((it for it in lines if it.startswith(wanted)), None)
if line is None:
    sys.exit(1)
value = line[len(wanted) :]
if value.startswith(("hex(2):", "hex(7):")):
    while value.endswith("\\"):
        value = value[:-1] + next(lines, "").strip()
    utf16 = bytes.fromhex(value[7:].replace(",", ""))
    strings = dethrux.decode(utf16, "little", "replace").split("\0")
    for string in itertools.takewhile(len, strings):
        print(string)
else:
    print(value)
