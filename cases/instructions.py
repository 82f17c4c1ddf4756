#!/usr/bin/env python3
"""Counts the instructions of each call of a static library with callgrind, on the texts of
examples/c/work.c.

    cases/instructions.py LIBRARY [LEVEL [--write]]

For eight times the text, a call may take at most ten times as many. With a LEVEL, v2 or v3, it runs
that level's code, and no count may differ by more than 3 % from the one in cases/instructions.tsv,
unless --write writes the counts there. Prints what differs, and last 'N passed, M failed'.
"""

import pathlib
import re
import subprocess
import sys
import tempfile

TOP = pathlib.Path(__file__).resolve().parents[1]
TABLE = TOP / "cases/instructions.tsv"
DUMP = re.compile(r"^desc: .* Request: (\S+) (\S+) (\S+) (\d+)$.*^summary: (\d+)", re.M | re.S)
SHORT, LONG = 1024, 8192


def run_work(library, level, room):
    """The counts of each call in each way, for each text in both lengths."""
    compiler = ["cc", "-std=gnu11", "-O1", "-Wall", "-Wextra", "-Werror", f"-I{TOP}/dist/include"]
    program = TOP / "examples/c/work.c"
    subprocess.run([*compiler, program, library, "-o", room / "work"], check=True)
    functions = f"--toggle-collect=dethrux_*{level and '_' + level}"
    tool = ["valgrind", "-q", "--tool=callgrind", functions, f"--callgrind-out-file={room}/dump"]
    subprocess.run([*tool, room / "work"], check=True, timeout=900)
    counts = {}
    for dump in room.glob("dump.*"):
        call, way, text, length, count = DUMP.search(dump.read_text()).groups()
        counts.setdefault((call, way), {})[text, int(length)] = int(count)
    return {key: it for key, it in counts.items() if any(it.values())}


def grows(counts):
    """The texts for which a call takes more than linear time."""
    texts = (text for text, length in counts if length == SHORT)
    return [it for it in texts if counts[it, LONG] > 10 * counts[it, SHORT] + 100]


def read_table():
    rows = (line.split("\t") for line in TABLE.read_text().splitlines()[1:])
    return {tuple(row[:3]): [*map(int, row[3:])] for row in rows}


def write_table(rows, texts):
    lines = [["level", "call", "way", *texts], *([*key, *rows[key]] for key in sorted(rows))]
    TABLE.write_text("".join("\t".join(map(str, line)) + "\n" for line in lines))


def differ(found, wanted):
    return [it for it in zip(found, wanted) if abs(it[0] - it[1]) > 0.03 * it[1]]


def fault(counts, found, wanted):
    """What is wrong with the counts of a call in a way, or an empty text."""
    if found is None or wanted is None:
        return "there is no such call" if found is None else "the table has no such call"
    if grows(counts):
        return f"more than linear: {grows(counts)}"
    return f"found and wanted: {differ(found, wanted)}" if differ(found, wanted) else ""


def main(library, level="", *words):
    with tempfile.TemporaryDirectory() as room:
        counts = run_work(library, level, pathlib.Path(room))
    texts = sorted({text for it in counts.values() for text, _ in it})
    found = {(level, *key): [it[text, SHORT] for text in texts] for key, it in counts.items()}
    table = read_table()
    if "--write" in words:
        table = {**{key: row for key, row in table.items() if key[0] != level}, **found}
        write_table(table, texts)
    wanted = {key: row for key, row in table.items() if key[0] == level} if level else found
    keys = sorted(found.keys() | wanted.keys())
    faults = {it: fault(counts.get(it[1:]), found.get(it), wanted.get(it)) for it in keys}
    failed = [f"{key}: {why}" for key, why in faults.items() if why]
    print(*failed, f"{len(keys) - len(failed)} passed, {len(failed)} failed", sep="\n")
    return bool(failed) or len(keys) < 50


sys.exit(main(*sys.argv[1:]))
