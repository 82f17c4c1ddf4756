#!/usr/bin/env python3
# Compares what the programs of a script printed, and publishes it. A ratio above 1 means that
# Dethrux is faster.
#
#     publish.py SCRIPT FILE   reads what run, real or worst printed: writes
#                              bench/out/SCRIPT.csv, and prints the ratios of each call, and each
#                              row in which a competitor is faster
#     publish.py               fills in the rows of results/results.csv from bench/out, and draws
#                              results/chart.svg
#
# The rows of a script that was not run stay, with their commit. To publish another row, add a line
# with its script, call, order, text, size, library and competitor.
import csv
import os
import re
import subprocess
import sys
from datetime import datetime, timezone

RESULTS = "results/results.csv"
CHART = "results/chart.svg"
KEY = ("script", "call", "order", "text", "size", "library", "competitor")
COLUMNS = ("commit", "date", "machine", *KEY[:5], "unit", "library", "ours")
COLUMNS += ("competitor", "theirs", "ratio")
PANELS = {
    "validate": "Validation",
    "to_utf8": "UTF-16 to UTF-8",
    "from_utf8": "UTF-8 to UTF-16",
}
TEXTS = {
    "ascii": "ASCII",
    "latin_cyrillic": "Latin and Cyrillic",
    "cjk": "Chinese",
    "emoji": "Emoji",
    "random": "Random bytes",
}
# The bars: a library or a competitor, what the chart calls it, and its colour.
BARS = {
    "v2": ("Dethrux", "#c0392b"),
    "v3": ("Dethrux, AVX2", "#e67e22"),
    "simdutf icelake": ("simdutf, AVX-512", "#4a235a"),
    "simdutf haswell": ("simdutf, 256 bits", "#6c3483"),
    "simdutf westmere": ("simdutf, 128 bits", "#bb8fce"),
    "encoding_rs": ("encoding_rs", "#2d5f9a"),
    "ICU": ("ICU", "#3c8d4f"),
    "iconv": ("iconv", "#c9a227"),
}
SAME = {"encoding_rs mem": "encoding_rs"}
# What real.sh compares. A copy is what dd takes, and `before` is another checkout.
AGAINST = {
    "v2": ("simdutf westmere", "simdutf haswell", "copy", "before"),
    "v3": ("simdutf haswell", "simdutf icelake"),
    "chosen": ("v3",),
}
WITHOUT_AVX512 = (
    "This processor has no AVX-512 VBMI2. With it, simdutf takes another kernel (bench/README.md)."
)


# Each function yields the rows of a script: call, order, text, size, unit, library, ours,
# competitor and theirs. What a script does not print is empty.


def best_of(lines, better):
    """Returns for each call, text, size and order the best value of each decoder."""
    best = {}
    for line in lines:
        *key, decoder, value = line.rstrip("\n").split("\t")
        its = best.setdefault(tuple(key), {})
        its[decoder] = better(float(value), its.get(decoder, float(value)))
    return best.items()


def run(lines):
    for (call, text, order), its in best_of(lines, min):
        text, _, size = text.partition(", ")
        unit = "ns" if call.startswith("short ") else "GB/s"
        what = call.removeprefix("short "), order, text, size or "64 KiB", unit
        for library, name in (("v2", "here"), ("v3", "here v3")):
            for other in [it for it in its if name in its and not it.startswith("here")]:
                yield *what, library, f"{its[name]:.3f}", other, f"{its[other]:.3f}"


def real(lines):
    for (call, text, size, order), its in best_of(lines, max):
        for library, others in AGAINST.items():
            for other in [it for it in others if library in its and it in its]:
                speeds = f"{its[library]:.3f}", other, f"{its[other]:.3f}"
                yield call, order, text, size, "GB/s", library, *speeds


def worst(lines):
    """Of each call and capacity, the text that costs most."""
    most = {}
    for line in lines:
        call, kind, text, every, capacity, time = line.rstrip("\n").split("\t")
        text += {"0": "", "1": ", no other"}.get(every, f", one in {every} bytes")
        key = call, kind, capacity
        most[key] = max((float(time), text), most.get(key, (0, "")))
    for (call, kind, capacity), (time, text) in most.items():
        if kind != "ICU":
            times = f"{time:.1f}", "ICU", f"{most[call, 'ICU', capacity][0]:.1f}"
            yield f"{call}, {kind}", "", text, f"buffer of {capacity}", "ns a byte", "v2", *times


SCRIPTS = {it.__name__: it for it in (run, real, worst)}


def compared(script, lines):
    """Returns the rows of a script by the names of the columns."""
    rows = []
    for it in SCRIPTS[script](lines):
        unit, ours, theirs = it[4], float(it[6]), float(it[8])
        ratio = theirs / ours if unit.startswith("ns") else ours / theirs
        rows.append(dict(zip(COLUMNS[3:], (script, *it, f"{ratio:.2f}"))))
    return rows


def report(rows):
    """Prints the ratios of each call, and the rows in which a competitor is faster."""
    ratios, behind = {}, []
    for it in rows:
        group = it["call"], it["size"], it["library"], it["competitor"]
        ratios.setdefault(group, []).append(float(it["ratio"]))
        behind += [it] * (float(it["ratio"]) < 1)
    print("| Call | Size | Code | Compared with | Rows | Least | Mean | Greatest |")
    print("|---|---|---|---|---:|---:|---:|---:|")
    for group, its in ratios.items():
        mean = sum(its) / len(its)
        numbers = f"{min(its):.2f} | {mean:.2f} | {max(its):.2f}"
        print(f"| {' | '.join(group)} | {len(its)} | {numbers} |")
    print()
    table(sys.stdout, COLUMNS[3:], behind, delimiter="\t")
    print(f"The other one is faster in {len(behind)} of {len(rows)} rows.")


def table(file, columns, rows, **how):
    """Writes rows with the names of their columns."""
    made = csv.DictWriter(file, columns, lineterminator="\n", **how)
    made.writeheader()
    made.writerows(rows)


def chart(rows):
    """Draws a panel for each call and a group of bars for each text; the fastest has full width."""
    speeds = {}
    for it in rows:
        if it["script"] == "run" and it["order"] == "le" and it["unit"] == "GB/s":
            own, other = (it["call"], it["text"], it["library"]), it["competitor"]
            speeds[own] = float(it["ours"])
            speeds.setdefault((*own[:2], SAME.get(other, other)), float(it["theirs"]))
            if other not in SAME:
                speeds[(*own[:2], other)] = float(it["theirs"])
    drawn, height, x = [], 0, 300
    shown = {bar for _, _, bar in speeds}
    if "simdutf icelake" not in shown:
        drawn.append(f"<text x='10' y='34' font-size='10'>{WITHOUT_AVX512}</text>")
    for name, colour in [it for bar, it in BARS.items() if bar in shown]:
        drawn.append(f"<rect x='{x}' y='11' width='9' height='9' fill='{colour}'/>"
                     f"<text x='{x + 13}' y='19' font-size='10'>{name}</text>")
        x += 30 + 6 * len(name)
    for at, (call, title) in enumerate(PANELS.items()):
        x, y = 320 * at + 10, 56
        drawn.append(f"<text x='{x}' y='50' class='h'>{title}</text>")
        for text, words in TEXTS.items():
            known = [it for it in BARS if (call, text, it) in speeds]
            bars = [(speeds[call, text, it], BARS[it][1]) for it in known]
            if not bars:
                continue
            drawn.append(f"<text x='{x}' y='{y + 12}' class='t'>{words}</text>")
            for speed, colour in bars:
                y, width = y + 10, 260 * speed / max(bars)[0]
                size = f"width='{width:.1f}' height='9'"
                drawn.append(f"<rect x='{x}' y='{y + 6}' {size} fill='{colour}'/>"
                             f"<text x='{x + 3 + width:.1f}' y='{y + 14}'>{speed:.2f}</text>")
            y += 16
        height = max(height, y + 10)
    head = f"<svg xmlns='http://www.w3.org/2000/svg' viewBox='0 0 960 {height}'"
    head += " font-family='sans-serif' font-size='9'>"
    style = "<style>.h{font-size:13px;font-weight:bold}.t{font-size:10px;font-weight:bold}</style>"
    ground = f"<rect width='960' height='{height}' fill='#fff'/>"
    title = "<text x='10' y='20' class='h'>GB/s of UTF-16LE, longer is faster</text>"
    return "\n".join([head, style + ground, title, *drawn, "</svg>\n"])


def publish():
    """Fills in the rows of the published table, and draws the chart."""
    found = {}
    for script in SCRIPTS:
        if os.path.exists(f"out/{script}.csv"):
            with open(f"out/{script}.csv", encoding="utf-8", newline="") as it:
                found |= {tuple(row[name] for name in KEY): row for row in csv.DictReader(it)}
    commit = subprocess.check_output(["git", "describe", "--always", "--dirty"], text=True).strip()
    cpu = re.search(r"model name\t: (.*)", open("/proc/cpuinfo").read())
    day = f"{datetime.now(timezone.utc):%Y-%m-%d}"
    made = {"commit": commit, "date": day, "machine": cpu[1] if cpu else ""}
    with open(RESULTS, encoding="utf-8", newline="") as it:
        rows = list(csv.DictReader(it))
    for row in rows:
        key = tuple(row[it] for it in KEY)
        row.update({**made, **found[key]} if key in found else {})
    with open(RESULTS, "w", encoding="utf-8", newline="") as it:
        table(it, COLUMNS, rows)
    with open(CHART, "w", encoding="utf-8") as it:
        it.write(chart(rows))
    old = {it["commit"] for it in rows} - {commit}
    print(f"bench/{RESULTS}: rows of other commits: {', '.join(sorted(old)) or 'none'}")


def main(words):
    os.chdir(os.path.dirname(os.path.abspath(__file__)))
    if not words:
        return publish()
    if len(words) != 2 or words[0] not in SCRIPTS:
        sys.exit(f"usage: bench/publish.py [{'|'.join(SCRIPTS)} FILE]")
    with open(words[1], encoding="utf-8") as it:
        rows = compared(words[0], it)
    os.makedirs("out", exist_ok=True)
    with open(f"out/{words[0]}.csv", "w", encoding="utf-8", newline="") as it:
        table(it, COLUMNS[3:], rows)
    report(rows)


if __name__ == "__main__":
    main(sys.argv[1:])
