"""Converts the "Unicode Text" of Excel on standard input to comma-separated values in UTF-8."""

import csv
import io
import sys

import dethrux  # registers the codec

text = io.TextIOWrapper(sys.stdin.buffer, encoding="dethrux-utf-16", newline="")
rows = csv.reader(text, dialect="excel-tab")
csv.writer(sys.stdout, lineterminator="\n").writerows(rows)
