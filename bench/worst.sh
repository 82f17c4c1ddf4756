#!/bin/sh
# Times the calls of the C library on the bytes that cost most, in buffers of each capacity, and
# ICU's converters on the same bytes, in one run. Of each call and capacity publish.py takes the
# text that costs most nanoseconds per byte of input, and of ICU the one that costs it most.
set -eu
top=$(cd "$(dirname "$0")/.." && pwd)
mkdir -p "$top/bench/out"
cd "$top/bench"
make -s -C ../dist > out/make.log 2>&1 || { cat out/make.log >&2; exit 1; }
gcc -O2 -Wa,-mbranches-within-32B-boundaries -I ../dist/include worst.c -o out/worst \
    "$(make -s -C ../dist folder)/libdethrux.a" -licuuc
out/worst > out/worst.tsv
./publish.py worst out/worst.tsv
