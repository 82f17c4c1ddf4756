#!/bin/sh
# Builds the library and its competitors, and times the calls. publish.py prints the ratios. The
# library is built from dist/; `here v3` is its code for processors with AVX2. If SIMDUTF names a
# folder with simdutf.cpp and simdutf.h, simdutf's kernels are also timed: westmere, haswell if the
# processor has AVX2, and icelake if it has AVX-512 VBMI2.
set -eu
[ -z "${SIMDUTF:-}" ] || SIMDUTF=$(cd "$SIMDUTF" && pwd)
cd "$(dirname "$0")"
missing=0
need() { # COMMAND WHAT: if the command fails, says what is missing
    eval "$1" > /dev/null 2>&1 || { echo "bench: missing: $2" >&2; missing=1; }
}
need 'rustc --edition 2024 --print sysroot' 'rustc 1.85 or later'
need 'command -v gcc' 'gcc (Debian: gcc)'
need 'echo "#include <unicode/ustring.h>" | gcc -E -' "ICU's headers (Debian: libicu-dev)"
registry=/usr/share/cargo/registry
need "ls $registry/encoding_rs-*/src/lib.rs" 'the Rust crate encoding_rs (Debian: librust-encoding-rs-dev)'
need "ls $registry/cfg-if-*/src/lib.rs" 'the Rust crate cfg-if (Debian: librust-cfg-if-dev)'
if [ -n "${SIMDUTF:-}" ]; then
    need '[ -f "$SIMDUTF/simdutf.cpp" ] && [ -f "$SIMDUTF/simdutf.h" ]' "simdutf's single-file sources in $SIMDUTF"
    need 'command -v g++' 'g++ (Debian: g++)'
fi
[ "$missing" = 0 ] || exit 1

mkdir -p out
make -s -C ../dist > out/make.log 2>&1 || { cat out/make.log >&2; exit 1; }
dist=$(make -s -C ../dist folder)

# The processor that rt builds for. Branches are padded so that none crosses a 32-byte boundary: on
# some processors a crossing halves the speed of a loop.
level=x86-64-v2
rust() {
    rustc --check-cfg 'cfg(simdutf)' -C opt-level=3 -C target-cpu=$level -C llvm-args=-x86-branches-within-32B-boundaries --out-dir out -L out "$@"
}
crate() { rust --edition 2018 --crate-type rlib --cap-lints allow --crate-name "$@"; }
crate cfg_if $registry/cfg-if-*/src/lib.rs
crate encoding_rs $registry/encoding_rs-*/src/lib.rs --cfg 'feature="alloc"' --extern cfg_if=out/libcfg_if.rlib
gcc -O3 -march=$level -Wa,-mbranches-within-32B-boundaries -c icu.c -o out/icu.o
rm -f out/simdutf*
simdutf=''
if [ -n "${SIMDUTF:-}" ]; then
    cxx() { g++ -O3 -march=$level -Wa,-mbranches-within-32B-boundaries -I "$SIMDUTF" "$@"; }
    cxx -c "$SIMDUTF/simdutf.cpp" -o out/simdutf.o
    cxx -c simdutf_calls.cc -o out/simdutf_calls.o
    simdutf="out/simdutf_calls.o out/simdutf.o -lstdc++"
fi
rust --edition 2024 calls.rs ${simdutf:+--cfg simdutf} --extern encoding_rs=out/libencoding_rs.rlib -l icuuc \
    -C link-args="out/icu.o $simdutf $dist/libdethrux.a"

out/calls > out/lines.tsv
./publish.py run out/lines.tsv
