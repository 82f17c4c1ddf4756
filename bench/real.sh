#!/usr/bin/env bash
# Times the calls of the C library and both programs on real texts, next to simdutf's kernels for
# 128, 256 and 512 bits: `SIMDUTF=FOLDER real.sh TEXTS`. A kernel that this processor cannot run is
# left out. SIMDUTF has simdutf.cpp and simdutf.h. TEXTS has a file NAME.txt in UTF-8 for each text,
# of which at most 1 MiB of UTF-16 is read. A text is converted line by line, and in pieces of 4 KiB
# and of 64 KiB. The library is built from dist/: its code for x86-64-v2, its code for x86-64-v3, and
# the library as it is installed, which chooses one of them. BEFORE may name another checkout of this
# repository: its programs and its code for x86-64-v2 are timed in the same run. Everything is linked
# at two places, 16 bytes apart, and the better time counts, since a branch may cross a 32-byte
# boundary at only one of them. publish.py prints the ratios.
set -eu
usage() { echo "usage: SIMDUTF=FOLDER [BEFORE=CHECKOUT] real.sh TEXTS" >&2; exit 2; }
[ $# = 1 ] && [ -n "${SIMDUTF:-}" ] || usage
ls "$1"/*.txt > /dev/null || usage
texts=$(cd "$1" && pwd)
simdutf=$(cd "$SIMDUTF" && pwd)
before=${BEFORE:+$(cd "$BEFORE" && pwd)}
cd "$(dirname "$0")"
room=$(mktemp -d)
trap 'rm -rf "$room"' EXIT

# Builds the library of a checkout, and sets `dist` to its folder.
build() {
    make -s -C "$1/dist" > "$room/said" 2>&1 || { cat "$room/said" >&2; exit 1; }
    dist=$(make -s -C "$1/dist" folder)
}
libraries=()
if [ -n "$before" ]; then
    build "$before"
    for name in dethrux_{validate,count_chars,is_ascii,to_utf8,from_utf8}_v2; do
        libraries+=(--redefine-sym "$name=before_$name" --keep-global-symbol "before_$name")
    done
    objcopy "${libraries[@]}" "$dist/linux-x86-64-v2.o" "$room/before.o"
    libraries=("$room/before.o")
fi
build ..
libraries+=("$dist/libdethrux.a")

level=x86-64-v2
cxx() { g++ -O3 -march=$level -Wa,-mbranches-within-32B-boundaries -I "$simdutf" "$@"; }
rust() {
    rustc --check-cfg 'cfg(before)' -C opt-level=3 -C target-cpu=$level \
        -C llvm-args=-x86-branches-within-32B-boundaries --out-dir "$room" -L "$room" "$@"
}
cxx -c "$simdutf/simdutf.cpp" -o "$room/simdutf.o" &
cxx -c simdutf_calls.cc -o "$room/simdutf_calls.o" &
rust --edition 2024 real_programs.rs
wait
cxx -static simdutf_cat.cc "$room/simdutf.o" -o "$room/simdutf_cat"
# Three rounds, since other work of the host can slow a machine down for seconds.
for space in 16 32 16 32 16 32; do
    printf '.section .text.pad,"axR",@progbits\n.balign 16\n.skip %s\n.section .note.GNU-stack,"",@progbits\n' $space |
        gcc -c -x assembler -o "$room/pad.o" -
    # simdutf's sections are aligned to 32 bytes, so they come before the padding.
    rust --edition 2024 real.rs ${before:+--cfg before} -C link-args="$room/simdutf_calls.o $room/simdutf.o \
        -lstdc++ $room/pad.o ${libraries[*]}"
    "$room/real" "$texts" >> "$room/lines"
    programs=()
    for checkout in .. ${before:+"$before"}; do
        for program in utf16_cat utf16_enc; do
            programs+=("$room/${#programs[@]}")
            folder=$(make -s -C "$checkout/dist" folder)
            gcc "$room/pad.o" "$folder"/programs/linux-*/$program.o "$folder/system.o" \
                -o "${programs[-1]}"
        done
    done
    "$room/real_programs" "$texts" "$room" "$room" "${programs[@]}" >> "$room/lines"
done

./publish.py real "$room/lines"
