#!/usr/bin/env bash
# Tests dist/src/choose.S: which code it takes on which processor; that a first call works in thirty
# threads, in a signal handler, in a child and before main, keeps registers and can be followed by a
# debugger; and that over all tables of cases only the code that it says runs. qemu emulates the
# processors. If a copy of it is named, it tests that, up to the first failure: examples/slips does.
# The last line is 'N passed, M failed'.
set -uo pipefail
. "$(dirname "$0")/checks.sh"
dist=$top/dist
source=${1-$dist/src/choose.S}
chosen=$room/chosen

# Builds the library with choose.S, and for each level one whose code of that level ends a program.
build() {
    local level
    make -s -C "$dist" || return
    gcc "-I$dist/src" -c "$source" -o "$room/choose.o" &&
        gcc "-I$dist/src" -Wa,-defsym,DETHRUX_SHARED=1 -c "$source" -o "$room/shared.o" || return
    for level in 2 3; do
        printf '%s\n' "#define CALL(result, name, ...) .globl name##_v$level; name##_v$level:" \
            '#define ACTION(...) CALL(void, __VA_ARGS__)' '#include "calls.inc"' ud2 |
            gcc "-I$dist/src" -c -x assembler-with-cpp - -o "$room/ends-v$level.o" &&
            cp "$built/linux-x86-64-v$level.o" "$room/v$level.o" || return
    done
    compile "$chosen" "$top/packaging/test/chosen.c" "$room"/{choose,v2,v3}.o &&
        gcc -shared "$room"/{shared,v2,v3}.o "-Wl,--version-script=$dist/dethrux.map" \
            -Wl,-z,text,-z,defs -nostartfiles -o "$room/libdethrux.so"
}

compile() {
    gcc -O1 -Wall -Wextra -Werror -pthread "-I$dist/include" "${@:2}" -o "$1"
}

# Tests that a program prints that it takes the code for a level.
takes() {
    diff <(echo "x86-64-$1") <("${@:2}")
}

# Tests what is taken if the system's answer to xgetbv is this number.
takes_with_state() {
    sed "s/xgetbv/movl \$$2, %eax/" "$source" > "$room/state.S" &&
        ! cmp -s "$source" "$room/state.S" &&
        compile "$room/state" "-I$dist/src" "$top/packaging/test/chosen.c" "$room"/{state.S,v{2,3}.o} &&
        takes "$1" on_processor Haswell "$room/state"
}

# Runs a debugger from the first instruction of the first call on.
debug() {
    { printf '%s\n' 'set confirm off' 'break *dethrux_version' run; cat; } > "$room/script"
    gdb -q -batch -x "$room/script" "$chosen" > "$room/debugged" 2>&1
}

# Tests that a first call keeps all registers but rax, and names no vector or floating point.
keeps_registers() {
    local names=(r{b,c,d}x r{s,d}i rbp r{8..15})
    { printf 'set $%s = 0x123456789ABCDEF\n' "${names[@]}"
        echo finish
        printf 'print/x $%s\n' "${names[@]}"; } | debug
    tail -n 14 "$room/debugged"
    [ "$(grep -c '^\$[0-9]* = 0x123456789abcdef$' "$room/debugged")" = 14 ] &&
        ! objdump -d "$room/choose.o" | grep -E '%([xyz]?mm|st)|vzero'
}

# Tests that from each instruction of a first call a debugger finds the caller, and that the level
# is set only once.
shows_callers() {
    printf '%s\n' 'set $before = $rsp' 'while $rsp <= $before' 'echo step\n' bt \
        'printf "level %d\n", *(int *)&level' stepi end | debug
    [ "$(grep '^level ' "$room/debugged" | sort -u | wc -l)" = 2 ] || return
    sed -n 's/^step$/;/p; s/^#[0-9].* in \(.*\) ()$/\1/p' "$room/debugged" | paste -sd ' ' |
        tr ';' '\n' | awk 'NF { $1 = $1; print }' | sed 's/_v[23]//' | sort -u |
        diff <(printf '%s\n' 'dethrux_version main' 'find_level dethrux_version main') -
}

# Tests that each function begins with the instruction at which an indirect call may land, that only
# the shared library exports them, and its marks.
is_marked() {
    diff <(nm -g --defined-only "$room/choose.o" | wc -l) \
        <(objdump -d "$room/choose.o" | grep -A 1 '^[0-9a-f]* <dethrux_.*>:$' | grep -c endbr64) &&
        diff <(nm -g --defined-only "$room/choose.o" | wc -l) \
            <(readelf -sW "$room/choose.o" | grep -c ' FUNC  *GLOBAL HIDDEN ') &&
        exports_header nm -D --defined-only "$room/libdethrux.so" &&
        has_marks readelf 'x86 feature: IBT, SHSTK' "$room/libdethrux.so" &&
        readelf -n "$room/libdethrux.so" | grep 'x86 ISA needed: x86-64-baseline, x86-64-v2$' &&
        readelf -lW "$room/libdethrux.so" | grep 'GNU_STACK .* RW '
}

# Tests that before main, in a library that is preloaded, a call takes the code that is taken later.
takes_before_main() {
    compile "$room/libearly.so" -shared -fPIC -DBEFORE_MAIN "$top/packaging/test/chosen.c" \
        "-L$room" -ldethrux && diff <("$chosen") \
        <(LD_LIBRARY_PATH=$room LD_PRELOAD=$room/libearly.so /bin/true)
}

# Compiles the checks over the code of one level, the other of which ends them, and runs the tables.
runs_only() {
    local level=$1 name
    for name in check units; do
        gcc -std=c11 -O1 "-I$dist/include" "$top/examples/c/$name.c" "$room/choose.o" \
            "$room/v$level.o" "$room/ends-v$((5 - level)).o" -o "$room/$name" || return
    done
    "${@:2}" "$room/check" "$room/cases" && "${@:2}" "$room/units"
}

# Tests that thirty threads never take the code for x86-64-v2 on a processor that has the other one,
# not even while they find this out.
threads_take_one() {
    local time
    compile "$room/one" "$top/packaging/test/chosen.c" "$room"/{choose,ends-v2,v3}.o || return
    for time in {1..10}; do
        on_processor Haswell "$room/one" threads || return
    done
}

# Tests which code a program takes: without the other one it still runs.
program_takes() {
    local level=$1 name=utf16_cat objects=("$built/system.o")
    objects+=("$built/programs/linux-x86-64-v$level/$name.o")
    printf '.globl proved_main_v%d\nproved_main_v%d: ud2\n' $((5 - level)) $((5 - level)) |
        gcc -c -x assembler - -o "$room/ends.o" && gcc "${objects[@]}" "$room/ends.o" \
        -o "$room/program" && printf 'h\0i\0' | "${@:2}" "$room/program" le | diff - <(printf hi)
}

# Counts a check. If it fails for a copy, this ends.
try() {
    count "$@" || [ "$source" = "$dist/src/choose.S" ] || finish
}

built=$(make -s -C "$dist" folder)
"$top/cases/to_json.py" --tabs > "$room/cases"
count 'the library with choose.S' build || finish
try 'registers' keeps_registers
try 'a debugger' shows_callers
try 'the marks' is_marked
try 'Nehalem' takes v2 on_processor Nehalem "$chosen"
try 'Haswell' takes v3 on_processor Haswell "$chosen"
try 'the newest processor of qemu' takes v3 on_processor max "$chosen"
for feature in avx2 bmi1 bmi2 fma f16c movbe abm avx xsave; do
    try "Haswell without $feature" takes v2 on_processor "Haswell,-$feature" "$chosen"
done
try 'a system without AVX' takes_with_state v2 3
try 'a system without SSE' takes_with_state v2 5
try 'a system with both' takes_with_state v3 7
# qemu gives a signal handler a stack that is not aligned.
try 'threads, Nehalem' takes v2 on_processor Nehalem "$chosen" threads
try 'threads, Haswell' threads_take_one
for where in threads handler child; do
    try "$where" diff <("$chosen") <("$chosen" $where)
done
try 'before main' takes_before_main
try 'the tables, Nehalem' runs_only 2 on_processor Nehalem
try 'the tables, Haswell' runs_only 3 on_processor Haswell
if [ "$source" = "$dist/src/choose.S" ]; then
    try 'the tables, Haswell without xsave' runs_only 2 on_processor Haswell,-xsave
    try 'the tables, the newest processor of qemu' runs_only 3 on_processor max
    for feature in avx2 bmi1 bmi2 fma f16c movbe abm avx xsave; do
        try "a program, Haswell without $feature" program_takes 2 on_processor "Haswell,-$feature"
    done
    try 'a program, Nehalem' program_takes 2 on_processor Nehalem
    try 'a program, Haswell' program_takes 3 on_processor Haswell
    try 'a program for which glibc has no AVX2' \
        program_takes 2 env GLIBC_TUNABLES=glibc.cpu.hwcaps=-AVX2
fi
finish
