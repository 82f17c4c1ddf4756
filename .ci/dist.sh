#!/usr/bin/env bash
# Tests dist/, the library and the programs as assembly: that packaging/assembly would write the
# same files from the crates that rt ci has just proved, that their assembled code is the
# compiler's, and that make and CMake build libraries and programs of this machine that pass the
# tables of cases, with gcc and clang and without rt. With an argument, library or programs, it
# compares only these with the crates. qemu emulates processors. The other platforms are tested by
# .ci/arm.sh, .ci/windows.sh and .ci/macos.sh. The last line is 'N passed, M failed'.
set -uo pipefail
. "$(dirname "$0")/checks.sh"

# Builds and tests dist/ with make, without rt.
with_make() {
    PATH=/usr/bin:/bin make -C "$clone/dist" BUILD="$room/make-$1" "${@:2}" all check
}

# Tests that nearly no jump of make's object files crosses or ends a block of 32 bytes. Without the
# option a tenth of them does; gcc's assembler leaves a few.
keeps_blocks() {
    objdump -d -w --no-show-raw-insn "$room/make-$1"/{linux-*.o,programs/*/*.o} | python3 -c '
import re, sys
lines = [it.groups() for it in map(re.compile(r" +([0-9a-f]+):\t(\S+)").match, sys.stdin) if it]
jumps = [(int(at, 16), int(end, 16)) for (at, name), (end, _) in zip(lines, lines[1:])
         if name.startswith("j") and int(end, 16) > int(at, 16)]
crossing = [at for at, end in jumps if at // 32 != end // 32]
print(f"{len(crossing)} of {len(jumps)} jumps cross or end a block")
sys.exit(len(crossing) * 1000 > len(jumps) or len(jumps) < 1000)
'
}

# Tests that a shared library with the static library in it exports only what is its own, and that
# the linker drops from it what is not called.
hides_calls() {
    local words=(-shared -fPIC "${user[@]}" "$room/make-$1/libdethrux.a")
    cc "${words[@]}" -o "$room/all" && cc "${words[@]}" -Wl,--gc-sections -o "$room/less" &&
        [ "$(nm -D --defined-only "$room/less" | cut -c18-)" = 'T main' ] &&
        [ "$(stat -c %s "$room/less")" -lt $(($(stat -c %s "$room/all") * 2 / 3)) ]
}

# Tests that in a program that is linked statically, also with LTO, the library takes at most 100 KB:
# the linker drops the code for both levels of what is not called.
drops_rest() {
    local option library sizes
    for option in -O2 -flto; do
        sizes=()
        for library in "$room/make-$1/libdethrux.a" -Wl,--unresolved-symbols=ignore-all; do
            cc $option "${user[0]}" "$top/examples/c/first.c" "$library" -static \
                -Wl,--gc-sections -o "$room/static" || return
            sizes+=("$(size "$room/static" | awk 'NR == 2 { print $1 }')")
        done
        echo "$option: ${sizes[*]}"
        [ $((sizes[0] - sizes[1])) -lt 100000 ] || return
    done
}

# Tests that a debugger finds the callers from within calls.
shows_callers() {
    cc "${user[@]}" -L"$room/make-$1" -ldethrux -o "$room/debugged" || return
    LD_LIBRARY_PATH=$room/make-$1 gdb -q -batch -ex 'break dethrux_to_utf8' -ex run \
        -ex 'stepi 10' -ex bt -ex 'stepi 20' -ex bt -ex 'stepi 30' -ex bt "$room/debugged" 2>&1 |
        tee "$room/callers"
    [ "$(grep -c '^#[1-9].* in main ()$' "$room/callers")" = 3 ]
}

# Builds, tests and installs dist/ with CMake, and compiles a program with what it installed, which
# is what make installs.
with_cmake() {
    local built=$room/cmake
    cmake -S "$clone/dist" -B "$built" -DCMAKE_INSTALL_PREFIX="$room/prefix" &&
        cmake --build "$built" && (cd "$built" && ctest --output-on-failure --no-tests=error) &&
        cmake --install "$built" && by_cmake "$room/prefix" &&
        make -s -C "$clone/dist" BUILD="$room/make-gcc" stage STAGE="$room/stage" &&
        diff <(cd "$room/prefix" && find lib | sort) <(cd "$room/stage" && find lib | sort) &&
        has_marks readelf "$marks" "$room/prefix/lib"/*.so.?.? &&
        readelf -d "$room/prefix/lib"/*.so.?.? | grep BIND_NOW
}

# Tests that a library for one level names it.
names_level() {
    cc "${user[0]}" "$room/kernel.c" "$room/make-$1/libdethrux.a" -o "$room/kernel" &&
        diff <(echo "x86-64-$1") <(qemu-x86_64 -cpu max "$room/kernel")
}

# Tests that a processor or a system without assembly is refused.
refuses_target() {
    local systems='x86_64 and aarch64 Linux, x86_64 Windows, and macOS'
    printf '#!/bin/sh\necho %s\n' "$1" > "$room/other" && chmod +x "$room/other" &&
        refuses "there is no assembly for $1: only for $systems" "${make[@]}" CC="$room/other"
}

count 'packaging/calls' "$top/packaging/test/calls.py"
count 'what packaging/calls writes' "$top/packaging/calls" --check
count 'dist/rust is what packaging/erase writes' "$top/packaging/erase" --check
count 'dist/ is what packaging/assembly writes' "$top/packaging/assembly" --check "$@"
for file in "$top"/dist/src/linux-*.s "$top"/dist/src/programs/*/*.s; do
    count "the stack of ${file#"$top/"}" "$top/.ci/stack" "$file"
done
clone="$room/a clone"
make=(make -s -C "$clone/dist")
user=("-I$clone/dist/include" "$top/packaging/test/user.c")
marks='x86 feature: IBT, SHSTK'
count 'a clone' git clone -q "$top" "$clone"
count 'make' with_make gcc
count 'make with clang' with_make clang CC=clang
for compiler in gcc clang; do
    count "jumps by $compiler" keeps_blocks $compiler
    count "marks by $compiler" has_marks readelf "$marks" \
        "$room/make-$compiler"/{*.o,programs/*/*.o,libdethrux.so}
    count "a shared library by $compiler" hides_calls $compiler
    count "a static program by $compiler" drops_rest $compiler
    count "a debugger by $compiler" shows_callers $compiler
done
count 'which code is taken' "$top/.ci/chosen.sh"
count 'make for x86-64-v2' with_make v2 LEVEL=x86-64-v2
count 'make for x86-64-v3' with_make v3 LEVEL=x86-64-v3 RUN='qemu-x86_64 -cpu max'
count 'a program for x86-64-v3 below it' refuses 'this machine lacks a feature of x86-64-v3' \
    on_processor Nehalem "$room/make-v3/utf16_cat" le < /dev/null
write_kernel
for level in v2 v3; do
    count "the library for only x86-64-$level" names_level $level
    count "instructions for $level" "$top/cases/instructions.py" "$room/make-$level/libdethrux.a" $level
done
count 'CMake' with_cmake
for target in i686-linux-gnu x86_64-linux-gnux32 riscv64-linux-gnu x86_64-unknown-freebsd; do
    count "a compiler for $target" refuses_target "$target"
done
for level in x86-64-v4 v3 'x86-64-v2 x86-64-v3'; do
    count "LEVEL=$level" refuses "LEVEL=$level: take x86-64-v2 or x86-64-v3" \
        "${make[@]}" "LEVEL=$level"
done
finish
