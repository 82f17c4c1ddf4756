#!/usr/bin/env bash
# Tests the library for macOS, which clang and LLVM's linker build from dist/: its symbols, and the
# tables of cases, which here run over the linked code under Linux. .ci/macos.py puts this into
# memory like the loader of macOS, and qemu emulates ARM64. No part of macOS is used. The last line
# is 'N passed, M failed'.
set -uo pipefail
. "$(dirname "$0")/checks.sh"
version=$(< "$top/VERSION")
linker="-fuse-ld=lld -nostdlib -mlinker-version=700 $room/system.tbd"

# The functions of libSystem that a program links with.
printf '%s\n' '--- !tapi-tbd' 'tbd-version: 4' 'targets: [ x86_64-macos, arm64-macos ]' \
    "install-name: '/usr/lib/libSystem.B.dylib'" 'exports:' \
    '  - targets: [ x86_64-macos, arm64-macos ]' \
    '    symbols: [ _memcmp, _memcpy, _memmove, _memset, dyld_stub_binder ]' ... > "$room/system.tbd"

# Prints the names of C that llvm-nm prints with these options.
names() {
    llvm-nm "$@" | sed 's/ _/ /'
}

with_make() {
    make -s -C "$top/dist" "CC=clang --target=$1" AR=llvm-ar "LDFLAGS=$linker" "BUILD=$room/$1" &&
        exports_header names -g --defined-only "$room/$1/libdethrux.dylib" &&
        calls_memory_alone public names -u "$room/$1/libdethrux.a"
}

# Tests that a library which contains the static one does not export its calls.
hides_calls() {
    clang --target=$1 -dynamiclib $linker -Wl,-all_load "$room/$1/libdethrux.a" -o "$room/all" &&
        llvm-nm -g --defined-only "$room/all" > "$room/names" && [ ! -s "$room/names" ]
}

# What CMake builds and installs, and how another project finds it. CMake runs sw_vers for the
# version of macOS, and takes @rpath only from 10.5 on.
with_cmake() {
    local option options=(-DCMAKE_{C,ASM}_COMPILER=clang -DCMAKE_{C,ASM}_COMPILER_TARGET=$1)
    options+=(-DCMAKE_SYSTEM_NAME=Darwin -DCMAKE_SYSTEM_PROCESSOR=${1%%-*} -Wno-dev)
    options+=(-DCMAKE_C_COMPILER_WORKS=1 -DCMAKE_INSTALL_NAME_TOOL=true)
    for option in AR RANLIB; do
        options+=("-DCMAKE_$option=$(command -v llvm-${option,,})")
    done
    options+=("-DCMAKE_SHARED_LINKER_FLAGS=$linker")
    cmake -S "$top/dist" -B "$room/cmake-$1" "${options[@]}" &&
        cmake --build "$room/cmake-$1" --target dethrux_shared dethrux_static &&
        exports_header names -g --defined-only "$room/cmake-$1/libdethrux.dylib" &&
        calls_memory_alone public names -u "$room/cmake-$1/libdethrux.a" &&
        cmake --install "$room/cmake-$1" --prefix "$room/prefix-$1" &&
        diff <(cd "$room/prefix-$1/lib" && find . -name '*dethrux*' ! -type d | sort) - << END &&
./cmake/dethrux/dethruxConfig.cmake
./cmake/dethrux/dethruxConfigVersion.cmake
./libdethrux.$version.dylib
./libdethrux.${version%.*}.dylib
./libdethrux.a
./libdethrux.dylib
./pkgconfig/dethrux.pc
END
        printf '#!/bin/sh\necho 11.0\n' > "$room/sw_vers" && chmod +x "$room/sw_vers" &&
        PATH=$room:$PATH cmake -S "$top/packaging/test" -B "$room/user-$1" "${options[@]}" \
            -DCMAKE_PREFIX_PATH="$room/prefix-$1" -DCMAKE_FIND_ROOT_PATH_MODE_PACKAGE=BOTH |
            grep -Fx -- "-- the shared library is @rpath/libdethrux.${version%.*}.dylib"
}

# Runs a program of examples/c over a linked library, with a compiler for Linux.
tables() {
    local target=$1 program=$2 standard=$3 compiler=$4
    shift 4
    "$top/.ci/macos.py" "$room/$target/libdethrux.dylib" "$room/memory.s" &&
        $compiler -O2 -std=$standard -I "$top/dist/include" "$top/examples/c/$program.c" \
            "$room/memory.s" -o "$room/program" && "$@"
}

# Tests that a linked library names the code that the one for Linux takes on this machine.
names_code() {
    local target=$1 compiler=$2
    shift 2
    write_kernel && "$top/.ci/macos.py" "$room/$target/libdethrux.dylib" "$room/memory.s" &&
        make -s -C "$top/dist" CC="$compiler" BUILD="$room/linux" "$room/linux/libdethrux.a" &&
        $compiler -I "$top/dist/include" "$room/kernel.c" "$room/linux/libdethrux.a" \
            -o "$room/program" && "$@" > "$room/wanted" &&
        $compiler -I "$top/dist/include" "$room/kernel.c" "$room/memory.s" -o "$room/program" &&
        diff "$room/wanted" <("$@")
    local status=$?
    rm -rf "$room/linux"
    return $status
}

# Tests that the words of make on a Mac with an ARM64 processor are these, and that it refuses to
# install.
words_of_make() {
    printf '#!/bin/sh\necho arm64-apple-darwin23.6.0\n' > "$room/cc" && chmod +x "$room/cc" &&
        make -n -C "$top/dist" "CC=$room/cc" check > "$room/words" &&
        grep -F -- "-install_name @rpath/libdethrux.${version%.*}.dylib" "$room/words" &&
        grep -F -- "-compatibility_version ${version%.*} -current_version $version" \
            "$room/words" &&
        [ "$(grep -c -- '-Wl,-rpath,@loader_path' "$room/words")" = 4 ] &&
        grep -c 'src/macos-aarch64\.s' "$room/words" | grep -x 1 &&
        [ "$(grep -c '^out/.*_\(static\|shared\)' "$room/words")" = 4 ] &&
        ! make -n -C "$top/dist" "CC=$room/cc" install > "$room/words" 2> "$room/why" &&
        grep -F 'on macOS CMake installs this: see docs/INSTALL.md' "$room/why"
}

"$top/cases/to_json.py" --tabs > "$room/cases"
for target in arm64-apple-macosx11 x86_64-apple-macosx10.15; do
    compiler=gcc
    run=("$room/program")
    if [[ $target == arm64* ]]; then
        compiler=aarch64-linux-gnu-gcc
        run=(qemu-aarch64 -L /usr/aarch64-linux-gnu "$room/program")
    fi
    check "make for $target" with_make $target || continue
    check "a library around it for $target" hides_calls $target
    check "CMake for $target" with_cmake $target
    count "cases for $target" tables $target check c99 $compiler "${run[@]}" "$room/cases"
    check "the name of the code for $target" names_code $target $compiler "${run[@]}"
    [[ $target == arm64* ]] || count "cases for $target on x86-64-v2" tables $target check c99 \
        $compiler qemu-x86_64 -cpu Nehalem "${run[@]}" "$room/cases"
    count "code units for $target" tables $target units c11 $compiler "${run[@]}"
    count "allocations for $target" tables $target alloc c99 $compiler "${run[@]}"
done
check 'make on a Mac' words_of_make
finish
