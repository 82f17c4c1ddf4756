#!/usr/bin/env bash
# Tests the library and the programs for Linux on ARM64, which cross compilers build from dist/,
# under qemu-aarch64: the tables of cases, the programs of the documents, big buffers, the fuzzing
# harness with pages of 4 and of 64 KiB, the symbols, the marks of BTI and the Debian packages.
# .ci/install.sh tests the release archive.
# qemu emulates a Cortex-A53, which has no more than what each ARM64 processor has. Prints each check
# that fails; the last line is 'N passed, M failed'.
set -uo pipefail
. "$(dirname "$0")/checks.sh"
version=$(< "$top/VERSION")

system=/usr/aarch64-linux-gnu
triplet=aarch64-linux-gnu
folder=$top/dist/out/$triplet
export QEMU_CPU=cortex-a53 QEMU_LD_PREFIX=$system
warnings=(-O2 -Wall -Wextra -Wpedantic -Werror)

# Tests that the shared library has its name, needs only libc, and only what glibc 2.17 has, the
# first one for ARM64.
needs_libc() {
    $triplet-readelf -d "$1" | sed -nE 's/.*\((SONAME|NEEDED)\).*\[(.*)\]/\1 \2/p' | sort \
        > "$room/needed"
    printf '%s\n' 'NEEDED libc.so.6' "SONAME libdethrux.so.${version%.*}" | diff - "$room/needed" &&
        [ "$($triplet-readelf -V "$1" | grep -o 'GLIBC_[0-9.]*' | sort -u)" = GLIBC_2.17 ]
}

# Compiles a program for ARM64 with this compiler and with either library, and runs it.
runs() {
    local library=(-L "$folder" -ldethrux)
    [ "$3" = shared ] || library=("$folder/libdethrux.a")
    $1 "${warnings[@]}" -I "$top/dist/include" "$2" "${library[@]}" -o "$room/program" &&
        LD_LIBRARY_PATH=$folder qemu-aarch64 "$room/program"
}

# Tests that the program prints what a page shows.
prints_page() {
    page_text "$1" > "$room/page" && "${@:2}" > "$room/found" && cmp "$room/page" "$room/found"
}

# Runs the harness for ten seconds, and the planted versions, and then the harness with pages of
# 64 KiB.
fuzz() {
    "$top/fuzz/run.sh" --arm64 --seconds 10 --library "$folder/libdethrux.a" > "$room/fuzzing" 2>&1
    QEMU_PAGESIZE=65536 qemu-aarch64 "$top/fuzz/out/arm64/harness" --random 2 5 > "$room/pages" 2>&1
}

# Tests that the harness ended without a failure.
finds_nothing() {
    cat "$1"
    tail -n 1 "$1" | grep -qxE '[1-9][0-9]* passed, 0 failed'
}

# Compiles a program with pkg-config's words for the files of the packages, and runs it.
runs_unpacked() {
    local package words lib=$room/unpacked/usr/lib/$triplet
    for package in "$room"/debs/*.deb; do
        dpkg-deb -x "$package" "$room/unpacked" || return
    done
    words=$(PKG_CONFIG_PATH=$lib/pkgconfig pkg-config --cflags --libs dethrux) || return
    eval "words=($words)"
    $triplet-gcc "${warnings[@]}" "$top/packaging/test/user.c" "${words[@]}" -o "$room/user" &&
        LD_LIBRARY_PATH=$lib qemu-aarch64 "$room/user"
}

# Tests that the programs of the packages run, and need the glibc that the package depends on.
packed_programs_run() {
    $triplet-readelf -V "$room"/unpacked/usr/bin/* | grep -o 'GLIBC_[0-9.]*' | sort -V |
        tail -n 1 | tee "$room/needed" && grep -x GLIBC_2.34 "$room/needed" &&
        [ "$(dpkg-deb -f "$room"/debs/dethrux-tools_*.deb Depends)" = 'libc6 (>= 2.34)' ] &&
        programs_run "$room/unpacked/usr/bin" qemu-aarch64
}

count 'the tables with gcc' runs_tables "$top/dist" -s CC=$triplet-gcc || finish
fuzz &
count 'the tables with clang' runs_tables "$top/dist" -s CC='clang --target=aarch64-linux-gnu'
check 'the symbols of the shared library' \
    exports_header $triplet-nm -D --defined-only "$folder/libdethrux.so"
check 'the symbols of the static library' \
    exports_header public $triplet-nm -g --defined-only "$folder/libdethrux.a"
check 'what the static library calls' \
    calls_memory_alone public $triplet-nm --undefined-only "$folder/libdethrux.a"
check 'what the shared library needs' needs_libc "$folder/libdethrux.so"
check 'the marks' has_marks $triplet-readelf 'AArch64 feature: BTI' "$folder"/{*.o,libdethrux.so}
for library in static shared; do
    check "the first program in C, $library" \
        prints_page C runs "$triplet-gcc -std=c99" "$top/examples/c/first.c" $library
    check "the first program in C++, $library" \
        prints_page CPP runs "$triplet-g++ -std=c++17" "$top/examples/cpp/first.cpp" $library
    check "17 MiB, $library" runs "$triplet-gcc -std=gnu11" "$top/packaging/test/big.c" $library
done
write_kernel
for library in static shared; do
    # This processor has BTI.
    QEMU_CPU=max check "the name of the code, $library" \
        diff <(echo aarch64) <(runs $triplet-gcc "$room/kernel.c" $library)
done
check 'the check in C++' runs "$triplet-g++ -std=c++17" "$top/examples/cpp/check.cpp" static
# A kernel for ARM64 may have such pages.
QEMU_PAGESIZE=65536 check '17 MiB with pages of 64 KiB' \
    runs "$triplet-gcc -std=gnu11" "$top/packaging/test/big.c" static
if check 'the Debian packages' "$top/packaging/release.sh" "$room/debs" deb-arm64; then
    check 'lintian' lintian --allow-root --fail-on error,warning "$room"/debs/*.deb
    check 'the packages unpacked' runs_unpacked
    check 'the programs of the packages' packed_programs_run
fi
wait
count 'fuzzing' finds_nothing "$room/fuzzing"
check 'fuzzing with pages of 64 KiB' finds_nothing "$room/pages"
finish
