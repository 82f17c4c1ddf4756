#!/usr/bin/env bash
# Installs what is built into empty folders, with install.sh, from the release archives and from the
# Debian packages, runs the programs, and compiles and runs programs against each. Compares the
# symbols of the libraries with the header, and the versions in files with VERSION. Nothing here may
# call rt. Prints each check that fails; the last line is 'N passed, M failed'.
set -uo pipefail
. "$(dirname "$0")/checks.sh"
sources=$top/packaging/test
version=$(< "$top/VERSION")
soname=libdethrux.so.${version%.*}
packages=(libdethrux0.2 libdethrux-dev dethrux-tools dethrux-iconv)
purge=false

# Removes what this made, and also the packages if they are installed on this system.
clean() {
    ! $purge || apt_get purge "${packages[@]}" > /dev/null
    rm -rf "$room"
}
trap clean EXIT

# Tests that a command ends with this status and prints one line that contains these words.
says() {
    local status=$1 words=$2 found
    shift 2
    "$@" > "$room/line" 2>&1
    found=$?
    cat "$room/line"
    [ $found = "$status" ] && [ "$(wc -l < "$room/line")" = 1 ] && grep -qF -- "$words" "$room/line"
}

# Tests that the library and each function of the headers have a page, that one page declares all
# functions on code units, and another one all of dethrux_alloc.h.
has_pages() {
    local pages=$prefix/share/man/man3
    declared "$prefix/include" 'extern|static' > "$room/declared" &&
        declared "$prefix/include" static dethrux_alloc > "$room/alloc" || return
    (cd "$pages" && printf '%s\n' *.3) | sed 's/\.3$//' | sort |
        diff <(printf '%s\n' dethrux{,_u16,_alloc} | sort - "$room"/{declared,alloc}) - &&
        grep '^dethrux_u16_' "$room/declared" > "$room/units" &&
        sed -n 's/^\.Fo //p' "$pages/dethrux_u16.3" | sort | diff "$room/units" - &&
        sed -n 's/^\.Fo //p' "$pages/dethrux_alloc.3" | sort | diff "$room/alloc" - &&
        cmp "$pages"/dethrux_u16{,_find}.3 && cmp "$pages"/dethrux_alloc.3 "$pages"/dethrux_u16_strlen.3
}

config() {
    PKG_CONFIG_PATH="$1/lib/pkgconfig" pkg-config "${@:2}" dethrux
}

# Compiles user.c with words that pkg-config has quoted for a shell.
compile() {
    local words
    eval "words=($1)"
    "${CC:-cc}" -Wall -Wextra -Werror "$sources/user.c" "${words[@]}" "${@:2}" -o "$room/program"
}

# Tests that a program without a loader tests the processor by itself. In one that does not, a call
# can end it.
all_static() {
    iconv -f UTF-8 -t UTF-16LE "$top/README.md" > "$room/utf16"
    "$1" "-I$prefix/include" "$top/examples/c/decode.c" "$prefix/lib/libdethrux.a" -static \
        -o "$room/unchecked" && on_processor Nehalem "$room/unchecked" le < "$room/utf16" &&
        ! on_processor qemu64 "$room/unchecked" le < "$room/utf16" || return
    CC=$1 compile "$(config "$prefix" --static --cflags --libs)" -static && "$room/program" &&
        ! ldd "$room/program" && on_processor qemu64 "$room/program"
    [ $? = 4 ]
}

# Compiles the program of a page against what is installed, and tests that it prints what the page
# shows.
is_page() {
    local words
    eval "words=($(config "$prefix" --cflags --libs))"
    $1 "$top/examples/$2" "${words[@]}" -o "$room/program" &&
        LD_LIBRARY_PATH=$prefix/lib "$room/program" | diff <(page_text "$3") -
}

# Tests that CMake finds the package, but not in this version.
cmake_refuses() {
    mkdir -p "$room/refused"
    printf '%s\n' 'cmake_minimum_required(VERSION 3.13)' 'project(refused NONE)' \
        "find_package(dethrux $1 REQUIRED)" > "$room/refused/CMakeLists.txt"
    ! cmake -S "$room/refused" -B "$room/refused/out" -DCMAKE_PREFIX_PATH="$prefix" \
        > "$room/log" 2>&1 && grep -F "version: $version" "$room/log"
}

# Tests that a program ends with these words on a processor below x86-64-v2, but runs on one that has
# it. The loader tests the processor for the library, and a program of ours tests it itself.
is_refused_below() {
    says 127 "$1" on_processor qemu64 "${@:2}" && on_processor Nehalem "${@:2}"
}

takes_17_mib() {
    cc -O2 -Wall -Wextra -Werror "-I$prefix/include" "$sources/big.c" "$prefix/lib/libdethrux.a" \
        -o "$room/big" && on_processor "$1" "$room/big"
}

# Tests both libraries.
check_libraries() {
    local lib=$prefix/lib
    check "the symbols of the shared library" exports_header nm -D --defined-only "$lib/$soname"
    check "the symbols of the static library" \
        exports_header public nm -g --defined-only "$lib/libdethrux.a"
    check "what the static library calls" \
        calls_memory_alone public nm --undefined-only "$lib/libdethrux.a"
    check "the shared library" compile "$(config "$prefix" --cflags --libs)"
    LD_LIBRARY_PATH=$lib check "the shared library below its level" \
        is_refused_below 'CPU ISA level is lower' "$room/program"
    check "the static library" compile "$(config "$prefix" --cflags)" "$lib/libdethrux.a"
    check "the static library below its level" \
        is_refused_below 'CPU ISA level is lower' "$room/program"
    check '17 MiB on x86-64-v2' takes_17_mib Nehalem
    check '17 MiB on x86-64-v3' takes_17_mib Haswell
    check 'musl' by_musl
}

# Tests that a program with musl takes the code that one with glibc takes.
by_musl() {
    local words=("$room/kernel.c" "-I$prefix/include" "$prefix/lib/libdethrux.a")
    write_kernel && gcc "${words[@]}" -o "$room/program" &&
        musl-gcc -static "${words[@]}" -o "$room/by_musl" && diff <("$room/program") <("$room/by_musl")
}

# Installs next to other files, and again over a file of an earlier version, which goes.
# Uninstalling keeps the files that install.sh did not install.
keeps_others() {
    local used=$room/used
    mkdir -p "$used/bin" && touch "$used/bin/mine" && "$top/install.sh" "$used" &&
        touch "$used/include/"{old,mine}.h &&
        echo include/old.h >> "$used/share/dethrux/install_manifest.txt" &&
        "$top/install.sh" "$used" && [ ! -e "$used/include/old.h" ] &&
        "$top/install.sh" --uninstall "$used" &&
        diff <(cd "$used" && find . | sort) <(printf '%s\n' . ./bin{,/mine} ./include{,/mine.h})
}

# Tests that nothing is removed if the manifest has this line, a path outside the prefix.
keeps_outside() {
    mkdir -p "$room/outside/share/dethrux" && touch "$room/kept" &&
        echo "$1" > "$room/outside/share/dethrux/install_manifest.txt" &&
        says 1 'not a path below' "$top/install.sh" --uninstall "$room/outside" &&
        [ -e "$room/kept" ]
}

# Tests that DESTDIR is put before each path and is not in any file, and that uninstalling leaves
# nothing of a prefix that install.sh made.
for_packagers() {
    local -x DESTDIR=$room/packaged LIBDIR=lib/x86_64-linux-gnu
    "$top/install.sh" /usr && [ -e "$DESTDIR/usr/$LIBDIR/libdethrux.so.$version" ] &&
        ! grep -rlF "$room" "$DESTDIR" && "$top/install.sh" --uninstall /usr && [ ! -e "$DESTDIR/usr" ]
}

# Installs from a clone in which nothing is built.
installs_from_clone() {
    git clone -q "$top" "$room/clone" && "$room/clone/install.sh" "$room/from clone" &&
        diff -r "$prefix" "$room/from clone"
}

# Tests that release.sh makes these files, and the same ones again. Their names have the version.
makes_same_release() {
    "$top/packaging/release.sh" "$room/first" && sleep 1 &&
        "$top/packaging/release.sh" "$room/second" && diff -r "$room/first" "$room/second" &&
        diff <(printf '%s\n' SHA256SUMS "dethrux-$version"{,-{dist,{x86_64,aarch64}-linux-gnu}}.tar.gz \
            "dethrux-$version"{.tgz,-x86_64-windows.zip} dethrux{,-utf16string}-"$version.crate" \
            {dethrux-{iconv,tools},libdethrux{-dev,0.2}}"_${version}_"{amd,arm}64.deb | sort) \
            <(cd "$room/first" && printf '%s\n' * | grep -v "^dethrux-$version-.*\.whl$" | sort) &&
        (cd "$room/first" && sha256sum -c SHA256SUMS)
}

unpacks() {
    tar -C "$room" -xzf "$room/first/dethrux-$version-$1.tar.gz" &&
        (cd "$room/dethrux-$version-$1" && sha256sum -c --quiet SHA256SUMS)
}

# Tests that the archive's install.sh installs what the clone's install.sh did.
installs_unpacked() {
    unpacks x86_64-linux-gnu &&
        "$room/dethrux-$version-x86_64-linux-gnu/install.sh" "$room/from archive" &&
        diff -r "$room/from archive" "$prefix"
}

# Tests that the archive for ARM64 installs what a program for ARM64 can use.
installs_for_arm64() {
    unpacks aarch64-linux-gnu &&
        "$room/dethrux-$version-aarch64-linux-gnu/install.sh" "$room/arm64" &&
        programs_run "$room/arm64/bin" qemu-aarch64 -L /usr/aarch64-linux-gnu &&
        CC=aarch64-linux-gnu-gcc compile "$(config "$room/arm64" --cflags --libs)" &&
        LD_LIBRARY_PATH="$room/arm64/lib" qemu-aarch64 -L /usr/aarch64-linux-gnu "$room/program"
}

# Tests that make builds the libraries and the programs from the archive of the assembly, runs their
# tables, and installs them.
builds_sources() {
    local dist=$room/dethrux-$version-dist/dist
    unpacks dist && runs_tables "$dist" && make -C "$dist" install PREFIX="$room/built" &&
        diff -r "$room/built" "$prefix"
}

# Tests that iconv takes the module: from this folder, or without one from the system.
takes_module() {
    printf 'x\0' | LD_DEBUG=files LD_LIBRARY_PATH=$1 env ${1:+GCONV_PATH="$1/gconv"} \
        iconv -f UTF-16LE -t UTF-8 2>&1 | grep -a 'calling init: .*/DETHRUX\.so$'
}

# Compiles and runs programs with the packages below a folder.
packages_run() {
    local lib=$1/usr/lib/x86_64-linux-gnu
    compile "$(PKG_CONFIG_PATH=$lib/pkgconfig pkg-config --cflags --libs dethrux)" &&
        LD_LIBRARY_PATH=$lib "$room/program" && by_cmake "$1/usr" && programs_run "$1/usr/bin" &&
        takes_module "${1:+$lib}"
}

packages_run_unpacked() {
    local package
    for package in "$room"/first/*_amd64.deb; do
        dpkg-deb -x "$package" "$room/unpacked" || return
    done
    packages_run "$room/unpacked"
}

apt_get() {
    apt-get -o DPkg::Lock::Timeout=600 -y -q "$@"
}

# Tests that the package refuses a module if iconv converts without it, or not by it.
refuses_modules() {
    local does
    mkdir "$room/iconv" || return
    for does in 'echo x' 'echo "${LD_DEBUG:+calling init: /DETHRUX.so}"'; do
        printf '#!/bin/sh\n%s\n' "$does" > "$room/iconv/iconv" && chmod +x "$room/iconv/iconv" &&
            PATH=$room/iconv:$PATH says 1 'does not run on this processor' \
                /var/lib/dpkg/info/dethrux-iconv.postinst configure || return
    done
}

# Installs the packages on this system, and purges them.
packages_run_installed() {
    purge=true
    apt_get install "$room"/first/*_amd64.deb && packages_run '' && refuses_modules &&
        apt_get purge "${packages[@]}" && purge=false && ! takes_module '' &&
        printf 'x\0' | iconv -f UTF-16LE -t UTF-8 | grep -qx x
}

# Another program with this name, such as Request Tracker's.
mkdir "$room/path"
printf '#!/bin/sh\ntouch "%s/rt was called"\nexit 9\n' "$room" > "$room/path/rt"
chmod +x "$room/path/rt"
PATH=$room/path:$PATH
check 'the files with another version' diff /dev/null <(cd "$top" && grep -LE \
    "^(Version $version of |\.Os Dethrux $version\$| \(regex\).* $version\$)" \
    README.md crates/utf16_{cat,enc,check}/*.1 packaging/debian/*.symbols)

# What is installed works after it was moved.
check 'an installation' "$top/install.sh" "$room/in stalled" || finish
cp "$room/said" "$room/printed"
check 'the paths that are printed' diff <(LC_ALL=C sort "$room/printed") \
    <(find "$room/in stalled" ! -type d | LC_ALL=C sort)
prefix="$room/moved here"
mv "$room/in stalled" "$prefix"
check_libraries
check 'the headers' diff -r "$top/dist/include" "$prefix/include"
check 'the manual pages' has_pages
check 'the version of the header, which pkg-config has' \
    diff <(config "$prefix" --modversion) "$top/VERSION"
check 'no shared library' all_static gcc
check 'no shared library by clang' all_static clang
for compiler in gcc clang; do
    check "the page for C by $compiler" is_page $compiler c/first.c C
done
for compiler in g++ clang++; do
    check "the page for C++ by $compiler" is_page "$compiler -std=c++17" cpp/first.cpp CPP
done
check 'both libraries by CMake' by_cmake "$prefix"
check 'a later version by CMake' cmake_refuses "${version%.*}.999"
check 'another major version by CMake' cmake_refuses $((${version%%.*} + 1)).0
check 'the programs' programs_run "$prefix/bin"
for file in "$prefix"/bin/*; do
    check "${file##*/} below its level" \
        is_refused_below 'this machine lacks a feature of x86-64-v2' "$file" le < /dev/null
done

check 'an unknown option' says 2 'usage: install.sh' "$top/install.sh" --help
check 'two prefixes' says 2 'usage: install.sh' "$top/install.sh" "$room/a" "$room/b"
check 'an empty prefix' says 2 'usage: install.sh' "$top/install.sh" ''
check 'a prefix that cannot be written' says 1 'cannot write' "$top/install.sh" /proc/dethrux
check 'a LIBDIR outside' says 1 'LIBDIR' env LIBDIR=../lib "$top/install.sh" "$room/a"
check 'nothing to uninstall' says 1 'nothing is installed' "$top/install.sh" --uninstall "$room"
check 'a manifest with an absolute path' keeps_outside "$room/kept"
check 'a manifest with a path upwards' keeps_outside ../kept
check 'other files below the prefix' keeps_others
check 'DESTDIR and LIBDIR' for_packagers
check 'a clone' installs_from_clone

if check 'the release, twice' makes_same_release; then
    check 'the archive' installs_unpacked
    check 'the archive for ARM64' installs_for_arm64
    check 'the archive of the assembly' builds_sources
    check 'lintian' lintian --allow-root --fail-on error,warning "$room"/first/*_amd64.deb
    check 'the packages unpacked' packages_run_unpacked
    if [ $EUID = 0 ] && ! dpkg-query -W "${packages[@]}" > /dev/null 2>&1; then
        check 'the packages installed' packages_run_installed
    fi
fi
check 'no call of rt' [ ! -e "$room/rt was called" ]
finish
