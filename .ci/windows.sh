#!/usr/bin/env bash
# Builds the library and the programs for Windows with MinGW's gcc and with clang, and runs
# everything under Wine: the tables of cases, the first programs, the check in C++, the programs of
# examples/windows and the archive of packaging/release.sh. Tests what the libraries export and
# call, what a call takes of the stack, and that it keeps the registers that a function must keep
# there. Then clang compiles for MSVC. Only MSVC itself is left out, and a line says so. Prints each
# check that fails; the last line is 'N passed, M failed'.
set -uo pipefail
. "$(dirname "$0")/checks.sh"
dist=$top/dist
examples=$top/examples
assembly=("$dist"/src/{choose.S,windows-x86-64-v{2,3}.s})
version=$(< "$top/VERSION")
archive=dethrux-$version-x86_64-windows
gcc=x86_64-w64-mingw32-gcc

# Wine keeps its files in the room, prints nothing of its own, and looks for neither .NET nor menus.
# Without its debugger, a program that ends by a fault has a status other than 0.
export WINEPREFIX=$room/wine WINEDEBUG=-all HOME=$room LC_ALL=C.UTF-8
export WINEDLLOVERRIDES='mscoree,mshtml=;winemenubuilder.exe,winedbg.exe=d'

# Ends the server of this Wine, and removes what this made.
clean() {
    [ ! -d "$WINEPREFIX" ] || "$server" -k > /dev/null 2>&1
    rm -rf "$room"
}
trap clean EXIT

# Runs a compiler. Those of LLVM take the libraries and headers of MinGW's gcc.
compiler() {
    local name=$1
    shift
    case $name in
        gcc) $gcc "$@" ;;
        g++) x86_64-w64-mingw32-g++ "$@" ;;
        clang) clang --target=x86_64-w64-mingw32 "-L$mingw" "$@" ;;
        clang++)
            clang++ --target=x86_64-w64-mingw32 "-L$mingw" -isystem "$mingw/include/c++" \
                -isystem "$mingw/include/c++/x86_64-w64-mingw32" "$@"
            ;;
    esac
}

# Compiles a program for Windows, without warnings, with the static library that this compiler or
# its counterpart for C built.
compile() {
    local name=$1 source=$2 standard=c99 built=gcc
    [[ $source != *.cpp ]] || standard=c++17
    [[ $name != clang* ]] || built=clang
    compiler "$name" -std=$standard -O2 -Wall -Wextra -Wpedantic -Werror "-I$dist/include" \
        "$source" "$room/$built/libdethrux.a" -static -o "$room/program.exe"
}

# Starts a program of Windows. Its status is the status of this.
run() {
    "$wine" "$@" < /dev/null
}

# Builds both libraries and the programs with a compiler, and runs the tables with each and the
# check of code units.
build_and_check() {
    runs_tables "$dist" "BUILD=$room/$1" "RUN=$wine" "${@:2}"
}

# Tests that libraries and a program take the code that the library for Linux takes on this machine,
# and that the library for one level has only that.
takes_code() {
    local folder here wanted ends
    write_kernel && gcc "-I$dist/include" "-I$dist/src" "$room/kernel.c" \
        "$dist"/src/{choose.S,linux-x86-64-v{2,3}.s} -o "$room/linux" && here=$("$room/linux") || return
    for folder in gcc clang v2; do
        wanted=$here
        [ $folder != v2 ] || wanted=x86-64-v2
        $gcc "-I$dist/include" "$room/kernel.c" "$room/$folder/libdethrux.a" \
            -o "$room/program.exe" &&
            diff <(printf '%s\r\n' "$wanted") <(run "$room/program.exe") || return
    done
    ends=v$((5 - ${here##*v}))
    echo ".globl proved_main_$ends; proved_main_$ends: ud2" > "$room/ends.s" &&
        $gcc -municode "$room"/gcc/{system.o,programs/windows-$here/utf16_cat.o} "$room/ends.s" \
            -o "$room/program.exe" &&
        [ "$(printf 'h\0i\0' | "$wine" "$room/program.exe" le)" = hi ]
}

# Compiles a program and compares all that it prints with the block of text of a page. Windows ends
# lines with CR LF.
prints_page() {
    compile "$1" "$2" || return
    page_text "$3" | sed 's/$/\r/' > "$room/page"
    [ -s "$room/page" ] && run "$room/program.exe" > "$room/found" && cmp "$room/page" "$room/found"
}

# Compiles a program and runs it. Its status counts.
passes() {
    compile "$1" "$2" && run "$room/program.exe"
}

# Tests that a DLL exports the functions of the header.
dll_exports_header() {
    x86_64-w64-mingw32-objdump -p "$1" > "$room/dump" &&
        sed -n '/^\[Ordinal\/Name Pointer\] Table/,/^$/s/^\t\[.*\] \(.* \)\?//p' "$room/dump" |
        sort | diff "$room/declared" -
}

# Tests that a DLL needs only functions of the C runtime that copy, move, fill and compare memory.
imports_memory() {
    x86_64-w64-mingw32-objdump -p "$1" > "$room/dump" &&
        sed -n '/^The Import Tables/,/^The Export Tables/p' "$room/dump" |
        sed -n 's/^\tDLL Name: //p; s/^\t[0-9a-f]\+\t *[0-9]\+  //p' |
        diff <(printf '%s\n' msvcrt.dll memcmp memcpy memmove memset) -
}

# Tests that a static library has the functions of the header, each also with the prefix sysv_ and
# for each level, except dethrux_kernel, and the entry point of the DLL, and that it calls only
# functions that copy, move, fill and compare memory.
has_header() {
    x86_64-w64-mingw32-nm -g "$1" > "$room/names" &&
        sed -n 's/.* [TDBR] //p' "$room/names" | sort > "$room/defined" &&
        { cat "$room/declared"
            sed '/_kernel$/d; s/.*/sysv_&\n&_v2\n&_v3/' "$room/declared"
            printf 'sysv_%s\n' memcmp memcpy memmove memset
            echo dethrux_dll_entry; } | sort | diff - "$room/defined" &&
        sed -n 's/.* U //p' "$room/names" | sort -u | comm -23 - "$room/defined" |
        diff <(printf '%s\n' memcmp memcpy memmove memset) -
}

# Writes the calls of the caller that watches registers, one for each function of the header, with
# arguments by the types of its parameters.
write_watched() {
    local calls='s/.*dethrux\.h:.* extern (.*[a-z*]) ?(dethrux_[a-z0-9_]+) \((.*)\);/WATCH(\2|\1|\3);/p'
    gcc -fsyntax-only -aux-info "$room/prototypes" -x c "$dist/include/dethrux.h" &&
        sed -nE "$calls" "$room/prototypes" | sed -E '
            s/\|dethrux_[a-z]+\|/, RESULT, /; s/\|.*\|/, /; s/, void\)/, 0)/
            /const|coder/!s/void \*, size_t/AT(text), len/
            s/const void \*, size_t/AT(text), len/
            s/const void \*, size_t/AT(text + 2), len \/ 2/
            s/const uint32_t \*, size_t/AT(points), len \/ 2/
            s/void \*, size_t/AT(to), sizeof to/
            s/uint32_t \*, size_t/AT(points), sizeof points \/ 4/
            s/dethrux_((wtf8_)?(decoder|encoder)) \*/AT(\&\1)/
            s/dethrux_byte_order/order/; s/dethrux_byte_order/order ^ 1/
            s/uint64_t/len/; s/uint64_t/3/; s/uint64_t/1/; s/size_t/len \/ 2/
        ' > "$room/watched.inc"
}

# Compiles a caller that watches registers, with a file instead of windows.c, and runs it.
keeps_registers() {
    compiler "$1" -std=c99 -O2 -Wall -Wextra -Werror "-I$dist/include" "-I$room" \
        "$top/packaging/test/registers.c" "$2" "${assembly[@]}" -o "$room/program.exe" &&
        run "$room/program.exe"
}

# Tests that the caller watches each function of the header.
watches_all() {
    grep -oE 'WATCH\(dethrux_[a-z0-9_]+' "$room/watched.inc" | cut -d '(' -f 2 |
        sort | diff "$room/declared" -
}

# Tests that the caller sees it if windows.c does not restore a register.
sees_register() {
    $gcc -O2 "-I$dist/include" -S "$dist/src/windows.c" -o "$room/wrapper.s" &&
        sed -E "/movups\s.*\(%rsp\), %$1\$/d; s/popq\s+%$1\$/popq %rax/" "$room/wrapper.s" \
            > "$room/planted.s" && ! cmp -s "$room/wrapper.s" "$room/planted.s" &&
        refuses " changes $1" keeps_registers gcc "$room/planted.s"
}

# Tests that the tables see it if windows.c, after this edit of its list, passes other arguments.
sees_arguments() {
    sed "$1" "$dist/src/calls.inc" > "$room/calls.inc" && cp "$dist/src/windows.c" "$room/" &&
        ! cmp -s "$dist/src/calls.inc" "$room/calls.inc" &&
        $gcc -O0 "-I$dist/include" "$examples/c/check.c" "$room/windows.c" "${assembly[@]}" \
            -o "$room/program.exe" &&
        refuses ' passed, ' run "$room/program.exe" "$room/gcc/cases" &&
        ! grep -F ' passed, 0 failed' "$room/refused"
}

# Tests that the status of a program, and its end by a fault, is the status of `run`.
passes_status() {
    local status
    printf 'int main(int count, char **words) { return count == 1 ? 3 : *words[count]; }\n' \
        > "$room/status.c" && $gcc -O0 "$room/status.c" -o "$room/program.exe" || return
    run "$room/program.exe"
    status=$?
    [ $status = 3 ] && ! run "$room/program.exe" word
}

# Tests that a program reads a pipe of Windows to its end, which unlike one of Linux is an error.
reads_pipe() {
    echo '#include <stdio.h>
int main(int count, char **words) {
    FILE *to = _popen(words[count - 1], "wb");
    return !to || fwrite("h\0i", 1, 4, to) != 4 || _pclose(to);
}' > "$room/pipe.c" && $gcc "$room/pipe.c" -o "$room/program.exe" &&
        (cd "$room/gcc" && run ../program.exe 'utf16_cat.exe le') > "$room/found" &&
        cmp <(printf hi) "$room/found"
}

# Tests that a program for which there is no memory ends with its message.
tells_memory() {
    sed -E 's/block\((malloc|realloc)\(.*\)\);/block(NULL);/' "$dist/src/programs/system.c" \
        > "$room/planted.c" && $gcc -O2 -municode "$room/planted.c" \
        "$room"/gcc/programs/*/utf16_cat.o -o "$room/program.exe" || return
    printf 'h\0i\0' | "$wine" "$room/program.exe" le 2> "$room/line"
    [ $? = 1 ] && diff "$room/line" <(echo 'utf16_cat: out of memory')
}

# Prints the most that a function of windows.c takes, with its return address.
wrapper_takes() {
    local name
    for name in gcc clang; do
        compiler $name -O2 -fstack-usage "-I$dist/include" -c "$dist/src/windows.c" \
            -o "$room/usage.o" && cut -f 2 "$room/usage.su"
    done | sort -n | tail -n 1 | awk '{ print $1 + 8 }'
}

# Tests the stack of the assembly for a level.
is_below_page() {
    local taken
    taken=$(wrapper_takes)
    [ "${taken:-0}" -gt 8 ] && "$top/.ci/stack" "${assembly[$1 - 1]}" "$taken"
}

# Tests that .ci/stack refuses a copy of the assembly after this edit.
sees_stack() {
    sed -E "$2" "${assembly[1]}" > "$room/planted.s" && ! cmp -s "${assembly[1]}" "$room/planted.s" &&
        refuses "$1" "$top/.ci/stack" "$room/planted.s"
}

check_stack() {
    local first='/^L_0:/a\'
    check 'the stack of a call, x86-64-v2' is_below_page 2
    check 'the stack of a call, x86-64-v3' is_below_page 3
    check 'a frame of 5000 bytes' sees_stack 'bytes of stack' \
        '0,/subq\t\$16, %rsp/s//subq\t$5000, %rsp/; 0,/addq\t\$16, %rsp/s//addq\t$5000, %rsp/'
    check 'a frame by a negative number' sees_stack 'bytes of stack' \
        '0,/subq\t\$16, %rsp/s//addq\t$-5000, %rsp/; 0,/addq\t\$16, %rsp/s//subq\t$-5000, %rsp/'
    check 'a frame that is not given back' sees_stack 'are still taken' "$first	pushq	%rax"
    check 'a recursion' sees_stack 'L_0 calls itself' "$first	callq	L_0"
    check 'an indirect call' sees_stack 'callq' "$first	callq	*%rax"
    check 'the address of a function' sees_stack 'the address' "$first	leaq	L_1(%rip), %rax"
    check 'a frame of any length' sees_stack 'subq' "$first	subq	%rax, %rsp"
    check 'a push in a loop' sees_stack 'still taken' \
        "$first.LBB0_x:\n	pushq	%rax\n	jne	.LBB0_x"
    check 'a stack pointer from a register' sees_stack 'movq' "$first	movq	%rax, %rsp"
    check 'memory below the stack pointer' sees_stack 'below the stack' \
        "$first	movq	%rax, -8(%rsp)"
    check 'an array below the stack pointer' sees_stack 'below the stack' \
        "$first	movq	%rax, -8(%rsp,%rbx)"
    check 'a read far below the stack pointer' sees_stack 'below the stack' \
        "$first	movq	-40(%rsp,%rbx), %rax"
}

# Compiles a program of examples/windows, and compares what it prints.
prints() {
    compile "$1" "$examples/windows/$2" && run "$room/program.exe" > "$room/found" &&
        cmp <(printf "$3" | sed 's/$/\r/') "$room/found"
}

wide='UTF-16: '\'\''\nUTF-16: '\''Grüße 😀'\''\nill formed at code unit 1: '\''a�b'\''\n'
wide+='ill formed at code unit 0: '\''�'\''\nill formed at code unit 1: '\''a�'\''\n'
wide_c='all:\nall: 0047 0072 00FC 00DF 0065\nall: D83D DE00\na part: 0061\n'
wide_c+='a part: 0061 0062 0063 0064 0065 0066\n'
wide_cpp='0 code units, the same text again: 1\n8 code units, the same text again: 1\n'
wide_cpp+='ill formed at byte 1\nnames that are kept: 11\n'

# Words for CMake that compile for Windows with MinGW's gcc.
for_windows=(-DCMAKE_SYSTEM_NAME=Windows -DCMAKE_SYSTEM_PROCESSOR=x86_64 "-DCMAKE_C_COMPILER=$gcc"
    -DCMAKE_BUILD_TYPE=Release)

installs() {
    make -C "$dist" CC=$gcc install "PREFIX=$1" && [ -s "$1/bin/dethrux.dll" ] &&
        [ -s "$1/lib/libdethrux.dll.a" ] && cmp "$1/lib/dethrux.def" "$dist/src/dethrux.def" &&
        [ "$(printf 'h\0i\0' | "$wine" "$1/bin/utf16_cat.exe" le)" = hi ]
}

uninstalls() {
    "$top/install.sh" --uninstall "$1" && [ ! -e "$1" ]
}

# Compiles a program with the libraries below a prefix, using pkg-config, and runs it.
by_pkg_config() {
    local words
    eval "words=($(PKG_CONFIG_PATH="$1/lib/pkgconfig" pkg-config --cflags --libs dethrux))"
    $gcc -Wall -Wextra -Werror "$top/packaging/test/user.c" "${words[@]}" \
        -o "$room/program.exe" && WINEPATH="Z:${1//\//\\}\\bin" run "$room/program.exe" &&
        x86_64-w64-mingw32-objdump -p "$room/program.exe" | grep 'DLL Name: dethrux.dll' &&
        $gcc -Wall -Wextra -Werror "$top/packaging/test/user.c" "${words[0]}" \
            "$1/lib/libdethrux.a" -o "$room/program.exe" && run "$room/program.exe"
}

# Compiles a program with each library below a prefix, using CMake, and runs it.
by_cmake() {
    compile_by_cmake "$1" "${for_windows[@]}" && run "$room/user/user_static.exe" &&
        WINEPATH="Z:${1//\//\\}\\bin" run "$room/user/user_shared.exe" &&
        x86_64-w64-mingw32-objdump -p "$room/user/user_shared.exe" | grep 'DLL Name: dethrux.dll'
}

# Builds dist/ with CMake, and runs its tests.
tests_by_cmake() {
    cmake -S "$dist" -B "$room/cmake" "${for_windows[@]}" \
        "-DCMAKE_CROSSCOMPILING_EMULATOR=$wine" && cmake --build "$room/cmake" -j 2 &&
        ctest --test-dir "$room/cmake" --output-on-failure > "$room/tested" &&
        grep -F '100% tests passed, 0 tests failed out of 3' "$room/tested" &&
        dll_exports_header "$room/cmake/dethrux.dll" && imports_memory "$room/cmake/dethrux.dll"
}

# Builds a project with dist/ as a part of it.
as_a_part() {
    mkdir -p "$room/part"
    { echo 'cmake_minimum_required(VERSION 3.13)'
        echo 'project(part C ASM)'
        echo 'set(CMAKE_RUNTIME_OUTPUT_DIRECTORY ${CMAKE_BINARY_DIR})'
        echo "add_subdirectory($dist dethrux)"
        echo "add_executable(part $top/packaging/test/user.c)"
        echo 'target_link_libraries(part PRIVATE dethrux::dethrux)'
    } > "$room/part/CMakeLists.txt"
    cmake -S "$room/part" -B "$room/part/out" "${for_windows[@]}" &&
        cmake --build "$room/part/out" -j 2 && run "$room/part/out/part.exe"
}

zips_same() {
    "$top/packaging/release.sh" "$room/first" windows && sleep 1.1 &&
        "$top/packaging/release.sh" "$room/second" windows &&
        cmp "$room/first/$archive.zip" "$room/second/$archive.zip"
}

unzips() {
    python3 -m zipfile -e "$room/first/$archive.zip" "$room" &&
        (cd "$room/$archive" && sha256sum -c --quiet SHA256SUMS &&
            find . -type f ! -name SHA256SUMS | wc -l | grep -qx "$(wc -l < SHA256SUMS)")
}

# Tests that the files of the archive are these.
has_files() {
    (cd "$1" && find . -type f -printf '%P\n' | sort) | diff <(printf '%s\n' CHANGELOG.md \
        LICENSE-{APACHE,MIT} README.md SHA256SUMS THIRD-PARTY.md VERSION \
        bin/{dethrux.dll,utf16_{cat,check,enc}.exe} docs/{C,CPP,INSTALL}.md \
        include/dethrux{.h,.hpp,_alloc.h} \
        lib/{cmake/dethrux/dethruxConfig{,Version}.cmake,dethrux.def,libdethrux.{a,dll.a}} \
        lib/pkgconfig/dethrux.pc | sort) -
}

# Compiles for MSVC. There are no headers of its C runtime here, so string.h is one that declares
# what windows.c and the test need.
for_msvc() {
    clang --target=x86_64-pc-windows-msvc -Wall -Wextra -Werror -Wno-unused-command-line-argument \
        -isystem "$room/declarations" "-I$dist/include" "$@"
}

# Tests that the header for C compiles in a language and standard.
header_for_msvc() {
    printf '#include <dethrux.h>\n#include <dethrux.h>\n' |
        for_msvc "-std=$2" -fsyntax-only -x "$1" -
}

# Builds the DLL for MSVC, and its import library from dethrux.def. The C runtime is Wine's.
links_for_msvc() {
    mkdir -p "$room/declarations" "$room/msvc" && cd "$room/msvc" || return
    { echo '#include <stddef.h>'
        echo 'void *memcpy(void *to, const void *from, size_t len);'
        echo 'void *memmove(void *to, const void *from, size_t len);'
        echo 'void *memset(void *to, int byte, size_t len);'
        echo 'int memcmp(const void *a, const void *b, size_t len);'
    } > "$room/declarations/string.h"
    printf 'EXPORTS\nmemcmp\nmemcpy\nmemmove\nmemset\n' > msvcrt.def &&
        x86_64-w64-mingw32-dlltool -d msvcrt.def -D msvcrt.dll -l msvcrt.lib &&
        for_msvc -O2 -c "$dist/src/windows.c" -o windows.obj &&
        for_msvc -c "${assembly[0]}" -o choose.obj && for_msvc -c "${assembly[1]}" -o v2.obj &&
        for_msvc -c "${assembly[2]}" -o v3.obj &&
        lld-link /dll /entry:dethrux_dll_entry windows.obj choose.obj v2.obj v3.obj msvcrt.lib \
            "/def:$dist/src/dethrux.def" /out:dethrux.dll /implib:dethrux.lib &&
        dll_exports_header dethrux.dll && imports_memory dethrux.dll
}

# Runs the tables with the DLL for MSVC, and a program for MSVC with the import library.
runs_for_msvc() {
    cd "$room/msvc" && cp "$room/gcc/check_shared.exe" . &&
        run ./check_shared.exe "$room/gcc/cases" | grep -E '^[0-9]{3,} passed, 0 failed' &&
        for_msvc -O2 -c "$top/packaging/test/user.c" -o user.obj &&
        lld-link /entry:main /subsystem:console user.obj dethrux.lib msvcrt.lib /out:user.exe &&
        run ./user.exe
}

wine=$(first_of wine wine64 /usr/lib/wine/wine64)
mingw=$(dirname "$($gcc -print-libgcc-file-name)")
server=$(command -v wineserver || command -v /usr/lib/wine/wineserver)
# It ends with this, and not before: a program cannot start while a server ends.
mkdir "$WINEPREFIX" && "$server" -p
check 'Wine' run wineboot -i || finish

check 'the tables by gcc' build_and_check gcc CC=$gcc || finish
check 'the tables by clang' build_and_check clang "CC=clang --target=x86_64-w64-mingw32" \
    "LDFLAGS=-L$mingw" || finish
check 'the tables for x86-64-v2' build_and_check v2 CC=$gcc LEVEL=x86-64-v2
check 'the code that is taken' takes_code
check 'a program that fails' passes_status
check 'swapped texts' sees_arguments \
    's/(\(first_order, .*\), \(second_order, .*\)))$/(\2, \1))/'
check 'the other byte order' sees_arguments \
    '/, dethrux_to_utf8, /s/(\(byte_order, utf16, len, to\)/(!\1/'
check 'the functions of the header' declared "$dist/include" extern && cp "$room/said" "$room/declared"
check 'the calls whose registers are watched' write_watched
for built in gcc clang; do
    check "the exports by $built" dll_exports_header "$room/$built/dethrux.dll"
    check "the imports by $built" imports_memory "$room/$built/dethrux.dll"
    check "the static library by $built" has_header "$room/$built/libdethrux.a"
    check "the registers by $built" keeps_registers $built "$dist/src/windows.c"
done
check 'all functions and their registers' watches_all
for register in rdi rsi xmm6 xmm15; do
    check "a lost $register" sees_register $register
done
check_stack
check 'a pipe of Windows' reads_pipe
check 'too little memory' tells_memory

for compiler in gcc clang; do
    check "the first program in C by $compiler" prints_page $compiler "$examples/c/first.c" C
    check "wide.c by $compiler" prints $compiler wide.c "$wide$wide_c"
done
for compiler in g++ clang++; do
    check "the first program in C++ by $compiler" \
        prints_page $compiler "$examples/cpp/first.cpp" CPP
    check "the check in C++ by $compiler" passes $compiler "$examples/cpp/check.cpp"
    check "wide.cpp by $compiler" prints $compiler wide.cpp "$wide$wide_cpp"
done

prefix="$room/in stalled"
if check 'an installation' installs "$prefix"; then
    check 'the installation by pkg-config' by_pkg_config "$prefix"
    check 'the installation by CMake' by_cmake "$prefix"
    check 'the end of the installation' uninstalls "$prefix"
fi
check 'dist/ by CMake' tests_by_cmake
check 'dist/ in a project of CMake' as_a_part
if check 'the archive, twice' zips_same && check 'the checksums of the archive' unzips; then
    check 'the files of the archive' has_files "$room/$archive"
    check 'the archive by pkg-config' by_pkg_config "$room/$archive"
    check 'the archive by CMake' by_cmake "$room/$archive"
fi

for standard in c99 c11; do
    check "the header for MSVC in $standard" header_for_msvc c $standard
done
for standard in c++11 c++17; do
    check "the header for MSVC in $standard" header_for_msvc c++ $standard
done
check 'the DLL for MSVC' links_for_msvc && check 'programs with the DLL for MSVC' runs_for_msvc
echo 'skipped: MSVC: there is neither its compiler nor its library, which dethrux.hpp needs'
finish
