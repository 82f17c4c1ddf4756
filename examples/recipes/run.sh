#!/usr/bin/env bash
# Runs the programs of docs/RECIPES.md, in C, C++ and Python, on small inputs, and compares what
# they print. It needs crates/dethrux/out/libdethrux.a. The last line is 'N passed, M failed'.
set -uo pipefail
here=$(cd "$(dirname "$0")" && pwd)
. "$here/../../.ci/checks.sh"
archive=$top/crates/dethrux/out/libdethrux.a
cd "$room" || exit 1

export PYTHONDONTWRITEBYTECODE=1 PYTHONUTF8=1 PYTHONPATH=$room/package LC_ALL=C.UTF-8
"$top/bindings/python/build.sh" package || exit 1

flags=(-O2 -Wall -Wextra -Wpedantic -Wconversion -Werror -D_GLIBCXX_ASSERTIONS "-I$top/dist/include")
for source in "$here"/*.{c,cpp,py}; do
    program=${source##*/}
    case $program in
        *.c) cc -std=c99 "${flags[@]}" "$source" "$archive" -o "$program" ;;
        *.cpp) c++ -std=c++17 "${flags[@]}" "$source" "$archive" -o "$program" ;;
        *.py) printf '#!/bin/sh\nexec python3 "%s" "$@"\n' "$source" > "$program" ;;
    esac
done
chmod +x -- *.py

# Runs a program on `input`, and compares its output. It must fail if the device is full.
prints_this() {
    "./$1" "${@:3}" < input > found 2> line || echo "status $?" >> found
    # shellcheck disable=SC2059
    printf "$2" | cmp - found && { [ ! -s found ] || ! "./$1" "${@:3}" < input > /dev/full; }
}

# Does this with the programs of a recipe, whose output is the second argument.
prints() {
    local program
    for program in "$1".*; do
        check "$program" prints_this "$program" "${@:2}"
    done
}

# Runs a program that must refuse `input`: it prints nothing, and a line on standard error.
refuses_this() {
    "./$1" "${@:3}" < input > found 2> line
    [[ $? == [12] ]] && [ ! -s found ] && diff line <(echo "${1%.*}: $2")
}

refuses() {
    check "$1: $2" refuses_this "$@"
}

# Runs a program that must fail on an input.
fails_on() {
    ! "./$2" < "$1"
}

# UTF-8 on standard input becomes UTF-16 in `input`.
utf16() {
    iconv -f UTF-8 -t "$1" > input
}

# A value of a registry export in either byte order. The bytes of its hex are always little endian.
prints_hex() {
    local order
    for order in LE BE; do
        printf '\xEF\xBB\xBF"A"=hex(7):78,00\r\n"B"=%b\r\n"C"="c"\r\n' "$1" | utf16 UTF-16$order
        prints reg_value "$2" input B
    done
}

printf '\xEF\xBB\xBFWindows Registry Editor\r\n"Pat"="no"\r\n"Path"="C:\\\\Grüße"\r\n' | utf16 UTF-16LE
prints reg_value '"C:\\\\Grüße"\n' input Path
printf '"Path"="a\xE2\x80\xA8b"\r\n' | utf16 UTF-16LE
prints reg_value '"a\xE2\x80\xA8b"\n' input Path
printf '"Path"="without a BOM"\r\n' | utf16 UTF-16LE
prints reg_value '"without a BOM"\n' input Path
prints_hex 'hex(7):61,00,00,01,62,00,00,00,63,\\\r\n  00,00,00,00,00,64,00' 'aĀb\nc\n'
prints_hex 'hex(2):fc,00,3d,D8,00,de' 'ü😀\n'
prints_hex 'hex(2):00,d8,00,00,00,dc,00' '�\n��\n'
prints_hex 'hex(7):' ''
printf '\3a\0\0\xD8b\0\1\0\xDC\4\x3D\xD8\0\xDE\xE4\0\0\xD8' > input
prints file_name 'a\xED\xA0\x80b\0\xED\xB0\x80\0😀ä\xED\xA0\x80\0'
printf '\1a\0\3b\0c\0' > input
prints file_name 'a\0status 1\n'
printf 'a=Gr\\u00fc\\u00DFe\nb\nc=\\uD83D\\uDE00!\nd=\xE4\\uD83D\n' > input
prints properties 'Grüße\n😀!\nä�\n'
printf '\xEF\xBB\xBFName\tStadt\r\nÄnne\tKöln 😀\r\n' | utf16 UTF-16LE
prints sheet 'Name,Stadt\nÄnne,Köln 😀\n'
printf 'two words\n' | utf16 UTF-16LE
prints byte_order 'le\n'
printf 'two words\n' | utf16 UTF-16BE
prints byte_order 'be\n'
printf '\xFE\xFF\x20\x00' > input
prints byte_order 'be\n'
printf 'a\0\0\xDCb\0\0\xD8c\0\0\xD8' > input
prints errors 'text "a"\nill formed at byte 2, 2 bytes\ntext "b"\nill formed at byte 6, 2 bytes\ntext "c"\nincomplete at byte 10\n'

# Two zero bytes of two characters, a name without a NUL, and a record that is too short.
printf '\0a\0\0\1%028d\1\1\0\0a\xD8\x3D\xDE\0%024d' 0 0 | tr 0 '\0' > input
prints record 'aĀ\nĀa😀\n'
printf '\1%032d\0a' 0 > input
prints record '〰〰〰〰〰〰〰〰〰〰〰〰〰〰〰〰\nstatus 1\n'
printf '\0a\0\0\xD8%028d' 0 | tr 0 '\0' > input
prints record 'a\nstatus 1\n'

for order in LE BE; do
    printf '\xEF\xBB\xBF\n\u010A\u2028\u0085\v\r.\r\n\n\r\nz' | utf16 UTF-16$order
    prints lines '1: \n2: \u010A\u2028\u0085\v\r.\n3: \n4: \n5: z\n'
    prints text_file \
        '\xFF\xFE\r\0\n\0\n\1\x28\x20\x85\0\v\0\r\0.\0\r\0\n\0\r\0\n\0\r\0\n\0z\0' input /dev/stdout
done
# Chunks that end inside a character and inside CR LF, and an input that ends inside a code unit.
{ printf '\xFF\xFE'; printf '\x3D\xD8\0\xDE%.0s' {1..2047}; printf '\r\0\n\0\0\xD8b\0c'; } > input
prints lines "1: $(printf '😀%.0s' {1..2047})\n2: �b�\n"
refuses text_file.cpp 'ill-formed sequence of length 2 at offset 8192' input /dev/stdout
printf 'a\0' > input
prints text_file '\xFF\xFEa\0' input /dev/stdout
printf '\n' >> input
prints lines '1: a�\n'
refuses text_file.cpp 'incomplete character at offset 2' input /dev/stdout
refuses text_file.cpp 'cannot open none/of them' 'none/of them' /dev/stdout
printf 'grüße 😀\n\nx' > input
prints wide 'GRÜßE 😀\n\nX\n'
printf 'a\xED\xA0\x80' > input
refuses wide.cpp 'ill formed at byte 1'

: > input
prints byte_order 'unknown\n'
prints text_file '\xFF\xFE' input /dev/stdout
refuses text_file.cpp 'cannot write none/of them' input 'none/of them'
for name in file_name lines properties record sheet wide; do
    prints $name ''
done
for program in {byte_order,errors,file_name,lines,properties,record,sheet,wide}.*; do
    check "$program: an input that cannot be read" fails_on . "$program"
done
head -c 1048576 /dev/zero > input
refuses reg_value.c 'the file cannot be read or is not smaller than 1 MiB' input Path
refuses reg_value.c 'the file cannot be read or is not smaller than 1 MiB' . Path
refuses errors.c 'the input is not smaller than 64 KiB'
finish
