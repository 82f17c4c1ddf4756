#!/usr/bin/env bash
# Builds the library libdethrux.a and the examples in C and in C++, and runs them: the tables of
# cases, the programs of docs/C.md and docs/CPP.md, and all in C under valgrind. With --over-ci the
# library is built over the libraries that rt ci has just proved, and with --library FILE it is not
# built: FILE is tested, but not the headers by each compiler, in each standard of C++ and with
# sanitizers. With --headers c it is not built either, and only what tests the headers runs, up to
# the first failure, or with --headers c++ what tests the one for C++, and with --headers alloc what
# tests dethrux_alloc.h: examples/slips runs this for a wrong line in a header that no shorter test
# finds. The last line is 'N passed, M failed'.
set -uo pipefail
here=$(cd "$(dirname "$0")" && pwd)
. "$here/../../.ci/checks.sh"
archive=$top/crates/dethrux/out/libdethrux.a

# Counts a step. With --headers the first one that fails ends this.
try() {
    count "$@" && return
    [ -z "$headers" ] || finish
    return 1
}

# Builds the static library over what rt has kept of the crates below it.
library() {
    cd "$top/crates/dethrux" && rt lib
}

# Builds the static library over what rt ci has just proved.
library_over_ci() {
    "$top/.ci/compile.sh" llvm dethrux "$archive"
}

# A program of this folder, in C99 or, with the types of <uchar.h>, C11.
in_c() {
    cc -std="${2:-c99}" "$level" -Wall -Wextra -Wpedantic -Werror "-I$top/dist/include" "$here/$1.c" "$archive" -o "$room/$1"
}

# The same program in C++, where code units have any type of two bytes.
c_in_cxx() {
    c++ -std=c++17 "$level" -Wall -Wextra -Wpedantic -Werror "-I$top/dist/include" -x c++ "$here/$1.c" \
        -x none "$archive" -o "$room/$1_cxx"
}

# A program of examples/cpp, by a compiler and in a standard.
in_cxx() {
    "$1" -std="$2" "$level" -Wall -Wextra -Wpedantic -Wconversion -Wsign-conversion -Wshadow -Werror \
        "-I$top/dist/include" "$top/examples/cpp/$3.cpp" "$archive" -o "$room/cpp_$3"
}

# Whether the header itself has no cast that a program's warnings tell of.
casts_nothing() {
    c++ -std=c++17 -Wold-style-cast -Wuseless-cast -Werror "$@" "-I$top/dist/include" -fsyntax-only \
        "$top/examples/cpp/first.cpp"
}

# Whether each of these calls is refused: elements of another size, bytes without a byte order, and
# C strings where UTF-16 has zero bytes inside.
refuses_in_cxx() {
    local call
    mkdir "$room/header" && c++ -std=c++17 -w "$top/dist/include/dethrux.hpp" -o "$room/header/dethrux.hpp.gch" &&
        compiles 'to_utf8(u"a")' || return
    for call in 'to_utf8<std::u16string>(u"a")' 'write_utf8(u"a", units)' 'write_utf16("a", bytes)' \
        'from_utf8<std::string>("a")' 'from_utf8_lossy<std::string>("a")' 'from_wtf8<std::string>("a")' \
        'append_utf16("a", bytes)' 'append_utf16_lossy("a", bytes)' 'make_well_formed(bytes)' \
        'encoder().feed(bytes, points)' 'swap_byte_order(points)' 'to_utf8(byte_order::big, "a")' \
        'decoder().feed("a", bytes)' 'bom_decoder(byte_order::big).feed("a", bytes)'; do
        ! compiles "$call" 2> /dev/null || return
    done
}

# Whether a call compiles over the header that was compiled before.
compiles() {
    printf '#include "dethrux.hpp"\n%s { (void)dethrux::%s; }\n' 'using namespace dethrux;
        void call(std::string &bytes, std::u16string &units, std::u32string &points); void call(
        std::string &bytes, std::u16string &units, std::u32string &points)' "$1" > "$room/header/call.cpp"
    c++ -std=c++17 -w -fsyntax-only "$room/header/call.cpp"
}

# Whether C++ takes the header, in which each number is a byte order.
header_in_cxx() {
    local standard
    for standard in c++11 c++17; do
        printf '#include "dethrux.h"\nconstexpr dethrux_byte_order other = dethrux_byte_order(5);\n' |
            c++ -std=$standard -Wall -Wextra -Wpedantic -Werror "-I$top/dist/include" -x c++ -fsyntax-only - || return
    done
}

# Whether a program prints what a page shows in its block of text.
prints_page() {
    sed -n '/^```text$/,/^```$/p' "$top/docs/$2.md" | sed '/^```/d' > "$room/page"
    [ -s "$room/page" ] && "$room/$1" | cmp - "$room/page"
}

# Whether valgrind finds no error in a program on this input. A program's own operator new stays.
is_clean() {
    valgrind -q --soname-synonyms=somalloc=nouserintercepts --error-exitcode=9 --leak-check=full "$room/$1" ${3+"$3"} < "$2" > "$room/under" 2>&1 && return
    cat "$room/under"
    return 1
}

# Whether a compiler, started with these words, warns of each call of a program that ignores
# results.
warns() {
    local program=$1
    shift
    "$@" -O0 "-I$top/dist/include" -c "$program" -o "$room/ignored.o" 2> "$room/warnings" || return
    grep -n '^    dethrux[a-z0-9_:]*(' "$program" | cut -d : -f 1 > "$room/ignored"
    grep 'warning: ignoring' "$room/warnings" | grep -oE 'ignored\.c(pp)?:[0-9]+' | cut -d : -f 2 |
        sort -nu | diff "$room/ignored" -
}

# The functions whose result may be ignored, and the ones that only the header uses. The library of
# the crate has no dethrux_kernel.
no_result='(kernel|swap_byte_order|make_well_formed|u16_bytes|checked_[a-z]+|inner_[a-z0-9_]+)\('

# The names of the other functions that a file calls or declares.
names() {
    grep -oE "$1[a-z0-9_]+\(" "$2" | sort -u | grep -vE "$no_result"
}

# Writes a call of each function of a header into a line, with arguments by the types of its
# parameters, and a program for C99 and C++ that ignores the results, into a folder.
write_ignored() {
    local parameters='dethrux_byte_order by, uint8_t *bytes, uint16_t *units, uint32_t *points,'
    parameters+=' size_t len, dethrux_decoder *decoder, dethrux_encoder *encoder,'
    parameters+=' dethrux_wtf8_encoder *wtf8_encoder'
    mkdir -p "$2"
    gcc -fsyntax-only -aux-info "$room/prototypes" -x c "$top/dist/include/$1.h" || return
    sed -nE '/_kernel /d; s/.*'"$1"'\.h:.*[ *](dethrux_[a-z0-9_]+) (\([^()]*\);).*/    \1\2/p' "$room/prototypes" |
        sed -E 's/const //g; s/\(void\)/()/; s/dethrux_((wtf8_)?(decoder|encoder)) \*\w*/\1/g
            s/void \*\w*, size_t( \w+)?/bytes, len/g; s/dethrux_unit \*\w*, size_t( \w+)?/units, len/g
            s/dethrux_unit \*\w*/units/g; s/uint32_t \*\w*, size_t( \w+)?/points, len/g
            s/dethrux_byte_order( \w+)?/by/g; s/(size_t|uint64_t)( \w+)?/0/g' > "$2/calls.inc"
    { printf '#include "%s.h"\nvoid ignore(%s);\nvoid ignore(%s) {\n' "$1" "$parameters" "$parameters"
        grep -vE "$no_result" "$2/calls.inc"
        echo '}'; } > "$2/ignored.c"
}

# The functions of dethrux.hpp that return a result, and the functions of its classes that return an
# error, each with its parameters.
functions_in_cxx() {
    local header=$top/dist/include/dethrux.hpp
    sed '/^namespace detail {/,/^} \/\/ namespace detail/d' "$header" | sed -zE 's/\n +/ /g' |
        sed -nE '/^(inline )?void |^std::size_t make_well_formed/d
            s/^[a-z[][^:({]*(::[^({]*)? (\w+)\(([^{]*)\) (noexcept )?\{.*/dethrux::\2(\3)/p'
    sed -nE '/^class /{s/^class (\w+).*/\1/;h}
        /^ .* (feed|finish)\(/{/void/d;s/.* (\w+\(.*\)) \{/\1/;G;s/(.*)\n(.*)/dethrux::\2(by).\1/p}' \
        "$header"
}

# Writes a program in C++ that ignores each of these results, with arguments by the types of the
# parameters, into a folder.
write_ignored_in_cxx() {
    local parameters='dethrux::byte_order by, dethrux::bytes bytes, dethrux::units units,'
    parameters+=' dethrux::points points, std::wstring_view wide, std::string &to,'
    parameters+=' std::u16string &wide_to'
    mkdir -p "$1"
    { printf '#include "dethrux.hpp"\nvoid ignore(%s);\nvoid ignore(%s) {\n' "$parameters" "$parameters"
        functions_in_cxx | sed -E 's/\( /(/; s/byte_order \w+/by/g; s/(bytes|chars) \w+/bytes/g
            s/(utf16|units) \w+/units/g; s/points \w+/points/; s/std::wstring_view //
            s/std::(size_t|uint64_t) \w+/0/g; s/const Unit .*]/u""/; s/(String|Out) &&?//
            /_utf16.*\(bytes/s/\bto\b/wide_to/; s/.*/    &;/'
        echo '}'; } > "$1/ignored.cpp"
    [ "$(grep -c '^    dethrux::' "$1/ignored.cpp")" -gt 70 ]
}

# Compiles a file of this folder with sanitizers, and runs a command if that passes.
sanitized() {
    "$1" -std=c99 -O0 -g "-fsanitize=$2" -w "-I$top/dist/include" "-I$room" "$here/$3.c" "$archive" \
        -o "$room/sanitized" && "${@:4}"
}

# Whether a report of a sanitizer is about a line that calls the library.
is_about() {
    sed -nE '/(ERROR|WARNING): \w+Sanitizer/,/^$/p' "$room/report" | grep -q " in main .*/$1\b"
}

# Whether AddressSanitizer reports each wrong argument of misuse.c, or every few of them.
reports_misuse() {
    local -x ASAN_OPTIONS=detect_leaks=0
    local count number line
    count=$("$room/sanitized") && [ "$count" -gt 200 ] || return
    for ((number = $1; number <= count; number += $1)); do
        ! line=$("$room/sanitized" $number 2> "$room/report") && is_about "calls.inc:$line" && continue
        sed -n "${line%%$'\n'*}p" "$room/calls.inc"
        return 1
    done
}

# Whether a sanitizer reports the call of a program in C++: a header, a buffer, and the call.
reports() {
    printf '#include "%s"\nint main() {\n%s;\nreturn !%s;\n}\n' "${@:3}" > "$room/wrong.cpp"
    "$1" -std=c++17 -g "-fsanitize=$2" "-I$top/dist/include" "$room/wrong.cpp" "$archive" -o "$room/wrong" &&
        ! "$room/wrong" 2> "$room/report" && is_about wrong.cpp:4
}

# Whether it reports nothing.
is_silent() {
    rm -f "$room/wrong"
    ! reports "$@" && [ -x "$room/wrong" ]
}

# The code of a program in C that is not from the headers, with its macros expanded.
expanded() {
    cc -E "-I$top/dist/include" "$here/$1.c" | awk '/^# [0-9]/ { own = $3 ~ /\.(c|inc)"$/ } own'
}

# Whether the checks in C name each function of the header.
checks_all() {
    grep -oE 'dethrux_[a-z0-9_]+\(' "$top/dist/include/dethrux.h" | tr -d '(' | grep -vE 'kernel|u16_bytes|checked_' |
        sort -u > "$room/declared"
    { expanded check; expanded units; } | grep -oE 'dethrux_[a-z0-9_]+' | sort -u |
        comm -23 "$room/declared" - > "$room/missing"
    [ -s "$room/declared" ] && diff /dev/null "$room/missing"
}

# Whether a program calls each function of a header whose result may not be ignored.
calls_all() {
    names dethrux_ "$top/dist/include/$1.h" > "$room/declared"
    names dethrux_ "$2" | grep -xFf "$room/declared" | diff "$room/declared" -
}

# Whether C++ refuses code units of another size, with a header and for each of these functions.
refuses_other_sizes() {
    local line unit
    for unit in char char32_t; do
        for line in "${@:2}"; do
            printf '#include "%s"\n%s\n' "$1" "${line/UNIT/$unit}" | c++ -std=c++11 \
                "-I$top/dist/include" -fsyntax-only -x c++ - 2> "$room/refused" && return 1
            grep -q 'a code unit of UTF-16 has two bytes' "$room/refused" || return
        done
    done
}

# Whether a compiler that has none of GCC's attributes, as clang in MSVC's mode, warns in the first
# standard that has [[nodiscard]], given these words.
warns_by_standard() {
    warns "$room/ignored.c" clang --target=x86_64-pc-windows-msvc -ffreestanding "$@"
}

# Whether C refuses an enum of one byte.
refuses_short_enums() {
    ! cc -std=c99 -fshort-enums -fsyntax-only -w -x c "$top/dist/include/dethrux.h" 2> "$room/refused" &&
        grep -q dethrux_enum_has_four_bytes "$room/refused"
}

# Whether a header can be in two files of one program, and twice in one, as a compiler links them.
in_two_files() {
    "$@" -O0 -w "-I$top/dist/include" "$archive" -o "$room/two"
}

# Whether code units are in the byte order that the compiler says the machine has.
is_native() {
    printf '#include "dethrux.h"\ntypedef char is[DETHRUX_NATIVE_ENDIAN == DETHRUX_%s_ENDIAN ? 1 : -1];\n' "$2" |
        cc -std=c99 "-I$top/dist/include" -U__BYTE_ORDER__ "-D__BYTE_ORDER__=$1" -fsyntax-only -w -x c -
}

check_c() {
    "$room/${1:-check}" < "$room/cases"
}

# The program that decodes a file in chunks, on a text that is longer than a chunk and ends with an
# unpaired surrogate.
decodes() {
    { printf '\xFE\xFF'; for _ in {1..3000}; do printf '\0a\x4E\0'; done; printf '\xD8\0'; } | "$room/${1:-decode}" auto > "$room/found"
    { for _ in {1..3000}; do printf 'a\xE4\xB8\x80'; done; printf '\xEF\xBF\xBD'; } | cmp - "$room/found"
}

# Whether the same program, given a word, decodes bytes to a text.
decodes_to() {
    printf '%b' "$2" | "$room/decode" "$1" > "$room/found" || return
    printf '%b' "$3" | cmp - "$room/found"
}

# U+4E00 after a BOM, which only `auto` removes, and without one.
decodes_by_word() {
    local status text='\xE4\xB8\x80' bom='\xEF\xBB\xBF'
    decodes_to be '\xFE\xFF\x4E\0' "$bom$text" && decodes_to le '\xFF\xFE\0\x4E' "$bom$text" &&
        decodes_to auto '\xFE\xFF\x4E\0' "$text" && decodes_to auto '\xFF\xFE\0\x4E' "$text" &&
        decodes_to auto '\x4E\0' "$text" && decodes_to auto '\x4E' '\xEF\xBF\xBD' || return
    "$room/decode" other < /dev/null > "$room/found" 2>&1
    status=$?
    [ $status = 2 ] && grep -q '^usage: decode' "$room/found"
}

# The program in the first comment of the header, compiled as it is there.
in_comment() {
    sed -n '/^ \* @code/,/^ \* @endcode/p' "$top/dist/include/dethrux.h" |
        sed '/^ \* @/d; s|^ \* \{0,1\}||' > "$room/comment.c"
    cc -std=c99 "$level" -Wall -Wextra -Wpedantic -Werror "-I$top/dist/include" "$room/comment.c" "$archive" -o "$room/comment"
}

# That program, on a text that is longer than its buffers, with characters of one to four bytes of
# UTF-8, an unpaired surrogate and an odd byte at the end.
comment_decodes() {
    { for _ in {1..700}; do printf 'a\0\xE4\0\0\x4E\x3D\xD8\0\xDE\0\xD8'; done; printf 'b\0c'; } | "$room/comment" > "$room/found" || return
    { for _ in {1..700}; do printf 'a\xC3\xA4\xE4\xB8\x80\xF0\x9F\x98\x80\xEF\xBF\xBD'; done; printf 'b\xEF\xBF\xBD'; } > "$room/wanted"
    cmp "$room/wanted" "$room/found"
}

# The program of the README, on a text that is longer than its buffer, with an unpaired surrogate in
# the middle and half a code unit at the end.
resumes() {
    { printf 'abc%.0s' {1..9} | sed 's/./&\x0/g'; printf '\0\xDC\xE4\0\x3D\xD8\0\xDEz'; } > "$room/cut"
    "$room/${1:-resume}" < "$room/cut" > "$room/found"
    [ $? = 1 ] && { printf 'abc%.0s' {1..9}; printf '\xC3\xA4\xF0\x9F\x98\x80'; } | cmp - "$room/found"
}

test_c() {
    try 'a program that ignores results' write_ignored dethrux "$room"
    try 'ignored results in C' warns "$room/ignored.c" cc -std=c99
    try 'ignored results in C23' warns "$room/ignored.c" clang "${c23[@]}"
    try 'ignored results in C23 by its attribute' warns_by_standard "${c23[@]}"
    try 'all results are ignored' calls_all dethrux "$room/ignored.c"
    try 'all functions are checked' checks_all
    try 'two files in C' in_two_files cc -std=c99 -include dethrux.h "$here/first.c" "$room/ignored.c"
    try 'enums of one byte' refuses_short_enums
    try 'the byte order of a machine' is_native 1234 LITTLE
    try 'the byte order of another machine' is_native 4321 BIG
    try 'the program in C' in_c decode && try 'a file in chunks' decodes && try 'a file by its byte order' decodes_by_word
    try 'the program of the header' in_comment && try 'the program of the header, in chunks' comment_decodes
    try 'the first program in C' in_c first && try 'the page for C' prints_page first C
    try 'the program of the README' in_c resume && try 'resuming' resumes
}

check_in_c() {
    try 'the check in C' in_c check && try 'the cases in C' check_c
    try 'the check of code units' in_c units c11 && try 'code units in C' "$room/units"
}

memory_in_c() {
    { for _ in {1..300}; do printf 'a\0\x4E\0\xD8'; done; } > "$room/odd"
    try 'decode under valgrind' is_clean decode "$room/odd" le
    try 'the program of the header under valgrind' is_clean comment "$room/odd"
    try 'the check in C under valgrind' is_clean check "$room/cases"
    try 'code units under valgrind' is_clean units /dev/null
    try 'memory under valgrind' is_clean alloc /dev/null
    try 'a field under valgrind' is_clean field /dev/null
    head -c -1 "$room/cut" > "$room/whole"
    try 'the program of the README under valgrind' is_clean resume "$room/whole"
    try 'the first program under valgrind' is_clean first /dev/null
}

# Sanitizers find no fault in the tables, and report each wrong argument.
test_sanitizers() {
    local with
    for with in 'gcc address,undefined' 'gcc thread' 'clang address,undefined' 'clang memory'; do
        try "the cases by $with" sanitized $with check check_c sanitized
        try "memory by $with" sanitized $with alloc "$room/sanitized"
    done
    try 'what calls write, by MemorySanitizer' sanitized clang memory resume resumes sanitized
    try 'what decoders write, by MemorySanitizer' sanitized clang memory decode decodes sanitized
    try 'wrong arguments by gcc' sanitized gcc address misuse reports_misuse 1
    try 'wrong arguments by clang' sanitized clang address misuse reports_misuse 7
    try 'UTF-32 that was written' is_silent clang++ memory dethrux.h \
        'uint32_t to[2]; (void)dethrux_to_utf32(DETHRUX_LITTLE_ENDIAN, "a\\0b", 4, to, 2)' \
        'dethrux_validate_utf32(to, 2).status'
    try 'a byte after those that were written' reports clang++ memory dethrux.h \
        'char to[3]; (void)dethrux_to_utf8(DETHRUX_LITTLE_ENDIAN, "a", 2, to, 3)' \
        'dethrux_is_ascii(DETHRUX_LITTLE_ENDIAN, to, 2)'
    try 'a state that is too short' reports g++ address dethrux.h \
        'char to[9]; dethrux_decoder *state = (dethrux_decoder *)new char[3]()' \
        'dethrux_decoder_feed(state, DETHRUX_LITTLE_ENDIAN, "a", 2, to, 9).written'
    try 'a byte that is not set' reports clang++ memory dethrux.h 'char text[2]; text[0] = 0' \
        'dethrux_is_ascii(DETHRUX_BIG_ENDIAN, text, 2)'
    try 'a NUL whose last byte is not set' reports clang++ memory dethrux.h \
        'char text[6] = {1}; __msan_poison(text + 3, 1)' 'dethrux_nul_offset(text, 6)'
    try 'a view that is too long' reports g++ address dethrux.hpp 'std::string text(40, 0)' \
        'dethrux::to_utf8_lossy(dethrux::byte_order::big, dethrux::bytes(text.data(), 42)).size()'
    try 'no casts with a sanitizer' casts_nothing -fsanitize=address
    level=-fsanitize=address,undefined try 'C++ by sanitizers' in_cxx g++ c++17 check &&
        try 'the check in C++ by sanitizers' "$room/cpp_check"
}

# The header for C, in C++.
test_c_in_cxx() {
    try 'the header in C++' header_in_cxx
    try 'ignored results of the header in C++' warns "$room/ignored.c" c++ -std=c++17 -x c++
    try 'ignored results in C++17 by its attribute' warns_by_standard -std=c++17 -x c++
    try 'code units of another size in C++' refuses_other_sizes dethrux.h \
        'bool is(const UNIT *text) { return dethrux_u16_is_ascii(text, 1); }' \
        'void swap(UNIT *text) { dethrux_u16_swap_byte_order(text, 1); }'
    try 'the check of code units in C++' c_in_cxx units && try 'code units in C++' "$room/units_cxx"
}

# Whether a header gives no warning, in each standard.
has_no_warning() {
    local compiler standard words
    printf '#include "dethrux_alloc.h"\n' > "$room/header.c"
    for standard in c99 c11 c17 c++{11,14,17,20}; do
        words='c -Wc++-compat'
        [[ $standard == c1* || $standard == c99 ]] || words='c++ -Wold-style-cast'
        for compiler in gcc clang; do
            $compiler -std=$standard -x $words -Wall -Wextra -Wpedantic -Wconversion -Wsign-conversion \
                -Wshadow -Werror "-I$top/dist/include" -fsyntax-only "$room/header.c" "$here/alloc.c" || return
        done
    done
}

# Whether an allocator that lacks one or two functions is refused.
refuses_allocators() {
    local words malloc=-DDETHRUX_MALLOC realloc=-DDETHRUX_REALLOC free=-DDETHRUX_FREE
    for words in $malloc $realloc $free "$malloc $realloc" "$malloc $free" "$realloc $free"; do
        ! cc -std=c99 $words "-I$top/dist/include" -fsyntax-only "$room/header.c" 2> "$room/refused" &&
            grep -q 'or none of them' "$room/refused" || return
    done
}

# The program of docs/C.md with a field, which uses malloc.
prints_field() {
    diff <(printf 'B\xC3\xA4r, 4 bytes\nB..\n') <("$room/field")
}

# dethrux_alloc.h, in C and in C++.
test_alloc() {
    local ignored=$room/alloc_calls/ignored.c
    try 'the check of memory' in_c alloc && try 'memory in C' "$room/alloc"
    try 'the check of memory in C++' c_in_cxx alloc && try 'memory in C++' "$room/alloc_cxx"
    try 'memory of another size in C++' refuses_other_sizes dethrux_alloc.h \
        'std::size_t len(const UNIT *text) { return dethrux_u16_strlen(text); }'
    try 'the program with a field' in_c field && try 'a field' prints_field
    try 'no warnings of memory' has_no_warning && try 'half an allocator' refuses_allocators
    try 'a program that ignores memory' write_ignored dethrux_alloc "${ignored%/*}"
    try 'ignored memory in C' warns "$ignored" cc -std=c99
    try 'ignored memory in C++' warns "$ignored" c++ -std=c++17 -x c++
    try 'all memory is ignored' calls_all dethrux_alloc "$ignored"
    try 'all calls of memory are checked' calls_all dethrux_alloc <(expanded alloc)
    try 'memory in two files' in_two_files cc -std=c99 -include dethrux_alloc.h "$here/field.c" "$ignored"
}

test_cxx() {
    local compiler standard
    try 'no casts in C++' casts_nothing
    try 'a program that ignores results in C++' write_ignored_in_cxx "$room/cxx_calls"
    try 'ignored results in C++' warns "$room/cxx_calls/ignored.cpp" c++ -std=c++17
    try 'the first program in C++' in_cxx c++ c++17 first && try 'the page for C++' prints_page cpp_first CPP
    try 'two files in C++' in_two_files c++ -std=c++17 -include dethrux.hpp \
        "$top/examples/cpp/first.cpp" "$room/cxx_calls/ignored.cpp"
    try 'calls that are refused in C++' refuses_in_cxx
    for compiler in "${compilers[@]}"; do
        for standard in "${standards[@]}"; do
            try "the check by $compiler in $standard" in_cxx "$compiler" "$standard" check &&
                try "C++ by $compiler in $standard" "$room/cpp_check"
        done
    done
}

memory_in_cxx() {
    try 'the check in C++ under valgrind' is_clean cpp_check /dev/null
    try 'the first program in C++ under valgrind' is_clean cpp_first /dev/null
}

"$top/cases/to_json.py" --tabs > "$room/cases"
built=library
headers=''
level=-O2
compilers=(g++ clang++)
standards=(c++17 c++20 c++2b)
c23=(-std=c2x -Wno-builtin-macro-redefined -U__STDC_VERSION__ -D__STDC_VERSION__=202311L)
case "${1-}" in
    --over-ci) built=library_over_ci ;;
    --library) archive=$(realpath "$2"); built=true compilers=(g++) standards=(c++17) ;;
    --headers) built=true headers=$2 level=-O0 compilers=(g++) standards=(c++2b) ;;
esac
("$built") > "$room/said" 2>&1 || { tail -n 20 "$room/said"; echo "0 passed, 1 failed"; exit 1; }
case $headers in
    '' | c) test_c; test_c_in_cxx; check_in_c ;;&
    '' | alloc) test_alloc ;;&
    '' | c | c++) test_cxx ;;
esac
if [ -z "$headers" ]; then
    memory_in_c && memory_in_cxx
    [ "${1-}" = --library ] || test_sanitizers
fi
finish
