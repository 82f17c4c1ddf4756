# Sourced by scripts that test something: how they count checks, and what a library's symbols must
# be. It sets `top`, the folder of the tree, and `room`, a temporary folder, which goes at the end.
# .ci/tools.sh installs what these scripts need.
top=$(cd "$(dirname "${BASH_SOURCE[0]}")/.." && pwd)
room=$(mktemp -d)
trap 'rm -rf "$room"' EXIT
passed=0
failed=0

# Prints the counts and ends.
finish() {
    echo "$passed passed, $failed failed"
    [ $failed = 0 ]
    exit
}

# Counts a check by the status of a command, and prints the end of its output if it failed.
check() {
    local name=$1
    shift
    if "$@" > "$room/said" 2>&1; then
        passed=$((passed + 1))
    else
        failed=$((failed + 1))
        echo "failed: $name"
        tail -n 20 "$room/said"
        return 1
    fi
}

# Does the same. It counts by the lines 'N passed, 0 failed' of its output, or as one.
count() {
    local tests
    check "$@" || return
    tests=$(sed -n 's/^\([0-9]*\) passed, 0 failed\r\?$/\1/p' "$room/said" | paste -sd +)
    [ -z "$tests" ] || passed=$((passed - 1 + tests))
}

# Adds the counts of a command, whose last line is 'N passed, M failed', and prints its other lines.
counts() {
    local name=$1 said
    shift
    said=$("$@" 2>&1)
    if [[ ${said##*$'\n'} =~ ^([0-9]+)\ passed,\ ([0-9]+)\ failed$ ]]; then
        passed=$((passed + BASH_REMATCH[1]))
        failed=$((failed + BASH_REMATCH[2]))
        [[ $said != *$'\n'* ]] || echo "${said%$'\n'*}"
    else
        failed=$((failed + 1))
        echo "failed: $name:"
        tail -n 20 <<< "$said"
    fi
}

# Tests that a command fails, and that its output has these words.
refuses() {
    ! "${@:2}" > "$room/refused" 2>&1 && grep -F -- "$1" "$room/refused"
}

# Prints what a page of docs/ shows in its block of text.
page_text() {
    sed -n '/^```text$/,/^```$/p' "$top/docs/$1.md" | grep -v '^```'
}

# Runs `make check` in a dist/, with more words: the tables over both libraries and the programs.
runs_tables() {
    make -C "$1" "${@:2}" check | tr -d '\r' > "$room/tables"
    local status=${PIPESTATUS[0]}
    cat "$room/tables"
    [ "$status" = 0 ] && [ "$(grep -cxE '[0-9]{3,} passed, 0 failed' "$room/tables")" = 5 ]
}

# Compiles a program with each library below a prefix, using CMake with more words.
compile_by_cmake() {
    rm -rf "$room/user"
    cmake -S "$top/packaging/test" -B "$room/user" "${@:2}" "-DCMAKE_PREFIX_PATH=$1" &&
        cmake --build "$room/user"
}

# Does the same, and runs it.
by_cmake() {
    compile_by_cmake "$1" && "$room/user/user_shared" && "$room/user/user_static"
}

# Runs a program on a processor. qemu warns of features that no program here uses.
on_processor() {
    qemu-x86_64 -cpu "$@" 2> "$room/warnings"
    local status=$?
    grep -v 'warning: TCG doesn' "$room/warnings" >&2
    return $status
}

# Prints the first of these programs that is installed.
first_of() {
    local name
    for name in "$@"; do
        command -v "$name" && return
    done
}

# Tests that the programs of a folder, which more words start, convert and check U+20AC and U+1F600.
programs_run() {
    local utf8='\xE2\x82\xAC\xF0\x9F\x98\x80'
    printf '\xAC\x20\x3D\xD8\x00\xDE' | "${@:2}" "$1/utf16_cat" le | cmp - <(printf "$utf8") &&
        printf "$utf8" | "${@:2}" "$1/utf16_enc" be |
        cmp - <(printf '\x20\xAC\xD8\x3D\xDE\x00') &&
        printf '\xAC\x20\x3D\xD8\x00\xDE' | "${@:2}" "$1/utf16_check" le
}

# Prints the functions that a header in a folder, dethrux.h or another one, declares with these
# words, according to the compiler.
declared() {
    gcc -fsyntax-only -aux-info "$room/prototypes" -x c "$1/${3-dethrux}.h" &&
        sed -nE "/dethrux_inner_/d; s/.*${3-dethrux}\.h:.* ($2) .*[ *](dethrux_[a-z0-9_]+) \(.*/\2/p" \
            "$room/prototypes" | sort
}

# Tests that the symbols that this command lists are the functions of the header.
exports_header() {
    declared "$top/dist/include" extern > "$room/declared" || return
    "$@" | sed -n 's/.* [A-Z] //p' | sort > "$room/exported"
    [ -s "$room/declared" ] && diff "$room/declared" "$room/exported"
}

# A program that prints which code the library runs.
write_kernel() {
    printf '#include <dethrux.h>\n#include <stdio.h>\nint main(void) { return puts(%s) < 0; }\n' \
        'dethrux_kernel()' > "$room/kernel.c"
}

# Lists the symbols of a static library without its code for each level, by this command.
public() {
    "$@" | grep -vE ' _?dethrux_\w+_(v2|v3|aarch64)$'
}

# Tests, with this readelf, that files have a mark of CET or BTI, and for each function unwind data.
has_marks() {
    local file functions
    for file in "${@:3}"; do
        functions=$("$1" -sW "$file" | sed -n '/ UND /d; s/.*: \(.* FUNC \)/\1/p' | sort -u | wc -l)
        "$1" -n "$file" | grep -F "$2" &&
            [ "$("$1" --debug-dump=frames "$file" | grep -c ' FDE ')" -ge "$functions" ] || return
    done
}

# Tests that a library calls only functions that copy, move, fill and compare memory, according to
# this command, which lists what it calls.
calls_memory_alone() {
    "$@" > "$room/called" &&
        ! sed -n 's/.* U //p' "$room/called" | grep -vxE 'mem(cpy|move|set|cmp)'
}
