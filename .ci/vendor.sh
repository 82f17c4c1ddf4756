#!/usr/bin/env bash
# Tests vendor.sh: what it copies, the lines that it prints, and its errors. Prints each check that
# fails; the last line is 'N passed, M failed'.
set -uo pipefail
cd "$(dirname "$0")/.." || exit 1
. .ci/checks.sh

# Tests that each crate on which a line depends has a line above it, or is a library of the kit.
stand_on_those_above() {
    local line below seen=' byteorder memchr simdutf8 '
    while IFS= read -r line; do
        for below in ${line#*:}; do
            [[ $seen == *" $below "* ]] || return 1
        done
        line=${line%%:*}
        seen+="${line%% *} "
    done < "$1"
}

are_lines_of_this_tree() {
    ! grep -vxFf crates.txt "$1"
}

has_only_what_is_needed() {
    [ -z "$(find "$1" -name out -o -name must-fail)" ] && diff -rq -x out -x must-fail -x VENDORED crates/utf16_str "$1/crates/utf16_str"
}

refuses() {
    local status=$1
    shift
    ./vendor.sh "$@" > "$room/refused" 2> "$room/line"
    [ $? = "$status" ] && [ ! -s "$room/refused" ] && [ "$(wc -l < "$room/line")" = 1 ]
}

./vendor.sh "$room/one" utf16string > "$room/lines"
check 'six crates of a string' [ "$(cut -d: -f1 "$room/lines" | paste -sd' ')" = 'utf16_units utf16_bytes utf16_to_utf8 utf16_from_utf8 utf16_str utf16string' ]
check 'each is copied' [ "$(cut -d: -f1 "$room/lines" | sort)" = "$(ls "$room/one/crates")" ]
check 'each crate comes after those it depends on' stand_on_those_above "$room/lines"
check 'each line is in crates.txt' are_lines_of_this_tree "$room/lines"
check 'only sources are copied' has_only_what_is_needed "$room/one"
./vendor.sh "$room/two" dethrux utf16_tools > "$room/lines"
check 'crates of two, each once' [ "$(sort "$room/lines" | uniq -d | wc -l) $(wc -l < "$room/lines")" = '0 13' ]
check 'each of these comes after those it depends on' stand_on_those_above "$room/lines"
check 'a crate that already exists is refused' refuses 1 "$room/one" utf16_tools
check 'and nothing is copied' [ ! -e "$room/one/crates/utf16_tools" ]
check 'an unknown crate is refused' refuses 1 "$room/three" utf16
check 'and nothing is made' [ ! -e "$room/three" ]
check 'no crate is refused' refuses 2 "$room/three"
check 'an unknown option is refused' refuses 2 --force "$room/three" utf16string

# Prints a file of a copy.
stamp() {
    cat "$room/one/crates/$1/VENDORED"
}

stamp utf16_str > "$room/stamp"
check 'a copy says its version and commit' [ "$(sed -n '1p;2p' "$room/stamp")" = \
    "$(printf 'Dethrux %s\ncommit: %s' "$(< VERSION)" "$(git describe --always --dirty --abbrev=40 --exclude='*')")" ]
mkdir "$room/one/crates/utf16_str/out" && echo built > "$room/one/crates/utf16_str/out/built"
mv "$room/one/crates/utf16string/src/lib.rt" "$room/one/crates/utf16string/src/old.rt"
check 'a copy that was changed is not replaced' refuses 1 --update "$room/one" utf16_tools
check 'and nothing is copied' [ ! -e "$room/one/crates/utf16_tools" ]
mv "$room/one/crates/utf16string/src/old.rt" "$room/one/crates/utf16string/src/lib.rt"
# What an older version had.
echo old > "$room/one/crates/utf16_str/src/older.rt"
(cd "$room/one/crates/utf16_str" && find . -path ./out -prune -o -type f ! -name VENDORED -print0 |
    LC_ALL=C sort -z | xargs -0 sha256sum) | sha256sum | sed 's/^/sum: /; s/ *-$//' > "$room/sum"
sed -i '$d' "$room/one/crates/utf16_str/VENDORED" && cat "$room/sum" >> "$room/one/crates/utf16_str/VENDORED"
./vendor.sh --update "$room/one" utf16_tools > "$room/lines"
check 'an update copies what is new' [ -d "$room/one/crates/utf16_tools/src" ]
check 'an update removes what is gone' [ ! -e "$room/one/crates/utf16_str/src/older.rt" ]
check 'an update keeps what was built' [ -e "$room/one/crates/utf16_str/out/built" ]
check 'an update prints all lines' stand_on_those_above "$room/lines"
rm "$room/one/crates/utf16_str/VENDORED"
check 'a crate that was not copied is not replaced' refuses 1 --update "$room/one" utf16_str
finish
