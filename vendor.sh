#!/usr/bin/env bash
# Copies crates, with all crates that they depend on, into the `crates` folder of another
# repository, and prints the lines for its `crates.txt`, lowest first. It does not copy tests,
# must-fail edits and builds. The file VENDORED of each copy says where it comes from. With --update
# the copies that are there are replaced, except ones that were changed: then nothing is.
#
#     ./vendor.sh [--update] DEST CRATE..
set -euo pipefail
here=$(cd "$(dirname "$0")" && pwd)
update=false
if [ "${1-}" = --update ]; then
    update=true
    shift
fi
if [ $# -lt 2 ] || [[ $1 == -* ]]; then
    echo 'usage: vendor.sh [--update] DEST CRATE..' >&2
    exit 2
fi
dest=$1
shift

# Prints one line, and ends with status 1.
fail() {
    echo "vendor.sh: $1" >&2
    exit 1
}

# Prints the line of a crate in `crates.txt`.
line_of() {
    grep -E "^$1( [a-z]+)?:" "$here/crates.txt"
}

wanted=' '
# Adds a crate and the crates that it depends on. A library of the kit has no line.
want() {
    local line below
    [[ $wanted != *" $1 "* ]] || return 0
    line=$(line_of "$1") || return 0
    wanted+="$1 "
    for below in ${line#*:}; do
        want "$below"
    done
}

# Prints the lines of `crates.txt` of the wanted crates.
lines() {
    local line name
    while IFS= read -r line; do
        name=${line%%:*}
        [[ $wanted != *" ${name%% *} "* ]] || echo "$line"
    done < "$here/crates.txt"
}

# Prints a checksum of the files of a copy, except its builds.
sum() {
    (cd "$1" && find . -path ./out -prune -o -type f ! -name VENDORED -print0 | LC_ALL=C sort -z |
        xargs -0 sha256sum) | sha256sum | cut -d ' ' -f 1
}

# Fails if there is a copy that may not be replaced.
check() {
    local to=$dest/crates/$1
    [ -e "$to" ] || return 0
    $update || fail "$to already exists: give --update to replace it"
    [ -f "$to/VENDORED" ] || fail "$to has no file VENDORED: remove it first"
    grep -qxF "sum: $(sum "$to")" "$to/VENDORED" || fail "$to was changed: remove it first"
}

# Copies a crate, and writes where the copy comes from.
copy() {
    local to=$dest/crates/$1 part
    mkdir -p "$to"
    find "$to" -mindepth 1 -maxdepth 1 ! -name out -exec rm -r {} +
    for part in "$here/crates/$1"/*; do
        case ${part##*/} in
            out | must-fail) ;;
            *) cp -R "$part" "$to/" ;;
        esac
    done
    printf 'Dethrux %s\ncommit: %s\nsum: %s\n' "$(< "$here/VERSION")" "$commit" "$(sum "$to")" \
        > "$to/VENDORED"
}

for crate in "$@"; do
    line_of "$crate" > /dev/null || fail "there is no crate $crate"
    want "$crate"
done
commit=$(git -C "$here" describe --always --dirty --abbrev=40 --exclude='*' 2> /dev/null) ||
    commit=unknown
mapfile -t names < <(lines | sed 's/[ :].*//')
for name in "${names[@]}"; do
    check "$name"
done
for name in "${names[@]}"; do
    copy "$name"
done
lines
