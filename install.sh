#!/usr/bin/env bash
# Installs the C library and the programs below PREFIX (by default /usr/local), and prints each
# path. In a clone it first builds them from the assembly in dist/; in an unpacked release archive
# everything is built. With --uninstall it removes what it installed there, and nothing else.
#
#     ./install.sh [--uninstall] [PREFIX]
#
# For packagers: DESTDIR is put before every path. LIBDIR is the folder of the libraries below
# PREFIX (by default lib). CC and LEVEL are those of dist/Makefile.
set -euo pipefail
top=$(cd "$(dirname "${BASH_SOURCE[0]}")" && pwd)
libdir=${LIBDIR:-lib}

usage() {
    echo 'usage: install.sh [--uninstall] [PREFIX]' >&2
    exit 2
}

# Prints one line, and ends with status 1.
fail() {
    echo "install.sh: $1" >&2
    exit 1
}

uninstall=false
if [ "${1-}" = --uninstall ]; then
    uninstall=true
    shift
fi
[ $# -le 1 ] || usage
prefix=${1-/usr/local}
case $prefix in
    '' | -* | *$'\n'*) usage ;;
esac
prefix=$(realpath -ms -- "$prefix")
case $libdir in
    '' | /* | . | .. | ../* | */.. | */../* | *[!A-Za-z0-9._/+-]*)
        fail "LIBDIR must be a path below PREFIX, such as lib/x86_64-linux-gnu: $libdir"
        ;;
esac
root=${DESTDIR-}${prefix%/}
# The files that were installed and the folders that were made, which end with a '/'.
manifest=share/dethrux/install_manifest.txt
# The manifest that was there before, and what goes into the new one.
listed=()
declare -A installed=()

# Makes a folder below the root, and records each folder that did not exist.
make_folder() {
    [ ! -d "$root/$1" ] || return 0
    [[ $1 != */* ]] || make_folder "${1%/*}"
    mkdir -m 755 -- "$root/$1"
    installed[$1/]=1
}

# Installs a file or a symbolic link of a folder, and prints its path.
put() {
    local from=$1/$2 mode=644
    make_folder "${2%/*}"
    if [ -L "$from" ]; then
        ln -sfn -- "$(readlink "$from")" "$root/$2"
    else
        [ ! -x "$from" ] || mode=755
        install -m $mode -- "$from" "$root/$2"
    fi
    installed[$2]=1
    echo "$root/$2"
}

# Builds what is installed into a folder. The output of make appears if it fails.
build() {
    local tool
    for tool in "${CC:-cc}" make python3; do
        command -v "${tool%% *}" > /dev/null ||
            fail "there is no $tool: install gcc, make and python3"
    done
    env -u MAKEFLAGS make -C "$top/dist" "CC=${CC:-cc}" "LEVEL=${LEVEL-}" stage \
        "STAGE=$1" "LIBDIR=$libdir" > "$room/log" 2>&1 || {
        cat "$room/log" >&2
        fail 'make -C dist failed'
    }
}

# Installs all files of a folder, which has the same folders as PREFIX, and the manifest.
install_all() {
    local from=$top file line
    room=$(mktemp -d)
    trap 'rm -rf "$room"' EXIT
    if [ -f "$top/dist/Makefile" ]; then
        from=$room/built
        build "$from"
    elif [ "$libdir" != lib ]; then
        fail 'a release archive has its libraries only in lib: unset LIBDIR'
    fi
    [ -d "$root/" ] || installed[./]=1
    if ! mkdir -p -- "$root/" 2> /dev/null || [ ! -w "$root/" ]; then
        fail "cannot write below $root/: give another PREFIX, or run this as its owner"
    fi
    while IFS= read -r -d '' file; do
        put "$from" "$file"
    done < <(cd "$from" && find bin include lib share ! -type d -print0 2> /dev/null | sort -z)
    for line in "${listed[@]}"; do
        [[ $line != */ ]] || installed[$line]=1
    done
    make_folder "${manifest%/*}"
    installed[$manifest]=1
    mkdir -p "$room/${manifest%/*}"
    printf '%s\n' "${!installed[@]}" | LC_ALL=C sort > "$room/$manifest"
    put "$room" "$manifest"
}

# Removes the files of the old manifest that were not installed now, then the folders of it that are
# empty.
remove_rest() {
    local line
    for line in "${listed[@]}"; do
        [[ $line != */ && -z ${installed[$line]-} ]] || continue
        [ -e "$root/$line" ] || [ -L "$root/$line" ] || continue
        rm -f -- "$root/$line"
        echo "removed $root/$line"
    done
    for line in "${listed[@]}"; do
        [[ $line != */ ]] || echo "${line%/}"
    done | LC_ALL=C sort -r | while IFS= read -r line; do
        line=$(realpath -ms -- "$root/$line")
        ! rmdir -- "$line" 2> /dev/null || echo "removed $line/"
    done
}

if [ -f "$root/$manifest" ]; then
    mapfile -t listed < "$root/$manifest"
elif $uninstall; then
    fail "nothing is installed: there is no $root/$manifest"
fi
for line in "${listed[@]}"; do
    case /$line/ in
        //* | */../*) fail "$root/$manifest has '$line', which is not a path below $root/: correct it" ;;
    esac
done
$uninstall || install_all
remove_rest
# Updates the cache of the loader, if the loader searches this folder.
if [ $EUID = 0 ] && grep -rqsxF -- "$root/$libdir" /etc/ld.so.conf /etc/ld.so.conf.d; then
    ldconfig
fi
