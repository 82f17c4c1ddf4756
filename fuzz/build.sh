#!/usr/bin/env bash
# Builds the harness: fuzz/build.sh COMPILER PROGRAM [ARGUMENT..]. The compiler gets the further
# arguments. LIBRARY may name a static library to use instead of the library in crates/dethrux. If a
# tool or a file is missing, one line says so.
set -euo pipefail
cd "$(dirname "$0")"
archive=${LIBRARY:-../crates/dethrux/out/libdethrux.a}
compiler=${1:?the compiler}
program=${2:?the program to build}
shift 2

refuse() {
    echo "fuzz/build.sh: $1" >&2
    exit 1
}

command -v "$compiler" > /dev/null || refuse "$compiler is missing: install gcc"
[ -e "$archive" ] || refuse "$archive is missing: run rt lib in crates/dethrux"
made=$(dirname "$program")
mkdir -p "$made"
"$compiler" -std=gnu11 -O2 -g -Wall -Wextra -Werror -I../dist/include -o "$program" \
    checks.c guarded.c harness.c input.c reference.c "$@" "$archive"
