#!/usr/bin/env bash
# Calls libdethrux on random inputs for a minute, and tests that the harness finds the wrong
# versions of planted.c: fuzz/run.sh [--seconds N] [--seed N] [--library FILE] [--arm64]. FILE is a
# static library to use instead of the library in crates/dethrux. With --arm64 it is a library for
# ARM64, and the harness runs under qemu-aarch64. Each call of the library and each planted version
# counts as one. The last line is 'N passed, M failed'.
set -uo pipefail
from=$PWD
cd "$(dirname "$0")" || exit 1
. ../.ci/checks.sh
built=out
seconds=60
seed=1
compiler=gcc
# What starts a program, and how many seconds suffice for the planted versions.
start=()
planting=10
mapfile -t planted < <(sed -n 's/^PLANTED(\(.*\));/dethrux_\1/p' planted.c)

refuse() {
    echo "fuzz/run.sh: $1" >&2
    echo 'usage: fuzz/run.sh [--seconds N] [--seed N] [--library FILE] [--arm64]' >&2
    echo '0 passed, 1 failed'
    exit 1
}

while [ $# != 0 ]; do
    case $1 in
        --seconds) seconds=${2-} ;;
        --seed) seed=${2-} ;;
        --library)
            LIBRARY=$(cd "$from" && realpath -e "${2-}" 2> /dev/null) || refuse "$1 needs a file"
            ;;
        --arm64)
            compiler=aarch64-linux-gnu-gcc
            start=(qemu-aarch64 -L /usr/aarch64-linux-gnu)
            planting=40
            shift
            continue
            ;;
        *) refuse "$1 is not an option" ;;
    esac
    [ "$1" = --library ] || [[ ${2-} =~ ^[0-9]+$ ]] || refuse "$1 needs a number"
    shift 2
done
if [ -n "${LIBRARY:-}" ]; then
    export LIBRARY
    built=out/library
fi
if [ $compiler != gcc ]; then
    [ -n "${LIBRARY:-}" ] || refuse '--arm64 needs --library'
    built=out/arm64
fi

# Runs a program on random inputs.
random() {
    timeout $(($2 + 60)) "${start[@]}" "$1" --random "$seed" "$2"
}

# Tests that only the calls with a planted version are reported.
are_all() {
    grep -E '^[^ ]+: ' "$room/found"
    tail -n 1 "$room/found" | grep " passed, ${#planted[@]} failed$"
}

# Tests that the checks make each call of the library.
makes_each_call() {
    gcc -std=gnu11 -I../dist/include -c checks.c -o "$room/checks.o" &&
        nm -u "$room/checks.o" | grep -o 'dethrux_.*' | sort |
        diff - <(declared ../dist/include extern | grep -v _kernel)
}

check 'each call' makes_each_call
check 'the harness' ./build.sh $compiler $built/harness &&
    counts 'random inputs' random $built/harness "$seconds"
if check 'the planted versions' \
    ./build.sh $compiler $built/planted planted.c "${planted[@]/#/-Wl,--wrap=}"; then
    random $built/planted $planting > "$room/found" 2>&1
    for call in "${planted[@]}"; do
        check "the planted version of $call" grep "^$call: " "$room/found"
    done
    check 'what differs with the planted versions' are_all
fi
finish
