#!/usr/bin/env bash
# Compiles the C library or a program from the crates that rt ci has just proved:
# .ci/compile.sh llvm|rattle CRATE FILE [WORD..]. FILE is the static library, or the program, whose
# object file is FILE.o, or if FILE ends with .o only that. More words, such as --target and --cpu,
# are for the compiler's check and build. TOOLCHAIN names a folder of tools instead of the kit's. It
# builds nothing if FILE is newer than all sources, and fails if a source is newer than its library.
#
# rt ci checks a static library, but does not build it. In a clone in which it proved nothing again
# it builds no program. It leaves the libraries below without the stamp by which rt lib and rt run
# recognize them, so these would prove all of them again. Only this script calls the compiler with
# the arguments that rt gives it.
set -euo pipefail
backend=${1:?the compiler: llvm or rattle}
crate=${2:?the crate to compile}
to=$(realpath -m "${3:?the file to write}")
shift 3
cd "$(dirname "$0")/../crates/$crate"
kit=$(dirname "$(dirname "$(readlink -f "$(command -v rt)")")")
# The folder of what was checked, one for each target and processor.
checked=$(printf '%s' out/checked "$@" | tr -c 'a-z0-9_/-' _)
words=()
# Prints a source of these crates that is newer than a file or a folder.
newer() {
    find "${@:2}" -path '*/out' -prune -o -type f -newer "$1" -print -quit
}

[ ! -e "$to" ] || [ -n "$(newer "$to" .. ../../crates.txt)" ] || exit 0
rm -f "$to"
for below in ../*/out/rlib; do
    source=$(newer "$below" "${below%/out/rlib}")
    [ -z "$source" ] || { echo "$source is newer than what rt ci left: run rt ci" >&2 && exit 1; }
    words+=(-L "dependency=$below")
done
for below in $(sed -nE "s/^$crate( staticlib)?: //p" ../../crates.txt); do
    words+=(--extern "$below=../$below/out/rlib/$below.rlib")
done
words+=(--extern "std=$kit/rlibs/std.rlib" -L "dependency=$kit/rlibs")
words+=(--antt-project "$kit/rattle/logic/antt-project.json")
words+=(--crate-name "$crate" --links "$crate=" "$@")
if [ -e src/main.rt ]; then
    source=src/main.rt made=${to%.o}.o
else
    source=src/lib.rt made=$to
    words+=(--crate-type staticlib)
fi

# Compiles what was checked. Fails if the sources or the libraries below have changed.
compile() {
    "$kit/bin/rattle" build "${words[@]}" --crate-checked "$checked" --backend "$backend" \
        --toolchain "${TOOLCHAIN:-$kit/toolchain}" -o "$made" $source
}

mkdir -p "$(dirname "$to")" out
if [ ! -e "$checked" ] || ! compile > out/compiled.log 2>&1; then
    "$kit/bin/rattle" check "${words[@]}" --logic-built "$kit/logic_built" --jobs 1 \
        -o "$checked" $source
    compile
fi
[ "$made" = "$to" ] || "$kit/bin/rattle-link" --target x86_64-unknown-linux-gnu \
    --toolchain "$kit/toolchain" -o "$to" "$made" "$kit/c/libos_c.a" "$kit/c/liblibc_c.a"
