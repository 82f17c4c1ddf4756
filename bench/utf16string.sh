#!/usr/bin/env bash
# Compares the crate utf16string of bindings/rust with the original in a folder: utf16string 0.2.0.
#   utf16string.sh ORIGINAL [WORD]             times both; with a word, only the calls that have it
#   utf16string.sh --compare ORIGINAL [COUNT]  makes random calls on both, by default 3,000,000
#   utf16string.sh --tests ORIGINAL            runs the original's tests on the crate of bindings/rust
# The last two end with a line 'N passed, M failed'. If ORIGINAL is the crate of bindings/rust, that
# is compared with itself. The crates that both depend on are the ones that Debian packages.
set -euo pipefail
here=$(cd "$(dirname "$0")" && pwd)
ours=$(cd "$here/../bindings/rust/utf16string" && pwd)
mode=utf16string
case ${1:-} in
    --compare) mode=utf16string_compare && shift ;;
    --tests) mode=tests && shift ;;
esac
[ -f "${1:-}/Cargo.toml" ] || { sed -n '3,5s/^# /usage:/p' "$0" >&2; exit 2; }
original=$(cd "$1" && pwd)
room=$(mktemp -d)
trap 'rm -rf "$room"' EXIT
cd "$room"
mkdir .cargo src tests
printf '[source.crates-io]\nreplace-with = "debian"\n[source.debian]\ndirectory = "%s"\n' \
    /usr/share/cargo/registry > .cargo/config.toml
export CARGO_TARGET_DIR=${CARGO_TARGET_DIR:-$room/target} PKG_CONFIG_LIBDIR=$room
# Branches are padded so that none crosses a 32-byte boundary: see run.sh.
export RUSTFLAGS='-C llvm-args=-x86-branches-within-32B-boundaries --cap-lints allow'

# Prints a dependency on the crate in a folder.
crate() {
    printf '%s = { package = %s, path = "%s" }\n' "$1" \
        "$(sed -n 's/^name = //p' "$2/Cargo.toml" | head -n 1)" "$2"
}

printf '[package]\nname = "compared"\nversion = "0.1.0"\nedition = "2021"\n' > Cargo.toml
if [ $mode != tests ]; then
    printf '[[bin]]\nname = "compared"\npath = "%s"\n' "$here/$mode.rs" >> Cargo.toml
    printf '[profile.release]\ncodegen-units = 1\n[dependencies]\n' >> Cargo.toml
    crate ours "$ours" >> Cargo.toml
    if [ "$original" = "$ours" ]; then
        RUSTFLAGS+=' --cfg alone'
    else
        crate original "$original" >> Cargo.toml
    fi
    cargo build --offline --quiet --release
    "$CARGO_TARGET_DIR/release/compared" "${@:2}"
    exit
fi

# The examples are those of the comments. Each module of tests becomes a crate in which the names of
# the public items are in scope. Six tests call private functions, and are left out.
printf '[dependencies]\nbyteorder = "1"\n' >> Cargo.toml
crate utf16string "$ours" >> Cargo.toml
sed -n 's|^ *//[/!] \?||p' "$original"/src/*.rs | sed -n '/^```/,/^```/p' > examples.md
echo '#![doc = include_str!("../examples.md")]' > src/lib.rs
for file in $(grep -l '^#\[cfg(test)\]' "$original"/src/*.rs); do
    { echo 'use {std::ops::{Deref, DerefMut}, utf16string::*};' && sed -n '/^#\[cfg(test)\]/,$p' "$file"; } |
        perl -0pe 's/#\[test\]\s+(#\[should_panic\]\s+)?fn test_(is_|utf16_char_ext).*?\n    }\n//gs; s/\bs\.buf\b/s.as_bytes()/' \
        > "tests/${file##*/}"
done
number=$(($(cat tests/*.rs | grep -c '#\[test\]') + $(grep -c '^```' examples.md) / 2))
cargo test --offline --no-fail-fast > said 2>&1 || tail -n 40 said
passed=$(($(sed -n 's/^test result: .* \([0-9]*\) passed;.*/\1 + /p' said) 0))
echo "$passed passed, $((number - passed)) failed"
[ $passed = $number ]
