#!/usr/bin/env bash
# CI: compiles the benchmarks that need no other library. The crate utf16string is compared with
# itself. The last line is 'N passed, M failed'.
set -uo pipefail
cd "$(dirname "$0")/.." || exit 1
. .ci/checks.sh

# Tests that real.sh keeps the calls of BEFORE that library.rs names.
keeps_calls() { diff <(sed -n 's/.*"dethrux_\(\w*\)".*/\1/p' bench/library.rs) "$room/kept"; }

sed -n 's/.*dethrux_{\(.*\)}_v2; do/\1/p' bench/real.sh | tr , '\n' > "$room/kept"
check 'bench/real.sh' keeps_calls
for source in texts library plain real_programs; do
    check "bench/$source.rs" rustc --edition 2024 --crate-type lib --emit metadata \
        --out-dir "$room" "bench/$source.rs"
done
export CARGO_TARGET_DIR=$room/target
for row in 'bindings/rust/utf16string get(a..b)' '--compare bindings/rust/utf16string 1000'; do
    check "bench/utf16string.sh $row" bench/utf16string.sh $row
done
check 'bench/js.mjs' node --check bench/js.mjs
check 'bench/worst.c' gcc -fsyntax-only -Wall -Wextra -Werror -Idist/include bench/worst.c
check 'bench/icu.c' gcc -fsyntax-only -Wall -Werror bench/icu.c
finish
