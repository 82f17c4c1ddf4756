#!/usr/bin/env bash
# Tests, in a made-up tree with a made-up kit, that no part of CI takes what is stale:
# .ci/compile.sh and .ci/cases refuse it, and .ci/run sets aside what earlier runs left, and puts it
# back at its end. The last line is 'N passed, M failed'.
set -uo pipefail
. "$(dirname "$0")/checks.sh"
tree=$room/tree
built=$tree/crates/tests_cases/out/tests_cases
mkdir -p "$tree"/{.ci,cases,crates/{low/out/rlib,{low,tests_cases}/src}} "$room/kit/bin"
cp "$top"/.ci/{run,compile.sh,cases,checks.sh} "$tree/.ci"
printf 'low:\ntests_cases: low\n' > "$tree/crates.txt"
touch -d '1 hour ago' "$tree"/{crates.txt,crates/low/src/lib.rt,crates/tests_cases/src/main.rt}
echo 'a case' > "$tree/cases/one.txt"
# The made-up compiler makes a program that passes each table, and the parts look for what is old.
printf '#!/bin/sh\nwhile [ $# -gt 1 ]; do [ "$1" != -o ] || to=$2; shift; done\n%s\n' \
    'printf "#!/bin/sh\necho 1 passed, 0 failed\n" > "$to" && chmod +x "$to"' > "$room/kit/bin/rattle"
cp "$room/kit/bin/rattle" "$room/kit/bin/rattle-link"
touch "$room/kit/bin/rt"
chmod +x "$room"/kit/bin/*
printf '#!/bin/sh\necho 0 passed, 0 failed\n' > "$tree/.ci/tools.sh"
printf 'all:\n\t[ ! -e crates/low/out ] && mkdir -p crates/low/out && touch crates/low/out/new\n' \
    > "$tree/.ci/Makefile"
chmod +x "$tree/.ci/tools.sh"
git init -q "$tree"
PATH=$room/kit/bin:$PATH

# Tests that .ci/cases runs this many tables with what is there.
runs_tables_of() {
    "$tree/.ci/cases" > "$room/cases" 2>&1
    cat "$room/cases"
    [ "$(tail -n 1 "$room/cases")" = "$1" ]
}

# Tests that .ci/run passes over what an earlier run left, and that just this is there again.
keeps_earlier() {
    "$tree/.ci/run" && [ "$(ls "$tree/crates/low/out")" = rlib ] && [ ! -e "$tree/.git/aside" ]
}

# Does the same where the last run was killed.
keeps_earlier_twice() {
    mkdir -p "$tree/.git/aside/crates/low" && mv "$tree"/{,.git/aside/}crates/low/out &&
        mkdir "$tree/crates/low/out" && keeps_earlier
}

check 'the program of both compilers' runs_tables_of '4 passed, 0 failed'
echo 'exit 1' > "$built"
check 'a program that is newer than the sources stays' runs_tables_of '3 passed, 1 failed'
touch -d '1 hour ago' "$built"
touch -d '30 minutes ago' "$tree/crates/low/src/lib.rt"
check 'an old program is built again' runs_tables_of '4 passed, 0 failed'
touch "$tree/crates/low/src/lib.rt"
check 'a source that is newer than its library' runs_tables_of '0 passed, 2 failed'
check 'its name, and no program' \
    eval 'grep "lib.rt is newer than what rt ci left" "$room/cases" && [ ! -e "$built" ]'
check 'what an earlier run left is set aside and put back' keeps_earlier
check 'what a run that was killed set aside too' keeps_earlier_twice
finish
