#!/usr/bin/env bash
# Packages the package, installs it in an empty folder without network, and there runs the first
# program of docs/JS.md, the tests and the tables of cases in Node. Then it runs the tests and the
# tables with the installed package in headless Chromium, and tests the page of site/ there. With
# --node it leaves out what needs Chromium. NODE and CHROMIUM name other programs. The last line is
# 'N passed, M failed'.
set -uo pipefail
here=$(cd "$(dirname "${BASH_SOURCE[0]}")" && pwd)
top=$(cd "$here/../.." && pwd)
. "$top/.ci/checks.sh"
export DETHRUX_TOP=$top

run_node() {
    (cd "$room" && "$node" "$@")
}

# Makes the package twice, with the same bytes.
make_package() {
    local umask
    for umask in 022 077; do
        (umask $umask && "$top/packaging/release.sh" "$room/$umask" npm) || return
    done
    diff -r "$room/022" "$room/077"
}

# Installs the package, if it is for this Node.
install_package() {
    local package=$room/022/dethrux-$(< "$top/VERSION").tgz
    (cd "$room" && npm install --engine-strict --offline --no-audit --no-fund "$package") &&
        [ -s "$room/node_modules/dethrux/dethrux.wasm" ] && cp -R "$here/tests" "$room/"
}

# Prints the counts of a file of tests as a last line.
unit_tests() {
    local said lines
    said=$(run_node --test-reporter=tap "tests/$1")
    lines=$(sed -n 's/^# \(pass\|fail\) \([0-9]*\)$/\2/p' <<< "$said" | paste -sd ' ')
    sed -n '/^not ok/,/^  \.\.\./{s/^not ok [0-9]* - /failed: /;p}' <<< "$said"
    [[ $lines =~ ^([0-9]+)\ ([0-9]+)$ ]] || { tail -n 20 <<< "$said"; return 1; }
    echo "${BASH_REMATCH[1]} passed, ${BASH_REMATCH[2]} failed"
}

# Whether `load` says what is missing, if the engine has no vectors.
says_what_is_missing() {
    ! (cd "$room" && "$node" --input-type=module -e 'import { isSupported, load } from "dethrux";
WebAssembly.validate = () => false;
if (isSupported()) process.exit(0);
await load();') 2> "$room/line" && grep -q 'Error: dethrux: .*SIMD' "$room/line"
}

# Whether a program prints what its page says, given the bytes that the page makes, and writes the
# UTF-8.
first_program() {
    cp "$here/examples/first.mjs" "$room/" &&
        printf '\xFF\xFEG\0r\0\xFC\0\xDF\0e\0\0\xDC' > "$room/notes.txt" &&
        run_node first.mjs notes.txt > "$room/found" &&
        sed -n '/^le {/,/^```$/p' "$top/docs/JS.md" | sed '$d' > "$room/wanted" &&
        [ -s "$room/wanted" ] && diff "$room/wanted" "$room/found" &&
        printf 'Grüße\uFFFD' | cmp "$room/notes.txt.utf8"
}

# Whether the program of the package's page prints what its comments say.
program_of_package() {
    sed -n '/^```js$/,/^```$/p' "$here/README.md" | sed '1d;/^```$/,$d' > "$room/short.mjs" &&
        run_node short.mjs > "$room/found" && sed -n 's|^// ||p' "$room/short.mjs" > "$room/wanted" &&
        [ -s "$room/wanted" ] && diff "$room/wanted" "$room/found"
}

# Whether the types allow what they should, and nothing else that the file has.
check_types() {
    (cd "$room" && tsc --strict --noEmit --target es2022 --module nodenext \
        --moduleResolution nodenext --lib es2022,dom tests/types.mts)
}

# Whether a bundle of esbuild finds the module: in itself, and next to it.
runs_bundled() {
    (cd "$room" && esbuild tests/bundled.mjs --bundle --minify --format=esm \
        --loader:.wasm=binary --log-level=warning --outfile=bundle/app.mjs) &&
        cp "$room/node_modules/dethrux/dethrux.wasm" "$room/bundle/" &&
        run_node bundle/app.mjs > "$room/found" && printf 'Grüße\nGrüße\n' | cmp - "$room/found"
}

# Whether the page is the same if it is built twice.
builds_page() {
    "$top/site/build.py" "$room/first.html" && "$top/site/build.py" "$room/second.html" &&
        cmp "$room/first.html" "$room/second.html"
}

test_node() {
    node=${NODE:-node}
    check 'the package, twice' make_package || return
    check 'its installation' install_package || return
    counts 'the tests of the calls' unit_tests calls.test.mjs
    counts 'the tests of streams' unit_tests streams.test.mjs
    counts 'the tables of cases' run_node tests/cases.mjs
    check 'an engine without vectors' says_what_is_missing
    check 'the first program' first_program
    check "the program of the package's page" program_of_package
    check 'the types' check_types
    check 'a bundle' runs_bundled
}

test_chromium() {
    local tests=("$here/tests/chromium.py" "$room")
    CHROMIUM=${CHROMIUM:-$(first_of chromium chromium-browser google-chrome || echo chromium)}
    export CHROMIUM
    check 'the page, twice' builds_page
    "$top/cases/to_json.py" > "$room/cases.json"
    counts 'the tests of the calls in Chromium' "${tests[@]}" calls.test.mjs
    counts 'the tests of streams in Chromium' "${tests[@]}" streams.test.mjs
    counts 'the tables of cases in Chromium' "${tests[@]}" cases.mjs
    counts 'the page in Chromium' "$top/site/test.py"
}

test_node
[ "${1:-}" = --node ] || test_chromium
finish
