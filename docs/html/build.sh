#!/usr/bin/env bash
# Builds docs/site from the tree with Sphinx: the documents, the references for C and C++ (which
# Doxygen reads from the headers) and for Python, and the programs' manual pages. rustdoc writes the
# references for Rust and for the proved crates, and site/build.py the page that repairs files. A
# link without a target, a name without documentation and each other warning is a failure. It needs
# the Debian packages python3-breathe, python3-myst-parser, python3-sphinx-rtd-theme, doxygen and
# mandoc, and what the Python package and the Rust crates need.
set -euo pipefail
cd "$(dirname "$0")/../.."
room=$(mktemp -d)
trap 'rm -rf "$room"' EXIT
status=0

mkdir -p "$room/source"/{extra/rust,man,reference,static}
git ls-files -z --cached --others --exclude-standard \
    '*.md' '*.svg' '*.png' '*.csv' VERSION ':!.github' | xargs -0 cp --parents -t "$room/source"
cp docs/html/{conf.py,index.rst} "$room/source"
cp docs/html/style.css "$room/source/static"
for page in crates/*/*.1; do
    name=$(basename "$page" .1)
    { printf '# `%s`\n\n' "$name" && mandoc -T markdown "$page" | sed 's/^#/##/'; } \
        > "$room/source/man/$name.md"
done
for header in dethrux.h dethrux_alloc.h dethrux.hpp; do
    name=${header/.hpp/_cxx}
    printf '# `%s`\n\n```{doxygenfile} %s\n```\n' "$header" "$header" \
        > "$room/source/reference/${name%.h}.md"
done
{ cat docs/html/Doxyfile && echo "OUTPUT_DIRECTORY = $room/source"; } | doxygen - || status=1
printf 'Python\n======\n\n.. automodule:: dethrux\n' > "$room/source/reference/python.rst"
PYTHON=/usr/bin/python3 bindings/python/build.sh "$room/python"
site/build.py "$room/source/extra/see/index.html" ../index.html

# A copy, since cargo writes a file next to a crate. As on docs.rs, no library is linked.
git ls-files -z Cargo.toml bindings/rust dist/rust | xargs -0 cp --parents -t "$room"
settings=('source.crates-io.replace-with="debian"')
settings+=('source.debian.directory="/usr/share/cargo/registry"')
# The proved crates are modules of one, each call with its contract.
mkdir -p "$room/proved/src"
{ echo '//! The proved crates as Rust. "Proved:" is the contract of a call.'
    echo '#![allow(rustdoc::private_intra_doc_links, unexpected_cfgs)]'
    echo 'extern crate alloc;'
    echo '/// The crates.'
    echo 'pub mod proved { use {memchr, simdutf8};'
    for module in "$room"/dist/rust/{byteorder,kit,*/mod}.rs; do
        name=${module#"$room/dist/rust/"}
        [[ $name == @(utf|dethrux)* ]] && public='pub ' || public=
        printf '#[path = "%s"] %smod %s;\n' "$module" "$public" "${name%%[/.]*}"
    done
    echo '}'; } > "$room/proved/src/lib.rs"
printf '%s\n' '[workspace]' '[package]' 'name = "proved"' "version = \"$(< VERSION)\"" 'edition = "2021"' \
    '[features]' 'std = []' '[dependencies]' 'memchr = { version = "2.4", default-features = false }' \
    'simdutf8 = { version = "0.1.4", default-features = false }' > "$room/proved/Cargo.toml"
document() {
    (cd "$1" && DOCS_RS=1 CARGO_TARGET_DIR=$room/target RUSTDOCFLAGS="-D warnings" \
        cargo doc --quiet --no-deps --offline "${settings[@]/#/--config=}" "${@:2}") || status=1
}
document "$room" --package dethrux --package dethrux-utf16string
document "$room/proved"
cp -r "$room/target/doc/." "$room/source/extra/rust"

rm -rf docs/site
PYTHONPATH=$room/python PYTHONDONTWRITEBYTECODE=1 \
    sphinx-build -q -W --keep-going -d "$room/doctrees" "$room/source" docs/site || status=1
echo 'built: docs/site/index.html'
exit $status
