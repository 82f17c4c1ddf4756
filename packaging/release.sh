#!/usr/bin/env bash
# Makes what is published, in FOLDER (by default packaging/out), and prints the paths: the PARTs that
# are named, or all and SHA256SUMS, the list of their checksums. The same tree and the same compilers
# give the same bytes. The date of the files is the one of CHANGELOG, or SOURCE_DATE_EPOCH.
#
#     packaging/release.sh [FOLDER [PART..]]
#
#     linux      dethrux-VERSION-x86_64-linux-gnu.tar.gz: Linux on x86-64
#     arm64      dethrux-VERSION-aarch64-linux-gnu.tar.gz: Linux on ARM64
#     windows    dethrux-VERSION-x86_64-windows.zip: Windows, with MinGW's gcc
#     dist       dethrux-VERSION-dist.tar.gz: the assembly, for anyone with a C compiler
#     deb        the Debian packages for amd64, with dpkg-buildpackage
#     deb-arm64  the Debian packages for arm64
#     wheels     the Python package, with packaging/wheels.sh
#     npm        the JavaScript package, with npm pack
#     crates     the Rust crates, with cargo package
#
# If a part cannot be made, a line says why, and the status is 3 after the other parts.
set -euo pipefail
here=$(cd "$(dirname "${BASH_SOURCE[0]}")" && pwd)
top=$(dirname "$here")
version=$(< "$top/VERSION")
legal=(LICENSE-APACHE LICENSE-MIT THIRD-PARTY.md)
all=(linux arm64 windows dist deb deb-arm64 wheels npm crates)

# Prints one line, and ends with status 1.
fail() {
    echo "release.sh: $1" >&2
    exit 1
}

# Fails if there is none of these tools.
need() {
    local tool
    for tool; do
        command -v "$tool" > /dev/null || fail "left out: $part: there is no $tool"
    done
}

# Runs the tool of an ecosystem. Its output appears if it fails.
run() {
    "$@" > "$room/log" 2>&1 || { cat "$room/log" >&2; fail "left out: $part: $1 failed"; }
}

# Prints the date of this version in CHANGELOG.md, in seconds since 1970.
released() {
    local day
    day=$(sed -n "s/^## $version, \([0-9-]\{10\}\)$/\1/p" "$top/CHANGELOG.md")
    [ -n "$day" ] || fail "CHANGELOG.md has no line '## $version, DAY'"
    date -u -d "$day" +%s
}

# Moves files to the folder.
give() {
    local file
    for file; do
        mv "$file" "$folder/"
        echo "${file##*/}"
    done
}

# == archives

# Copies files of the tree, and folders without what was built there.
copy() {
    mkdir -p "$room/$name"
    (cd "$top" && cp -R --parents "${legal[@]}" CHANGELOG.md VERSION docs/INSTALL.md "$@" \
        "$room/$name/")
    find "$room/$name" \( -name __pycache__ -o -path "$room/$name/*/out" \) -prune -exec rm -r {} +
}

# Adds the checksums of all files, and packs them.
pack() {
    (cd "$room/$name" && find . -type f -printf '%P\0' | LC_ALL=C sort -z | xargs -0 sha256sum) \
        > "$room/sums"
    mv "$room/sums" "$room/$name/SHA256SUMS"
    if [[ $name == *-windows ]]; then
        find "$room/$name" -exec touch -h -d "@$when" {} +
        (cd "$room" && TZ=UTC python3 -m zipfile -c "$name.zip" "$name")
        give "$room/$name.zip"
    else
        tar -C "$room" --sort=name --format=gnu --owner=0 --group=0 --numeric-owner \
            --mtime="@$when" -cf - "$name" | gzip -9n > "$room/$name.tar.gz"
        give "$room/$name.tar.gz"
    fi
}

# Packs what a compiler builds, with more files.
built() {
    need "$2"
    name=dethrux-$version-$1
    run make -C "$top/dist" "CC=$2" LEVEL= LIBDIR=lib stage "STAGE=$room/$name"
    [[ $1 != *-windows ]] || rm -r "$room/$name/share"
    copy "${@:3}"
    cp "$here/README.md" "$room/$name/"
    pack
}

make_linux() {
    built x86_64-linux-gnu "${CC:-cc}" install.sh docs/PYTHON.md \
        bindings/python/{MANIFEST.in,README.md,pyproject.toml,setup.py,src} \
        dist/include/dethrux.h dist/src/{choose.S,calls.inc,linux-x86-64-v{2,3}.s}
}

make_arm64() {
    built aarch64-linux-gnu aarch64-linux-gnu-gcc install.sh
}

make_windows() {
    built x86_64-windows x86_64-w64-mingw32-gcc docs/{C,CPP}.md
}

make_dist() {
    name=dethrux-$version-dist
    copy install.sh .ci/{faults.c,program.{sh,txt}} cases crates/utf16_{cat,enc,check}/*.1 \
        dist docs/{C,CPP}.md examples/c/{alloc,check,decode,first,units}.c packaging/man3
    cp "$top/dist/README.md" "$room/$name/"
    pack
}

# == packages

make_deb() {
    need dpkg-buildpackage dh
    mkdir "$room/tree"
    cp -R "$here/debian" "$room/tree/"
    cd "$room/tree"
    DETHRUX_TOP=$top run dpkg-buildpackage --build=binary --no-sign "$@"
    give "$room"/*.deb
}

# A cross compiler has libc6-dev of the other architecture in another package.
make_deb-arm64() {
    need aarch64-linux-gnu-gcc
    CC=aarch64-linux-gnu-gcc make_deb --host-arch arm64 --no-check-builddeps
}

make_wheels() {
    local made status=0
    mkdir "$room/wheels"
    "$here/wheels.sh" "$room/wheels" > "$room/log" || status=$?
    mapfile -t made < "$room/log"
    give "${made[@]}"
    return $status
}

make_npm() {
    need npm
    mkdir "$room/npm"
    install -m 644 "$top"/bindings/js/{*.js,package.json,README.md} \
        "${legal[@]/#/$top/}" "$top"/dist/wasm/dethrux.{wasm,d.ts} "$room/npm/"
    cd "$room/npm"
    npm_config_cache=$room/cache run npm pack --offline --ignore-scripts
    give "$room/npm/dethrux-$version.tgz"
}

# Packages crates, and builds what it packaged.
package() {
    run cargo package "${words[@]}" "${@/#/--package=}" --allow-dirty --target-dir "$room/target" \
        --manifest-path "$top/Cargo.toml"
}

# cargo takes what the crates need from Debian's packages if they are installed. The second crate
# then finds the first one in a folder with them.
make_crates() {
    local debian=/usr/share/cargo/registry registry=$room/registry words=()
    need cargo
    # A lock file would have the checksums of Debian's packages.
    ! cargo package --help | grep -q -e --exclude-lockfile || words=(--exclude-lockfile)
    if compgen -G "$debian/cc-*" > "$room/log"; then
        mkdir "$registry"
        ln -s "$debian"/* "$registry"
        words+=(--offline --config 'source.crates-io.replace-with="here"'
            --config "source.here.directory=\"$registry\"")
        package dethrux
        tar -C "$registry" -xzf "$room/target/package/dethrux-$version.crate"
        echo '{"files": {}}' > "$registry/dethrux-$version/.cargo-checksum.json"
        package dethrux-utf16string
    else
        package dethrux dethrux-utf16string
    fi
    give "$room/target/package/dethrux"{,-utf16string}"-$version.crate"
}

folder=${1-$here/out}
parts=("${@:2}")
for part in "${parts[@]}"; do
    [[ " ${all[*]} " == *" $part "* ]] || folder=-
done
if [[ $folder == -* ]]; then
    echo "usage: packaging/release.sh [FOLDER [PART..]]: ${all[*]}" >&2
    exit 2
fi
[ ${#parts[@]} != 0 ] || parts=("${all[@]}")
when=${SOURCE_DATE_EPOCH:-$(released)}
mkdir -p "$folder"
folder=$(cd "$folder" && pwd)
rooms=$(mktemp -d)
trap 'rm -rf "$rooms"' EXIT
umask 022
status=0
for part in "${parts[@]}"; do
    room=$rooms/$part
    mkdir "$room"
    # Not in a condition, where a command that fails would not end it.
    set +e
    (set -e; cd "$top"; "make_$part") >> "$rooms/made"
    [ $? = 0 ] || status=3
    set -e
done
if [ $# -le 1 ]; then
    (cd "$folder" && xargs -rd '\n' sha256sum < "$rooms/made" > SHA256SUMS)
    echo SHA256SUMS >> "$rooms/made"
fi
sed "s|^|$folder/|" "$rooms/made"
exit $status
