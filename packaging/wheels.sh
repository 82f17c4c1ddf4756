#!/usr/bin/env bash
# Makes the Python package's source distribution, and of it the wheel for the Python that is python3
# and this machine, in FOLDER (by default packaging/out), and prints their paths. It needs a C
# compiler, and Python with its headers, setuptools and pip. pip builds the wheel with the wheels of
# setuptools and of wheel that are in the folder WHEELS, else with those that
# bindings/python/offline.sh finds, else it downloads them. If the wheel needs a newer glibc than
# 2.34, it is left out, with status 1. The same tree and the same compiler give the same bytes.
#
#     packaging/wheels.sh [FOLDER]
set -euo pipefail
here=$(cd "$(dirname "${BASH_SOURCE[0]}")" && pwd)
top=$(dirname "$here")
name=dethrux-$(< "$top/VERSION")
platform=manylinux_2_34_$(uname -m)
# The least time that a ZIP file can have.
export SOURCE_DATE_EPOCH=315532800 PYTHONDONTWRITEBYTECODE=1

# Writes the source distribution. setuptools writes into the folder that it builds, so that is a
# copy.
make_sources() {
    mkdir "$room/tree"
    (cd "$top" && cp -R --parents \
        bindings/python/{MANIFEST.in,README.md,pyproject.toml,setup.py,src} dist/include/dethrux.h \
        dist/src LICENSE-{APACHE,MIT} THIRD-PARTY.md "$room/tree/")
    find "$room/tree" \( -name '*.so' -o -name '*.egg-info' -o -name __pycache__ \) -prune \
        -exec rm -r {} +
    (cd "$room/tree/bindings/python" && python3 setup.py -q sdist --dist-dir "$room") > "$room/said"
    tar -C "$room" -xf "$room/$name.tar.gz"
    tar -C "$room" --sort=name --format=gnu --owner=0 --group=0 --numeric-owner \
        --mtime="@$SOURCE_DATE_EPOCH" --mode=u=rwX,go=rX -cf - "$name" | gzip -9n
}

# Writes the wheel to a folder.
make_wheel() {
    printf '[bdist_wheel]\nplat_name = %s\n' "$platform" > "$room/config"
    DIST_EXTRA_CONFIG=$room/config python3 -m pip wheel -q --no-deps --no-cache-dir \
        --disable-pip-version-check ${WHEELS:+--no-index --find-links "$WHEELS"} \
        --wheel-dir "$room/made" "$folder/$name.tar.gz"
}

# Prints the newest version of glibc that the wheel needs.
needed() {
    python3 -m zipfile -e "$room"/made/*.whl "$room/unpacked"
    readelf --version-info "$room"/unpacked/dethrux/*.so | grep -oE 'GLIBC_[0-9A-Z_.]+' |
        sort -V | tail -n 1
}

if [ $# -gt 1 ] || [[ ${1-.} == -* ]]; then
    echo 'usage: packaging/wheels.sh [FOLDER]' >&2
    exit 2
fi
folder=${1-$here/out}
mkdir -p "$folder"
folder=$(cd "$folder" && pwd)
room=$(mktemp -d)
trap 'rm -rf "$room"' EXIT
umask 022
if [ -z "${WHEELS:-}" ] && "$top/bindings/python/offline.sh" "$room/build" 2> "$room/said"; then
    WHEELS=$room/build
fi
make_sources > "$room/sources"
mv "$room/sources" "$folder/$name.tar.gz"
echo "$folder/$name.tar.gz"
make_wheel
newest=$(needed)
wheel=$(basename "$room"/made/*.whl)
if [[ ! $newest =~ ^GLIBC_2\.([0-9]+)(\.[0-9]+)?$ ]] || ((BASH_REMATCH[1] > 34)); then
    echo "wheels.sh: $wheel needs $newest, not 2.34 or older: use an older compiler" >&2
    exit 1
fi
mv "$room/made/$wheel" "$folder/"
echo "$folder/$wheel"
