#!/usr/bin/env bash
# Builds the package into FOLDER, which PYTHONPATH can name, for the Python that is python3 or that
# PYTHON names. It needs a C compiler, and Python with its headers and setuptools, but neither pip
# nor a network. It writes nothing else.
#
#     bindings/python/build.sh FOLDER
set -euo pipefail
here=$(cd "$(dirname "${BASH_SOURCE[0]}")" && pwd)
if [ $# != 1 ] || [[ $1 == -* ]]; then
    echo 'usage: bindings/python/build.sh FOLDER' >&2
    exit 2
fi
python=${PYTHON:-python3}
"$python" -c 'import setuptools' 2> /dev/null || {
    echo "build.sh: $python has no setuptools: apt-get install python3-setuptools" >&2
    exit 1
}
mkdir -p "$1"
folder=$(cd "$1" && pwd)
room=$(mktemp -d)
trap 'rm -rf "$room"' EXIT
cd "$here"
PYTHONDONTWRITEBYTECODE=1 "$python" setup.py -q build --build-base "$room" --build-lib "$folder" \
    > "$room/said" 2>&1 || {
    cat "$room/said" >&2
    exit 1
}
