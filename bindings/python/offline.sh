#!/usr/bin/env bash
# Puts links to what pip builds the package with into FOLDER, so that it needs no network:
#
#     bindings/python/offline.sh FOLDER
#     pip install --no-index --find-links FOLDER bindings/python
#
# They are wheel, and the setuptools of the Python that is python3 or that PYTHON names: Debian's is
# only for Debian's Python. Python 3.12 and later have none.
set -euo pipefail
if [ $# != 1 ] || [[ $1 == -* ]]; then
    echo 'usage: bindings/python/offline.sh FOLDER' >&2
    exit 2
fi
setuptools=$("${PYTHON:-python3}" -c '
import ensurepip, pathlib, sysconfig
bundled = pathlib.Path(ensurepip.__file__).with_name("_bundled")
found = pathlib.Path(sysconfig.get_config_var("WHEEL_PKG_DIR") or bundled)
print(*found.glob("setuptools-*.whl"))')
wheel=$(echo /usr/share/python-wheels/wheel-*.whl)
[ -f "$setuptools" ] || {
    echo 'offline.sh: this Python has no wheel of setuptools: apt-get install python3-venv' >&2
    exit 1
}
[ -f "$wheel" ] || {
    echo "offline.sh: there is no $wheel: apt-get install python3-wheel-whl" >&2
    exit 1
}
mkdir -p "$1"
ln -sf "$setuptools" "$wheel" "$1/"
