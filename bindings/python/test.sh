#!/usr/bin/env bash
# Installs the package with pip in an empty virtual environment, without network and without rt.
# There it runs the first program of docs/PYTHON.md, the unit tests, CPython's tests of UTF-16 with
# these codecs, and the tables of cases. It installs the wheel that packaging/wheels.sh makes of the
# source distribution, and calls it on processors of each level. mypy checks the types. The last
# line is 'N passed, M failed'.
# PYTHON names another Python, which has its headers and setuptools; WHEELS names a folder with the
# wheels of setuptools and of wheel for it, which Python 3.12 and later do not have. DETHRUX_CALLS
# is how many calls may not take memory (200000).
set -uo pipefail
here=$(cd "$(dirname "${BASH_SOURCE[0]}")" && pwd)
top=$(cd "$here/../.." && pwd)
export PYTHONDONTWRITEBYTECODE=1
unset PYTHONPATH PYTHONHOME CC
. "$top/.ci/checks.sh"

make_environment() {
    "$python" -m venv "$room/venv"
}

# Copies the tree, since setuptools writes into the folder that it builds.
copy_tree() {
    mkdir "$room/tree" && cd "$top" && cp -R --parents bindings/python/{*.*,src} include dist \
        LICENSE-{APACHE,MIT} THIRD-PARTY.md "$room/tree"
}

# Runs pip without network, with the compiler of the system and without rt.
install_with_pip() {
    PATH=/usr/bin:/bin "$room/venv/bin/pip" install --no-index --find-links "$WHEELS" \
        --no-cache-dir --disable-pip-version-check "$@"
}

# Whether a program prints what its page says, given the bytes that the page makes.
first_program() {
    printf '\xFF\xFEG\0r\0\xFC\0\xDF\0e\0\0\xDC\n\0' > "$room/notes.txt" &&
        "$room/venv/bin/python" "$here/examples/first.py" "$room/notes.txt" > "$room/found" &&
        sed -n '/^byte 12/,/^```$/p' "$top/docs/PYTHON.md" | sed '$d' > "$room/wanted" &&
        [ -s "$room/wanted" ] && diff "$room/wanted" "$room/found"
}

# Whether the types of the package agree.
check_types() {
    MYPYPATH=$here/src mypy --strict --cache-dir "$room/mypy" \
        "$here/src/dethrux" "$here/tests/typed.py"
}

# Runs the tests of a module.
unit_tests() {
    cd "$here/tests" && DETHRUX_TOP=$top "$room/venv/bin/python" shortest.py - "$1"
}

# Prints the folder in which pip has installed the package.
packages() {
    "$room/venv/bin/python" -c 'import pathlib, dethrux
print(pathlib.Path(dethrux.__file__).parents[1])'
}

# Makes the source distribution, and the wheel, which pip makes of it.
make_wheels() {
    WHEELS=$WHEELS PATH=$tools:$PATH "$top/packaging/wheels.sh" "$room/wheels"
}

# Whether wheels.sh leaves out a wheel that is not for every Linux, and makes the same source
# distribution again.
leaves_out_wheels() {
    local wheel
    wheel=$(basename "$room"/wheels/*.whl)
    printf '#!/bin/sh\necho GLIBC_2.4 GLIBC_2.35\n' > "$tools/readelf"
    chmod +x "$tools/readelf"
    ! (umask 077 && WHEELS=$WHEELS PATH=$tools:$PATH "$top/packaging/wheels.sh" "$room/left") \
        > "$room/paths" 2> "$room/lines" && diff - "$room/lines" << END &&
wheels.sh: $wheel needs GLIBC_2.35, not 2.34 or older: use an older compiler
END
        diff <(ls "$room"/left/*) "$room/paths" && cmp "$room"/{left,wheels}/*.tar.gz
}

# Whether Python takes this code from the wheel, and calls it. Words after it are those that run
# Python.
takes() {
    PYTHONPATH=$room/wheel "${@:2}" "$room/venv/bin/python" -c '
import dethrux
assert dethrux.to_utf8(b"\0\xe9", "big").output == "é".encode()
print(*dethrux.__path__, dethrux.kernel())' | diff - <(echo "$room/wheel/dethrux $1")
}

# Whether the extension compiles without a warning, with both compilers.
compile_strictly() {
    local compiler include
    include=$("$python" -c 'import sysconfig; print(sysconfig.get_path("include"))')
    for compiler in gcc clang; do
        $compiler -std=c11 -O2 -Wall -Wextra -Wshadow -Wconversion \
            -Werror -fPIC -c -I"$top/dist/include" -isystem "$include" -o "$room/native.o" \
            "$here/src/dethrux/_native.c" || return
    done
}

# What packaging/wheels.sh makes.
test_wheels() {
    local tools=$room/bin kernel
    kernel=$("$room/venv/bin/python" -c 'import dethrux; print(dethrux.kernel())')
    mkdir "$tools" && ln -s "$(command -v "$python")" "$tools/python3"
    check 'the wheel and the sources' make_wheels || return
    check 'a wheel for a newer glibc' leaves_out_wheels
    check 'pip install of the wheel' \
        install_with_pip --target "$room/wheel" "$room"/wheels/*.whl
    check 'the code of the wheel' takes "$kernel"
    [ "$(uname -m)" != x86_64 ] || {
        check 'the wheel without AVX2' takes x86-64-v2 qemu-x86_64 -cpu Nehalem
        check 'the wheel with AVX2' takes x86-64-v3 qemu-x86_64 -cpu Haswell
    }
}

python=${PYTHON:-python3}
if [ -z "${WHEELS:-}" ]; then
    WHEELS=$room/build
    check 'what pip builds with' env PYTHON="$python" "$here/offline.sh" "$WHEELS" || finish
fi
check 'a virtual environment' make_environment || finish
check 'a copy of the tree' copy_tree || finish
check 'pip install' install_with_pip "$room/tree/bindings/python" || finish
check 'what the tests build with' install_with_pip setuptools || finish
check 'the first program' first_program
for module in "$here"/tests/test_*.py; do
    module=$(basename "$module" .py)
    counts "$module" unit_tests "$module"
done
counts 'the tables of cases' "$room/venv/bin/python" "$top/examples/c/check.py"
counts 'the programs' env PYTHON="$room/venv/bin/python" PYTHONPATH="$(packages)" \
    "$here/tests/programs.sh"
check 'the warnings of the C compiler' compile_strictly
test_wheels
check 'mypy --strict' check_types
finish
