#!/usr/bin/env bash
# Installs the Debian packages that the parts of CI need and that are missing, if this runs as root.
# It runs before the parts, because they run side by side. Each package that is still missing is a
# failure, and a line says what to install. The last line is 'N passed, M failed'.
set -uo pipefail
. "$(dirname "$0")/checks.sh"

# Prints what Python answers, or nothing without Python.
ask_python() {
    python3 -c "import importlib.util, sys, sysconfig; print($1)" 2> /dev/null
}

python_version=$(ask_python '"{}.{}".format(*sys.version_info)')
python_headers=$(ask_python 'sysconfig.get_path("include")')/Python.h

# The program, the file or the module of Python that is looked for, which may also come from
# elsewhere, and after a ':' its package; or only a package.
tools=(
    # Compilers, and what they build with.
    gcc:gcc g++:g++ clang:clang clang++:clang lld-link:lld objcopy:binutils make:make cmake:cmake
    pkg-config:pkg-config cargo:cargo rustc:rustc cargo-fmt:rustfmt cargo-clippy:rust-clippy
    llvm-symbolizer:llvm libclang-rt-dev libicu-dev librust-byteorder-dev librust-cc-dev
    librust-memchr-dev librust-pkg-config-dev librust-serde-dev librust-simdutf8-dev
    # Other platforms.
    aarch64-linux-gnu-gcc:gcc-aarch64-linux-gnu aarch64-linux-gnu-g++:g++-aarch64-linux-gnu
    libc6-dev-arm64-cross i686-linux-gnu-gcc:gcc-i686-linux-gnu
    x86_64-w64-mingw32-gcc:gcc-mingw-w64-x86-64 x86_64-w64-mingw32-g++:g++-mingw-w64-x86-64
    qemu-aarch64:qemu-user qemu-x86_64:qemu-user musl-gcc:musl-tools gdb:gdb
    /usr/lib/wine/wine64:wine64
    # Python and JavaScript.
    python3:python3 pip:python3-pip "$python_headers:python3-dev" module=ensurepip:python3-venv
    "module=test.test_codecs:libpython${python_version:-3}-testsuite" mypy:mypy
    python3-setuptools module=setuptools:python3-setuptools python3-wheel-whl
    node:nodejs npm:npm tsc:node-typescript esbuild:esbuild wasm-opt:binaryen
    # Documents and packages.
    sphinx-build:python3-sphinx python3-breathe python3-myst-parser python3-sphinx-rtd-theme
    python3-dev linkchecker:linkchecker mandoc:mandoc doxygen:doxygen chromium:chromium dh:debhelper
    dpkg-buildpackage:dpkg-dev lintian:lintian
    # What runs and compares.
    valgrind:valgrind git:git iconv:libc-bin cmp:diffutils setpriv:util-linux
)

# Tests that there is a tool, a file, a module or a package.
is_there() {
    if [[ $1 == module=* ]]; then
        [ "$(ask_python "importlib.util.find_spec('${1#module=}') is not None")" = True ]
    else
        command -v "$1" > /dev/null || [ -f "$1" ] ||
            dpkg-query -f '${db:Status-Status}\n' -W "$1" 2> /dev/null | grep -qx installed
    fi
}

# Puts what is missing into `missing`, and its packages into `wanted`.
look_for_tools() {
    local pair
    missing=()
    wanted=()
    for pair in "${tools[@]}"; do
        is_there "${pair%:*}" && continue
        missing+=("${pair%:*}")
        [[ " ${wanted[*]} " == *" ${pair#*:} "* ]] || wanted+=("${pair#*:}")
    done
}

# Installs packages.
install() {
    apt-get -o DPkg::Lock::Timeout=600 install -y -q --no-install-recommends "$@"
}

# Installs what is missing: all at once, or if that fails one by one.
install_wanted() {
    install "${wanted[@]}" || { apt-get update -q && install "${wanted[@]}"; } ||
        for package in "${wanted[@]}"; do install "$package"; done
}

look_for_tools
if [ ${#wanted[@]} != 0 ] && [ $EUID = 0 ]; then
    echo "installing ${wanted[*]}"
    install_wanted > "$room/said" 2>&1 < /dev/null
    look_for_tools
fi
[ ${#missing[@]} = 0 ] || echo "failed: there is no ${missing[*]}: apt-get install ${wanted[*]}"
passed=$((${#tools[@]} - ${#missing[@]}))
failed=${#missing[@]}
finish
