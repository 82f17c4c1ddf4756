#!/usr/bin/env bash
# Tests the crates of this folder: their tests and the examples of their documentation with each set
# of features, the page docs/RUST.md in an empty project, how the build script finds or compiles the
# library and what it refuses, the packages, vendored sources, documentation without the library,
# the oldest Rust, formatting and lints. With --tests it skips the last two. The last line is
# 'N passed, M failed'. The library is what dist/Makefile builds, or is in the folder that
# DETHRUX_LIB_DIR names. It needs crates as Debian packages them. Only apt-get, which downloads older
# Rust and its library for 32 bits, needs a network.
set -uo pipefail
here=$(cd "$(dirname "$0")" && pwd)
top=$(cd "$here/../.." && pwd)
registry=/usr/share/cargo/registry
room=$(mktemp -d)
trap 'rm -rf "$room"' EXIT
passed=0
failed=0
lints=yes
[ "${1:-}" != --tests ] || lints=''

fail() {
    failed=$((failed + 1))
    echo "failed: $1"
}

# Runs a step. Its output counts by the lines of cargo test and of the tables of cases, or as one.
count() {
    local name=$1 line number=0
    shift
    if ! "$@" > "$room/said" 2>&1; then
        fail "$name"
        tail -n 30 "$room/said"
        return 1
    fi
    while IFS= read -r line; do
        [[ $line =~ ^(test\ result:\ ok\.\ )?([0-9]+)\ passed[,\;]\ 0\ failed ]] || continue
        number=$((number + BASH_REMATCH[2]))
    done < "$room/said"
    passed=$((passed + (number > 0 ? number : 1)))
}

# Runs cargo without network, on the crate of the first argument. It is run in a folder whose
# configuration takes crates from Debian's packages.
on_crate() {
    local crate=$1 command=$2
    shift 2
    (cd "$room" && cargo "$command" --offline --manifest-path "$top/Cargo.toml" \
        --package "$crate" "$@")
}

documented() {
    RUSTDOCFLAGS='-D warnings' on_crate "$@"
}

# Formatting and lints.
lint() {
    local crate=$1
    [ -n "$lints" ] || return
    count "$crate: cargo fmt" cargo fmt --check --manifest-path "$top/Cargo.toml" --package "$crate"
    count "$crate: cargo clippy" on_crate "$crate" clippy --quiet --all-targets "${@:2}" -- \
        -D warnings
}

test_dethrux() {
    count 'dethrux' on_crate dethrux test
    count 'dethrux without features' on_crate dethrux test --no-default-features
    count 'dethrux with alloc' on_crate dethrux test --no-default-features --features alloc
    count 'dethrux over the proved source' on_crate dethrux test --features pure
    count 'the documentation of dethrux' documented dethrux doc --no-deps
    lint dethrux
    lint dethrux --features pure
    [ -z "$lints" ] || count 'rustfmt of what is by hand in dist/rust' \
        rustfmt --edition 2021 --check "$top"/dist/rust/{byteorder,kit,simd/mod}.rs
}

# The proved source without vectors, which is optimized because arrays are slow, and keeps its
# checks, and with AVX2 if this processor has it.
test_instructions() {
    RUSTFLAGS='--cfg dethrux_arrays' CARGO_PROFILE_TEST_OPT_LEVEL=1 CARGO_TARGET_DIR=$room/arrays \
        on_crate dethrux test --test proved || return
    ! grep -qw avx2 /proc/cpuinfo || RUSTFLAGS=-Ctarget-cpu=x86-64-v3 CARGO_TARGET_DIR=$room/v3 \
        on_crate dethrux test --test proved
}

# The tests over the shared library.
test_dynamic() {
    mkdir "$room/shared" && cp "${library%.a}".so* "$room/shared" || return
    DETHRUX_LIB_DIR=$room/shared on_crate dethrux build --features dynamic || return
    DETHRUX_LIB_DIR=$room/shared LD_LIBRARY_PATH=$room/shared \
        on_crate dethrux test --features dynamic --test std --test adapters --test edges \
        --test cases
}

test_utf16string() {
    local strings=dethrux-utf16string
    count 'utf16string' on_crate $strings test
    count 'utf16string with pure and serde' on_crate $strings test --features pure,serde --tests
    count 'a program of utf16string 0.2' test_patch
    count 'the documentation of utf16string' documented $strings doc --no-deps --features serde
    lint $strings --features serde
}

# Begins an empty project in a folder, with lines for its dependencies.
begin() {
    rm -rf "$1" && mkdir -p "$1/src" &&
        printf '%s\n' '[package]' "name = '${1##*/}'" 'version = "0.1.0"' 'edition = "2021"' \
            '[dependencies]' "${@:2}" > "$1/Cargo.toml"
}

# Builds a project, and runs its program.
build_and_run() {
    (cd "$1" && cargo build --offline --quiet) && "$CARGO_TARGET_DIR/debug/${1##*/}"
}

# A program that depends on utf16string 0.2 of the registry, with the crate here instead of it.
test_patch() {
    local project=$room/patched
    begin "$project" 'byteorder = "1"' 'utf16string = "0.2"' \
        '[patch.crates-io]' "utf16string = { path = '$here/patch' }"
    cat > "$project/src/main.rs" << 'END'
use byteorder::{ByteOrder, LE};
use utf16string::{WStr, WString};

fn shout<E: 'static + ByteOrder>(name: &WStr<E>) -> WString<E> {
    let mut shouted = WString::with_capacity(name.len() + 2);
    shouted.push_wstr(&name[..]);
    shouted.push('!');
    shouted
}

fn main() {
    let name = WStr::<LE>::from_utf16(b"h\0i\0").expect("well-formed UTF-16");
    println!("{}", shout(name).as_wstr());
}
END
    [ "$(build_and_run "$project")" = 'hi!' ]
}

# Prints the first block of the page that is in a language.
block() {
    sed -n "/^\`\`\`$1\$/,/^\`\`\`\$/p" "$top/docs/RUST.md" | sed '1d; /^```$/,$d'
}

# The page, in an empty project next to a clone.
test_page() {
    local project=$room/page/first
    mkdir -p "$project/src" && ln -s "$top" "$room/page/dethrux" || return
    block toml > "$project/Cargo.toml"
    block rust > "$project/src/main.rs"
    [ -s "$project/src/main.rs" ] || return
    printf '\xFF\xFEh\0\x05\x26\n\0' | build_and_run "$project" > "$room/found" || return
    printf 'h★\n' | cmp - "$room/found" || return
    printf '\0h\xDC\0\0' | build_and_run "$project" > "$room/found" || return
    printf 'h\xEF\xBF\xBD\xEF\xBF\xBD' | cmp - "$room/found" || return
    [ "$(wc -l < "$top/docs/RUST.md")" -le 100 ]
}

# Runs cargo on a copy of the crate without dist, with words for env before the command.
on_copy() {
    local copy=$room/clone
    [ -d "$copy" ] || { mkdir "$copy" && tar -C "$top" -cf - Cargo.toml bindings/rust |
        tar -C "$copy" -xf -; } || return
    (cd "$copy" && PKG_CONFIG_LIBDIR=$room env -u DETHRUX_LIB_DIR "$@")
}
build_copy() {
    on_copy "$@" cargo build --offline --features "$features"
}
document_copy() {
    on_copy PKG_CONFIG_PATH= "$@" cargo doc --offline --no-deps
}

# Whether the build script fails with one line.
refuses() {
    local line=$1
    shift
    if build_copy "$@" > "$room/refusal" 2>&1; then
        echo "it builds, and should not"
        return 1
    fi
    grep -qxF "  error: $line" "$room/refusal" || { cat "$room/refusal"; return 1; }
}

# Puts a library of another version into a folder.
put_other() {
    printf 'unsigned dethrux_version(void) { return 99001; }\n' > "$room/other.c"
    cc -c "$room/other.c" -o "$room/other.o" && rm -f "$1/libdethrux.a" &&
        ar cr "$1/libdethrux.a" "$room/other.o"
}

# Whether the build script refuses the library of a folder, which has another version.
refuses_other() {
    put_other "$1" && refuses "$1/libdethrux.a has version 0.99.1, this crate $(< "$top/VERSION"):\
 install that, or set DETHRUX_LIB_DIR to it" "${@:2}"
}

# Whether the build script, after the words for env, compiles the assembly.
compiles() {
    rm -rf "$CARGO_TARGET_DIR"/debug/build/dethrux-*
    build_copy "$@" || return
    compgen -G "$CARGO_TARGET_DIR/debug/build/dethrux-*/out/*linux-*.o"
}

# Which library the build script takes, and that it looks again after a change. When it must take a
# library, the ones that come after it in the search have another version.
test_build_script() {
    local named=$room/named empty=$room/empty dist=$room/clone/dist
    local known="PKG_CONFIG_PATH=$room/pkgconfig" said features=''
    mkdir -p "$named" "$empty" "$room/pkgconfig" "$room/installed"
    printf 'libdir=%s\nprefix=/\nName: dethrux\nDescription: UTF-16\nVersion: 0.2.0\n' \
        "$room/installed" > "$room/pkgconfig/dethrux.pc"
    cp "$library" "$named" && put_other "$room/installed"
    count 'the library that is named' build_copy "$known" "DETHRUX_LIB_DIR=$named"
    count 'a folder without the library' refuses \
        "DETHRUX_LIB_DIR is $empty, which has no libdethrux.a: point it to one, or unset it" \
        "$known" "DETHRUX_LIB_DIR=$empty"
    count 'the library that is named again' build_copy "$known" "DETHRUX_LIB_DIR=$named"
    count 'another version' refuses_other "$named" "$known" "DETHRUX_LIB_DIR=$named"
    rm "$named/libdethrux.a" && : > "$named/libdethrux.a"
    said="$named/libdethrux.a cannot be used, since no program with it runs"
    said+=": install it again, or set DETHRUX_LIB_DIR"
    count 'a file that is not a library' refuses "$said" "$known" "DETHRUX_LIB_DIR=$named"
    cp "$library" "$room/installed"
    count 'the installed library' build_copy "$known"
    said='there is no libdethrux.a: install libdethrux, or set DETHRUX_LIB_DIR to its folder'
    count 'no library' refuses "$said" PKG_CONFIG_PATH=
    count 'the documentation on docs.rs, without a library' document_copy DOCS_RS=1
    count 'no library after the documentation' refuses "$said" PKG_CONFIG_PATH=
    count 'the documentation with its cfg, without a library' \
        document_copy 'RUSTFLAGS=--cfg docsrs'
    mkdir "$dist" && cp -r "$top"/dist/{src,include} "$dist"
    count 'the installed library before the assembly' fails compiles "$known"
    count 'the assembly' compiles PKG_CONFIG_PATH=
    features=bundled
    put_other "$room/installed"
    count 'the assembly although a library is installed' compiles "$known"
    count 'the library that is named before the assembly' \
        refuses_other "$named" "$known" "DETHRUX_LIB_DIR=$named"
    said="the assembly does not compile for $host: set CC to gcc or clang, or DETHRUX_LIB_DIR"
    count 'no compiler' refuses "$said" PKG_CONFIG_PATH= CC=nowhere
    count 'a compiler that fails' refuses "$said" PKG_CONFIG_PATH= 'CC=false -v'
    features=bundled,dynamic
    count 'the assembly instead of a shared library' compiles PKG_CONFIG_PATH=
    rm "$dist/src/calls.inc"
    count 'the assembly after a change' refuses "$said" PKG_CONFIG_PATH=
    features=dynamic
    said='there is no libdethrux.so: install libdethrux, or set DETHRUX_LIB_DIR to its folder'
    count 'no shared library' refuses "$said" PKG_CONFIG_PATH=
    features=''
    count 'an installed library of another version' refuses_other "$room/installed" "$known"
}

# Succeeds if a step fails.
fails() {
    ! "$@"
}

# The tests of an empty project that takes dethrux from a folder, with a feature and without rt.
test_alone() {
    local project=$room/alone_with_$2
    begin "$project" "dethrux = { path = '$1', features = ['$2'] }"
    cat > "$project/src/lib.rs" << 'END'
#[test]
fn decodes() {
    let text = dethrux::decode(dethrux::ByteOrder::LittleEndian, b"h\0\x05\x26");
    assert_eq!(text.unwrap(), "h★");
}
END
    (cd "$project" && PATH=$room/bin:/usr/bin:/bin PKG_CONFIG_LIBDIR=$room \
        env -u DETHRUX_LIB_DIR cargo test --offline)
}

# Packages the crates, and unpacks them outside of the clone, with the first one among Debian's.
package() {
    local version crate
    version=$(< "$top/VERSION")
    "$top/packaging/release.sh" "$room" crates && mkdir "$room/alone" &&
        ln -s "$registry"/* "$room/alone" || return
    for crate in dethrux dethrux-utf16string; do
        tar -C "$room" -xzf "$room/$crate-$version.crate" &&
            mv "$room/$crate-$version" "$room/$crate" &&
            cat "$room/$crate"/LICENSE-* | cmp - <(cat "$top"/LICENSE-*) || return
    done
    ls "$room/dethrux/THIRD-PARTY.md" && cp -r "$room/dethrux" "$room/alone/" &&
        echo '{"files": {}}' > "$room/alone/dethrux/.cargo-checksum.json"
}

# The tests of a package, in its folder, without rt and without a library.
test_package() {
    (cd "$room/$1" && PATH=$room/bin:/usr/bin:/bin PKG_CONFIG_LIBDIR=$room env -u DETHRUX_LIB_DIR \
        cargo test --offline --config "source.debian.directory='$room/alone'")
}

# A project that depends on both crates of a repository, whose sources are vendored.
test_vendored() {
    local project=$room/vendored url=file://$room/repository
    begin "$project" "dethrux = { git = '$url', features = ['bundled'] }" \
        "utf16string = { package = 'dethrux-utf16string', git = '$url' }"
    cat > "$project/src/main.rs" << 'END'
fn main() {
    let text: utf16string::WString<utf16string::BE> = "h★".into();
    println!("{}", dethrux::display(dethrux::ByteOrder::BigEndian, text.as_bytes()));
}
END
    mkdir "$room/repository" && (cd "$top" && git ls-files -z --cached --others --exclude-standard \
        Cargo.toml 'LICENSE-*' THIRD-PARTY.md bindings/rust cases dist |
        xargs -0 cp --parents -t "$room/repository") && (cd "$room/repository" &&
        git init --quiet && git add . &&
        git -c user.name=test -c user.email=test@test commit --quiet --message=all) || return
    (cd "$project" && mkdir .cargo && CARGO_HOME=$room/home cargo vendor --respect-source-config \
        > .cargo/config.toml) && rm -r "$room/repository" "$room/home" &&
        [ "$(unset DETHRUX_LIB_DIR && build_and_run "$project")" = 'h★' ]
}

# Runs the build script for a target as cargo does, in `folder`, with a feature and words for env.
run_build_script() {
    local target=$1
    shift
    rm -rf "$room/made" && mkdir "$room/made" &&
        (cd "$folder" && env -u DETHRUX_LIB_DIR -u CC -u AR "CARGO_FEATURE_$feature=" \
            OPT_LEVEL=0 HOST="$host" TARGET="$target" OUT_DIR="$room/made" "$@" "$build_script")
}

# Whether the build script makes a library for a target, whose files are of a format.
makes() {
    local target=$1 format=$2 files=$3
    shift 3
    run_build_script "$target" "$@" && (cd "$room/made" && ar t libdethrux.a) |
        sed -E 's/^[0-9a-f]{16}-//' | paste -sd ' ' | diff - <(echo "$files") || return
    "${format%:*}-objdump" -h "$room/made/libdethrux.a" > "$room/formats" &&
        [ "$(grep -c "file format ${format#*:}\$" "$room/formats")" = "$(wc -w <<< "$files")" ]
}

# Whether the object files that the build script made are the ones that dist/Makefile makes.
is_of_dist() {
    local of_dist=$room/x86-64/libdethrux.a
    make -s -C "$top/dist" CC=x86_64-linux-gnu-gcc BUILD="${of_dist%/*}" "$of_dist" &&
        cmp <(ar p "$of_dist") <(ar p "$room/made/libdethrux.a")
}

# A program with the library that the build script made for ARM64, and one for Windows, which is
# only linked.
runs_on_arm() {
    aarch64-linux-gnu-gcc -static -I"$top/dist/include" "$top/examples/c/units.c" \
        "$room/made/libdethrux.a" -o "$room/units" && qemu-aarch64 "$room/units"
}
links_for_windows() {
    x86_64-w64-mingw32-gcc -I"$top/dist/include" "$top/examples/c/units.c" \
        "$room/made/libdethrux.a" -o "$room/units.exe"
}

# Whether the build script has the crate compile the proved source for a target.
takes_source() {
    run_build_script "$1" > "$room/said.txt" &&
        grep -qxF 'cargo:rustc-cfg=dethrux_pure' "$room/said.txt"
}

# Whether the build script refuses a target with a line.
refuses_target() {
    ! run_build_script "$1" > "$room/said.txt" 2> "$room/line" && diff "$room/line" - <<< "error: $2"
}

# Targets without assembly.
test_other_targets() {
    local target said
    for target in x86_64-pc-windows-msvc riscv64gc-unknown-linux-gnu wasm32-unknown-unknown; do
        count "$target" takes_source $target
    done
    for target in {x86_64,aarch64}-apple-darwin x86_64-pc-windows-gnu; do
        said='the feature `dynamic` is only for Linux: turn it off, or turn `bundled` on, to link'
        said+=" libdethrux.a for $target"
        feature=DYNAMIC count "dynamic for $target" refuses_target $target "$said"
    done
}

# Unpacks an older Rust of Debian, which is not installed, and the libraries that it needs.
get_rust() {
    local folder=$room/rust-$1 package
    mkdir -p "$folder" "$room/debs-$1" && (cd "$room/debs-$1" &&
        apt-get -o APT::Sandbox::User=root download "${@:2}" libgit2-1.5 libhttp-parser2.9 \
            libmbedcrypto7 libmbedtls14 libmbedx509-1) || return
    for package in "$room/debs-$1"/*.deb; do
        dpkg -x "$package" "$folder" || return
    done
}

# Adds the library of a target with a `usize` of 32 bits to Rust 1.85, from lists of i386.
get_32_bits() {
    local apt=(apt-get -o APT::Sandbox::User=root -o "Dir::State::lists=$room/lists"
        -o APT::Architectures::=amd64 -o APT::Architectures::=i386)
    mkdir -p "$room/lists/partial" && "${apt[@]}" update && (cd "$room/lists" &&
        "${apt[@]}" download libstd-rust-web-dev:i386=1.85.\*) &&
        dpkg -x "$room"/lists/*.deb "$room/rust-1.85"
}

# Runs a step with an older Rust.
with_rust() {
    local usr=$room/rust-$1/usr
    LD_LIBRARY_PATH=$usr/lib/x86_64-linux-gnu:$usr/lib/llvm-19/lib PATH=$usr/bin:$PATH \
        CARGO_TARGET_DIR=$room/target-$1 "${@:2}"
}

# The oldest Rust of each crate, or the next one that Debian has. A debug build of the proved source
# by Rust 1.85 takes more stack than the 2 MiB of a thread.
test_old() {
    local tests='--test cases --test adapters --test edges --test memory --test std'
    count 'Rust 1.63' get_rust 1.63 {rustc,libstd-rust-dev}=1.63.\* libstd-rust-1.63 \
        cargo=0.66.\* libllvm14
    count 'Rust 1.85' get_rust 1.85 {rustc-web,cargo-web,libstd-rust-web-dev}=1.85.\* \
        libstd-rust-web-1.85 libllvm19
    rm -f "$top/Cargo.lock"
    count 'dethrux with Rust 1.63' with_rust 1.63 on_crate dethrux test $tests
    count 'the examples with Rust 1.63' with_rust 1.63 on_crate dethrux test --doc
    RUST_MIN_STACK=4194304 count 'the proved source with Rust 1.85' with_rust 1.85 \
        on_crate dethrux test --features pure $tests
    count 'utf16string with Rust 1.85' with_rust 1.85 on_crate dethrux-utf16string test --tests
    count 'the library for 32 bits' get_32_bits
    count 'the proved source with 32 bits' test_32_bits dethrux --features pure $tests
    count 'utf16string with 32 bits' test_32_bits dethrux-utf16string --features pure --tests
}

# The proved source with a `usize` of 32 bits, which no proof covers, in a debug build.
test_32_bits() {
    CARGO_TARGET_I686_UNKNOWN_LINUX_GNU_LINKER=i686-linux-gnu-gcc RUST_MIN_STACK=4194304 \
        CARGO_TARGET_I686_UNKNOWN_LINUX_GNU_RUSTFLAGS=-Ctarget-feature=+crt-static \
        with_rust 1.85 on_crate "$1" test --target i686-unknown-linux-gnu "${@:2}"
}

# What the build script compiles for other targets than this machine. cargo needs the standard
# library of a target, so the script that it built before runs with cargo's variables.
test_targets() {
    local arm=aarch64-linux-gnu windows=x86_64-w64-mingw32 target build_script
    local folder=$top feature=BUNDLED
    build_script=$(find "$CARGO_TARGET_DIR" -path '*/dethrux-[0-9a-f]*/build-script-build' | head -n 1)
    test_other_targets
    for target in x86_64-unknown-linux-{musl,gnu}; do
        count "$target" makes $target x86_64-linux-gnu:elf64-x86-64 \
            'choose.o linux-x86-64-v2.o linux-x86-64-v3.o'
    done
    count 'the object files of dist/' is_of_dist
    for target in aarch64-unknown-linux-{musl,gnu}; do
        count "$target" makes $target $arm:elf64-littleaarch64 'choose.o linux-aarch64.o'
    done
    count 'a program for ARM64' runs_on_arm
    count 'x86_64-pc-windows-gnu' makes x86_64-pc-windows-gnu $windows:pe-x86-64 \
        'choose.o windows-x86-64-v2.o windows-x86-64-v3.o windows.o'
    count 'a program for Windows' links_for_windows
    count 'x86_64-apple-darwin' makes x86_64-apple-darwin 'llvm:mach-o 64-bit x86-64' \
        'choose.o macos-x86-64-v2.o macos-x86-64-v3.o' CC=clang CARGO_FEATURE_DYNAMIC=
    count 'aarch64-apple-darwin' makes aarch64-apple-darwin 'llvm:mach-o arm64' \
        'choose.o macos-aarch64.o' CC=clang
}

library=$(realpath -m "${DETHRUX_LIB_DIR:-$room/dist}")/libdethrux.a
[ -n "${DETHRUX_LIB_DIR:-}" ] ||
    count 'the library' make -s -C "$top/dist" BUILD="$room/dist" "$room"/dist/libdethrux.{a,so}
[ -f "$library" ] || fail "there is no $library"
if [ $failed = 0 ]; then
    export CARGO_TARGET_DIR=$room/target DETHRUX_LIB_DIR=${library%/*}
    export CARGO_PROFILE_DEV_DEBUG=0 CARGO_INCREMENTAL=0
    mkdir "$room/.cargo"
    printf '[source.crates-io]\nreplace-with = "debian"\n[source.debian]\ndirectory = "%s"\n' \
        "$registry" > "$room/.cargo/config.toml"
    test_dethrux
    count 'the proved source with other instructions' test_instructions
    count 'dethrux over the shared library' test_dynamic
    test_utf16string
    count 'the page docs/RUST.md' test_page
    host=$(rustc -vV | sed -n 's/^host: //p')
    test_build_script
    mkdir "$room/bin" && ln -s "$(command -v cargo)" "$(command -v rustc)" "$room/bin"
    count 'the packages' package
    for crate in dethrux dethrux-utf16string; do
        count "the tests of the package $crate" test_package $crate
    done
    for feature in bundled pure; do
        count "an empty project with the crate and $feature" test_alone "$top" $feature
        count "an empty project with the package and $feature" \
            test_alone "$room/dethrux" $feature
    done
    count 'a project with vendored sources' test_vendored
    test_old
    test_targets
fi
echo "$passed passed, $failed failed"
[ $failed = 0 ]
