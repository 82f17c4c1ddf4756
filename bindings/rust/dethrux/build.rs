//! Links the library in the folder `DETHRUX_LIB_DIR`, else the one that pkg-config knows. If there
//! is none, and always with the feature `bundled`, it compiles the assembly in `dist`. With the
//! feature `pure`, and for a target without assembly, the crate compiles the proved source. If that
//! is not possible, or the library has another version, the build ends with one line that says what
//! to do. On docs.rs nothing is linked.

use std::path::{Path, PathBuf};
use std::process::{exit, Command};
use std::{env, fs};

/// A program that prints the version of the library.
const PROGRAM: &str = "unsigned dethrux_version(void); int printf(const char *, ...);
int main(void) {
    unsigned found = dethrux_version();
    return printf(\"%u.%u.%u\", found / 1000000, found / 1000 % 1000, found % 1000) < 0;
}";

/// The targets for which `dist/src` has assembly, and its files besides `choose.S`. Assembly needs
/// no libc, so the files for glibc are also for musl.
#[rustfmt::skip]
const TARGETS: [(&str, &[&str]); 5] = [
    ("x86_64-unknown-linux-gnu", &["linux-x86-64-v2.s", "linux-x86-64-v3.s"]),
    ("aarch64-unknown-linux-gnu", &["linux-aarch64.s"]),
    ("x86_64-pc-windows-gnu", &["windows-x86-64-v2.s", "windows-x86-64-v3.s", "windows.c"]),
    ("x86_64-apple-darwin", &["macos-x86-64-v2.s", "macos-x86-64-v3.s"]),
    ("aarch64-apple-darwin", &["macos-aarch64.s"]),
];

/// The options of gcc's assembler and of clang that move branches which cross or end a block of 32
/// bytes. On processors from Skylake to Cascade Lake these slow their loops down.
const PADDED: [&str; 2] =
    ["-Wa,-mbranches-within-32B-boundaries", "-mbranches-within-32B-boundaries"];

/// Ends the build with one line.
macro_rules! fail {
    ($($message:tt)*) => {{
        eprintln!("error: {}", format_args!($($message)*));
        exit(1)
    }};
}

fn main() {
    println!("cargo:rerun-if-changed=bindings/rust/dethrux/build.rs");
    println!("cargo:rerun-if-env-changed=DOCS_RS");
    println!("cargo:rerun-if-env-changed=DETHRUX_LIB_DIR");
    println!("cargo:rustc-check-cfg=cfg(dethrux_pure, dethrux_arrays, docsrs)");
    let dist = env::current_dir().unwrap_or_default().join("dist");
    // The build script of utf16string finds the source by this.
    println!("cargo:proved={}", dist.join("rust").display());
    if is_set("DOCS_RS") || is_set("CARGO_CFG_DOCSRS") {
        return;
    }
    if is_set("CARGO_FEATURE_PURE") {
        println!("cargo:rustc-cfg=dethrux_pure");
    } else {
        provide(&dist, &env::var("TARGET").unwrap_or_default());
    }
}

fn is_set(name: &str) -> bool {
    env::var_os(name).is_some()
}

/// Links a library, or compiles one.
fn provide(dist: &Path, target: &str) {
    let is_bundled = is_set("CARGO_FEATURE_BUNDLED");
    let is_native = env::var("HOST").as_deref() == Ok(target);
    let (kind, file) = match is_set("CARGO_FEATURE_DYNAMIC") {
        true if target.contains("-linux-") => ("dylib", "libdethrux.so"),
        true if !is_bundled => fail!(
            "the feature `dynamic` is only for Linux: turn it off, or turn `bundled` on, to \
             link libdethrux.a for {target}"
        ),
        _ => ("static", "libdethrux.a"),
    };
    let has_file = |folder: &PathBuf| folder.join(file).is_file();
    let found = match env::var_os("DETHRUX_LIB_DIR").map(PathBuf::from) {
        Some(folder) if !has_file(&folder) => fail!(
            "DETHRUX_LIB_DIR is {}, which has no {file}: point it to one, or unset it",
            folder.display()
        ),
        None if is_native && !is_bundled => {
            let installed = pkg_config::get_variable("dethrux", "libdir").ok();
            installed.map(PathBuf::from).filter(has_file)
        }
        named => named,
    };
    if let Some(folder) = found {
        let library = folder.join(file);
        println!("cargo:rerun-if-changed={}", library.display());
        println!("cargo:rustc-link-search=native={}", folder.display());
        println!("cargo:rustc-link-lib={kind}=dethrux");
        if is_native {
            check(&library);
        }
    } else if dist.is_dir() && (is_bundled || kind == "static") {
        compile(dist, target);
    } else {
        fail!("there is no {file}: install libdethrux, or set DETHRUX_LIB_DIR to its folder");
    }
}

/// Tests whether a library has the major and the minor version of this crate.
fn check(library: &Path) {
    let (path, wanted) = (library.display(), env!("CARGO_PKG_VERSION"));
    match version_of(library) {
        Some(version) if version.rsplit('.').skip(1).eq(wanted.rsplit('.').skip(1)) => {}
        Some(version) => fail!(
            "{path} has version {version}, this crate {wanted}: install that, or set \
             DETHRUX_LIB_DIR to it"
        ),
        None => fail!(
            "{path} cannot be used, since no program with it runs: install it again, or set \
             DETHRUX_LIB_DIR"
        ),
    }
}

/// Returns the version that the library returns to a program which is linked with it.
fn version_of(library: &Path) -> Option<String> {
    let program = PathBuf::from(env::var_os("OUT_DIR")?).join("version");
    let source = program.with_extension("c");
    fs::write(&source, PROGRAM).ok()?;
    let mut compiler = cc::Build::new().try_get_compiler().ok()?.to_command();
    compiler.arg(source).arg(library).arg("-o").arg(&program);
    compiler.output().ok().filter(|it| it.status.success())?;
    let mut program = Command::new(program);
    let printed = program.env("LD_LIBRARY_PATH", library.parent()?).output();
    let version = String::from_utf8(printed.ok()?.stdout).ok();
    version.filter(|it| !it.is_empty())
}

/// Compiles the assembly for the target, and links it. If there is none, the crate compiles the
/// proved source.
fn compile(dist: &Path, target: &str) {
    // The compiler for glibc serves for musl.
    let glibc = target.replace("-musl", "-gnu");
    let sources = match TARGETS.iter().find(|it| it.0 == glibc) {
        Some((_, sources)) => sources,
        None => return println!("cargo:rustc-cfg=dethrux_pure"),
    };
    let folder = dist.join("src");
    // The whole folder, since choose.S and windows.c include calls.inc.
    println!("cargo:rerun-if-changed={}", folder.display());
    let mut build = cc::Build::new();
    build.opt_level(2).debug(false).include(dist.join("include")).file(folder.join("choose.S"));
    build.files(sources.iter().map(|name| folder.join(name)));
    for option in PADDED {
        build.flag_if_supported(option);
    }
    let mut result = build.try_compile("dethrux");
    if result.is_err() && glibc != target {
        result = build.target(&glibc).try_compile("dethrux");
    }
    if let Err(error) = result {
        eprintln!("{error}");
        fail!(
            "the assembly does not compile for {target}: set CC to gcc or clang, or \
             DETHRUX_LIB_DIR"
        );
    }
}
