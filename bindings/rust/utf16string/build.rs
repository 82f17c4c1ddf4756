//! Passes on where the proved source is, which the build script of dethrux says.

fn main() {
    println!("cargo:rerun-if-changed=build.rs");
    println!("cargo:rustc-check-cfg=cfg(dethrux_arrays)");
    let folder = std::env::var("DEP_DETHRUX_PROVED").expect("dethrux sets it");
    println!("cargo:rustc-env=DETHRUX_PROVED={folder}");
}
