// packaging/erase wrote this from crates/dethrux/src/version.rt: do not edit it.
//! The version of the library, which the header also gives.

const MAJOR: u32 = 0;

const MINOR: u32 = 2;

const PATCH: u32 = 0;

/// Returns the version as a number, like `DETHRUX_VERSION` in the header: 1,000,000 times the
/// major, plus 1,000 times the minor, plus the patch version.
///
/// Proved:
///
/// - ensures `result ≡ version_number 0 2 0`
pub fn dethrux_version() -> u32 {
    MAJOR * 1_000_000 + MINOR * 1_000 + PATCH
}
