// packaging/erase wrote this from crates/dethrux/src/nul.rt: do not edit it.
//! The first NUL.

use crate::proved::utf16_bytes::nul_offset;

/// Returns the offset of the first NUL (U+0000), or the length if there is none. A NUL is two zero
/// bytes at an even offset, in either byte order. One pass, up to the first block that has a NUL.
///
/// Proved:
///
/// - ensures first: `(big : Bool) → IsNulOffset big utf16.now result`
pub fn dethrux_nul_offset(utf16: &[u8]) -> usize {
    nul_offset(utf16)
}
