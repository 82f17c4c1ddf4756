// packaging/erase wrote this from crates/utf16_fixed/src/validate.rt: do not edit it.
//! Validation of UTF-32.

use crate::proved::simd::*;
use crate::proved::utf16_fixed::lanes::are_scalars;

/// Tests whether code units are well-formed UTF-32: each is a scalar value, at most 0x10FFFF and no
/// surrogate.
///
/// # Errors
///
/// The offset, in code units, of the first that is not a scalar value.
///
/// # Complexity
///
/// One pass, with SIMD.
///
/// Proved:
///
/// - ensures ok: `IsOk result ↔ IsUtf32 utf32.now`
/// - ensures error: `IfErr result (IsUtf32ValidUpTo utf32.now)`
pub fn validate_utf32(utf32: &[u32]) -> Result<(), usize> {
    let mut at = scalar_blocks(utf32);
    while at < utf32.len() {
        let Some(_) = char::from_u32(utf32[at]) else {
            return Err(at);
        };
        at += 1;
    }
    Ok(())
}

// The end of the blocks of sixteen code units that are all scalar values.
//
// Proved:
//
// - ensures within: `result ≤ length utf32.now`
// - ensures valid: `IsUtf32 (take result utf32.now)`
#[inline(always)]
fn scalar_blocks(utf32: &[u32]) -> usize {
    let mut at = 0;
    while utf32.len() - at >= 16 && are_scalars(u32x16::from_slice(&utf32[at..])) {
        at += 16;
    }
    at
}
