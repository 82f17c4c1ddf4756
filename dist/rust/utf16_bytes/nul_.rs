// packaging/erase wrote this from crates/utf16_bytes/src/nul.rt: do not edit it.
//! The first NUL of a text, which ends it in a buffer of fixed size.
//!
//! A NUL is two zero bytes in either byte order, so the code units are read in little endian. The
//! last block ends at the end and may overlap the one before it, so that no code unit after the
//! blocks is tested by itself.

use crate::proved::simd::*;
use crate::proved::utf16_units::blocks::{units32, units8};
use crate::proved::utf16_units::{Utf16Order, LE};

// The number of bytes of a block.
const BLOCK: usize = 64;

// The number of bytes of a smaller block. Shorter texts have a loop without SIMD.
const SMALL_BLOCK: usize = 16;

/// Returns the offset of the first NUL (U+0000), or the length of the bytes if there is none. So
/// `&utf16[..nul_offset(utf16)]` is the text before the NUL, in either byte order. Any bytes are
/// allowed.
///
/// A NUL is two zero bytes at an even offset. An odd byte at the end is not part of one.
///
/// # Complexity
///
/// One pass, up to the first block that has a NUL.
///
/// # Source
///
/// C's `strnlen`, with code units of UTF-16.
///
/// Proved:
///
/// - ensures first: `(big : Bool) → IsNulOffset big utf16.now result`
pub fn nul_offset(utf16: &[u8]) -> usize {
    let end = utf16.len() - utf16.len() % 2;
    let at = nul_in_units(&utf16[..end]);
    if at == end {
        utf16.len()
    } else {
        at
    }
}

// The offset of the first NUL of whole code units, or their length.
//
// Proved:
//
// - requires `length units.now % 2 ≡ 0`
// - ensures `IsNulOffset false units.now result`
#[inline(always)]
fn nul_in_units(units: &[u8]) -> usize {
    if units.len() < SMALL_BLOCK {
        nul_in_few(units)
    } else {
        nul_in_blocks(units)
    }
}

// The offset of the first NUL of sixteen bytes or more of whole code units, or their length. A
// block's offset does not depend on what the block before it holds, so that its read does not wait.
//
// Proved:
//
// - requires even: `length units.now % 2 ≡ 0`
// - requires many: `SMALL_BLOCK ≤ length units.now`
// - ensures `IsNulOffset false units.now result`
fn nul_in_blocks(units: &[u8]) -> usize {
    let mut at = 0;
    while units.len() - at >= BLOCK {
        let nul = nul_in_block(&units[at..]);
        if nul < BLOCK {
            return at + nul;
        }
        at += BLOCK;
    }
    while units.len() - at > SMALL_BLOCK {
        let nul = nul_in_small_block(&units[at..]);
        if nul < SMALL_BLOCK {
            return at + nul;
        }
        at += SMALL_BLOCK;
    }
    let last = units.len() - SMALL_BLOCK;
    last + nul_in_small_block(&units[last..])
}

// The offset of the first NUL of the first sixty-four bytes, or 64.
//
// Proved:
//
// - requires `BLOCK ≤ length rest.now`
// - ensures `IsNulOffset false (take BLOCK rest.now) result`
#[inline(always)]
fn nul_in_block(rest: &[u8]) -> usize {
    2 * units_before_nul(units32::<LE>(u8x64::from_slice(rest)))
}

// The offset of the first NUL of the first sixteen bytes, or 16.
//
// Proved:
//
// - requires `SMALL_BLOCK ≤ length rest.now`
// - ensures `IsNulOffset false (take SMALL_BLOCK rest.now) result`
#[inline(always)]
fn nul_in_small_block(rest: &[u8]) -> usize {
    2 * units_before_nul(units8::<LE>(u8x16::from_slice(rest)))
}

// The number of code units before the first NUL, or of all code units if there is none.
//
// Proved:
//
// - requires `N ≤ 64`
// - ensures `result ≡ prefix_len (λ unit. not (unit == 0)) units.entry`
#[inline(always)]
fn units_before_nul<const N: usize>(units: Simd<u16, N>) -> usize {
    let nuls = units.simd_eq(Simd::splat(0)).to_bitmask();
    if nuls == 0 {
        N
    } else {
        nuls.trailing_zeros() as usize
    }
}

// The offset of the first NUL of a few whole code units, tested one by one, or their length.
//
// Proved:
//
// - requires `length units.now % 2 ≡ 0`
// - ensures `IsNulOffset false units.now result`
#[inline(always)]
fn nul_in_few(units: &[u8]) -> usize {
    let mut at = 0;
    while at < units.len() {
        if LE::read_unit(crate::proved::kit::two(units, at)) == 0 {
            return at;
        }
        at += 2;
    }
    at
}
