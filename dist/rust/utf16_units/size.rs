// packaging/erase wrote this from crates/utf16_units/src/size.rt: do not edit it.
//! The length of a text in UTF-16, computed from its UTF-8.
//!
//! Each byte that is not a continuation byte begins a character, and each byte from 0xF0 on adds a
//! second unit. So a block takes two counts of bits, and its characters are not decoded. The last
//! block overlaps bytes that were counted, whose bits are shifted out.

use crate::proved::simd::*;
use crate::proved::utf16_units::Utf16CharExt;

// The number of bytes of a small block. Texts with fewer are counted character by character.
const BLOCK: usize = 16;

/// Returns the length of a text in UTF-16, in bytes.
///
/// # Complexity
///
/// One pass, with SIMD.
///
/// Proved:
///
/// - ensures `result ≡ size (chars s.now)`
pub fn utf16_len(s: &str) -> usize {
    if s.len() < BLOCK {
        return utf16_len_by_chars(s);
    }
    2 * units(s.as_bytes())
}

/// Returns the length of a text in UTF-16, in bytes, like `utf16_len`. It is faster for a few
/// characters and slower for many.
///
/// # Complexity
///
/// One pass, character by character.
///
/// Proved:
///
/// - ensures `result ≡ size (chars s.now)`
#[inline]
pub fn utf16_len_by_chars(s: &str) -> usize {
    let mut len = 0;
    for c in s.chars() {
        len += c.encoded_utf16_len();
    }
    len
}

// The number of code units of the characters that begin in the bytes.
//
// Proved:
//
// - requires `BLOCK ≤ length bytes.now`
// - ensures `result ≡ units_begun bytes.now`
fn units(bytes: &[u8]) -> usize {
    let mut at = 0;
    let mut units = 0;
    while bytes.len() - at >= 64 {
        units += units_after(u8x64::from_slice(&bytes[at..]), 0);
        at += 64;
    }
    while bytes.len() - at >= BLOCK {
        units += units_after(u8x16::from_slice(&bytes[at..]), 0);
        at += BLOCK;
    }
    // The last block overlaps bytes that are counted already: leave these out.
    let left = bytes.len() - at;
    let last = u8x16::from_slice(&bytes[bytes.len() - BLOCK..]);
    units + units_after(last, BLOCK - left)
}

// The number of code units of the characters that begin in a block after its first `skip` bytes. A
// byte begins a character if its upper two bits are not those of a continuation byte, and a
// character of two units if its upper four bits are set.
//
// Proved:
//
// - requires few: `N ≤ 64`
// - requires within: `skip < 64`
// - ensures `result ≡ units_begun (drop skip block.entry)`
#[inline(always)]
fn units_after<const N: usize>(block: Simd<u8, N>, skip: usize) -> usize {
    let begun = (block & Simd::splat(0xC0)).simd_ne(Simd::splat(0x80));
    let fours = (block & Simd::splat(0xF0)).simd_eq(Simd::splat(0xF0));
    set_after(begun.to_bitmask(), skip) + set_after(fours.to_bitmask(), skip)
}

// The number of bits that are set, without the lowest `skip`.
//
// Proved:
//
// - requires `skip < 64`
// - ensures `result ≡ count_ones (bits / 2 ^ skip)`
#[inline(always)]
fn set_after(bits: u64, skip: usize) -> usize {
    (bits >> skip).count_ones() as usize
}
