// packaging/erase wrote this from crates/utf16_fixed/src/pairs.rt: do not edit it.
//! Surrogate pairs in lanes, and blocks of eight that are read.
//!
//! A pair is one lane, with the leading surrogate in its low half. Less 0xDC00_D800, the halves are
//! the ten bits of each surrogate, and one is above 0x3FF exactly if it is not a pair.

use crate::proved::simd::*;
use crate::proved::utf16_fixed::lanes::len_up_to;
use crate::proved::utf16_units::blocks::units16;
use crate::proved::utf16_units::Utf16Order;

// Writes the characters of eight surrogate pairs to the start of a buffer, and returns how many of
// them are pairs, up to the first that is not. Only these count.
//
// Proved:
//
// - requires bytes: `32 ≤ length raw.now`
// - requires space: `8 ≤ length to.old`
// - ensures few: `result ≤ 8`
// - ensures text: `TranscodesToUtf32 E.BIG (take (4 * result) raw.now) (take result to.new)`
#[inline(always)]
pub(crate) fn write_pairs<E: Utf16Order>(raw: &[u8], to: &mut [u32]) -> usize {
    let bits = bits_of(joined::<E>(u8x32::from_slice(raw)));
    chars_of(bits).copy_to_slice(to);
    len_up_to(tests_of(bits), 0x3FF)
}

// Two code units in each lane, the first in the low half.
//
// Proved:
//
// - ensures len: `length result ≡ 8`
// - ensures units: `result ≡ joined (units_of E.BIG block)`
#[inline(always)]
fn joined<E: Utf16Order>(block: u8x32) -> u32x8 {
    u32x8::from_le_bytes(units16::<E>(block).to_le_bytes())
}

// The ten bits of each surrogate, if they are a pair.
//
// Proved:
//
// - ensures `result ≡ map pair_bits pairs`
#[inline(always)]
fn bits_of(pairs: u32x8) -> u32x8 {
    pairs - u32x8::splat(0xDC00_D800)
}

// The characters of these bits.
//
// Proved:
//
// - ensures `result ≡ map pair_char bits`
#[inline(always)]
fn chars_of(bits: u32x8) -> u32x8 {
    ((bits & u32x8::splat(0xFFFF)) << u32x8::splat(10))
        + (bits >> u32x8::splat(16))
        + u32x8::splat(0x1_0000)
}

// Both halves together, which are at most 0x3FF if each is.
//
// Proved:
//
// - ensures `result ≡ map pair_test bits`
#[inline(always)]
fn tests_of(bits: u32x8) -> u32x8 {
    (bits & u32x8::splat(0xFFFF)) | (bits >> u32x8::splat(16))
}

// The pairs of characters, by their offsets from U+10000, the first that takes two UTF-16 code
// units.
//
// Proved:
//
// - ensures `result ≡ map pair_of (map pair_offset chars)`
#[inline(always)]
pub(crate) fn pairs_of(chars: u32x8) -> u32x8 {
    let offsets = chars - u32x8::splat(0x1_0000);
    ((offsets & u32x8::splat(0x3FF)) << u32x8::splat(16))
        + (offsets >> u32x8::splat(10))
        + u32x8::splat(0xDC00_D800)
}

// The halves of each lane, the low one first.
//
// Proved:
//
// - ensures `result ≡ halved pairs`
#[inline(always)]
pub(crate) fn halved(pairs: u32x8) -> u16x16 {
    u16x16::from_le_bytes(pairs.to_le_bytes())
}
