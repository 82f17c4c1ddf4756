// packaging/erase wrote this from crates/utf16_from_utf8/src/units.rt: do not edit it.
//! The two bytes of the code unit that ends at each of sixteen bytes, where each byte may follow
//! the two before it.

use crate::proved::simd::*;
use crate::proved::utf16_from_utf8::lanes::{
    down, each, greater, masked, set_bits, sum, up, where_below,
};

// The byte before each byte. For a character of one byte it is replaced by a byte that adds
// nothing.
//
// Proved:
//
// - ensures `HasLanes 16 result (λ i. previous_of (slice_index b1 i) (slice_index b0 i))`
#[inline(always)]
pub(crate) fn previous_bytes(b1: u8x16, b0: u8x16) -> u8x16 {
    where_below(b0, 0x80, each(0xC0), b1)
}

// The high bytes of units, except leading surrogates. The upper bits of trailing surrogates are
// missing.
//
// Proved:
//
// - ensures `HasLanes 16 result (λ i. high_of (slice_index b2 i) (slice_index previous i))`
#[inline(always)]
pub(crate) fn high_bytes(b2: u8x16, previous: u8x16) -> u8x16 {
    // Only the first bytes of characters of three and of four bytes keep lower bits that are not
    // zero.
    let lead = greater(b2, each(0xE0));
    sum(masked(down(previous, 2), 0xF), up(lead, 4))
}

// The low bytes of units, except leading surrogates.
//
// Proved:
//
// - ensures `HasLanes 16 result (λ i. low_of (slice_index previous i) (slice_index b0 i))`
#[inline(always)]
pub(crate) fn low_bytes(previous: u8x16, b0: u8x16) -> u8x16 {
    sum(masked(b0, 0x7F), up(previous, 6))
}

// The upper bits of trailing surrogates, and zero for other units.
//
// Proved:
//
// - ensures `HasLanes 16 result (λ i. trailing_of (slice_index b2 i) (slice_index previous i))`
#[inline(always)]
fn trailing_bits(b2: u8x16, previous: u8x16) -> u8x16 {
    // Both are continuation bytes only after the first byte of four.
    where_below(greater(previous, b2), 0xC0, each(0xDC), each(0))
}

// The bits that are set in one or the other.
//
// Proved:
//
// - ensures `HasLanes 16 result (λ i. bit_or (slice_index a i) (slice_index b i))`
#[inline(always)]
fn joined(a: u8x16, b: u8x16) -> u8x16 {
    a | b
}

// The two bytes of leading surrogates.
//
// Proved:
//
// - ensures highs: `HasLanes 16 result.0 (λ i. leading_of (slice_index b2 i) (lead_part
//   (slice_index b1 i) (slice_index b0 i)))`
// - ensures lows: `HasLanes 16 result.1 (λ i. lead_low (lead_part (slice_index b1 i) (slice_index
//   b0 i)))`
#[inline(always)]
fn leading_bytes(b2: u8x16, b1: u8x16, b0: u8x16) -> (u8x16, u8x16) {
    let parts = sum(up(b1, 2), masked(down(b0, 4), 3));
    // The high byte is one less if the low byte borrows from it.
    let rest = where_below(parts, 0x40, each(0xE7), each(0xE8));
    (sum(b2, rest), sum(parts, each(0xC0)))
}

// A bit for each byte at which a unit ends.
//
// Proved:
//
// - ensures bits: `(i : ℕ) → i < 16 → result / 2 ^ i % 2 ≡ if ends_unit (slice_index b1 i)
//   (slice_index b0 i) then 1 else 0`
// - ensures bound: `result < 2 ^ 16`
#[inline(always)]
pub(crate) fn ended_bits(b1: u8x16, b0: u8x16) -> u64 {
    let one = where_below(b1, 0xE0, each(0xFF), each(0));
    set_bits(where_below(b0, 0xC0, one, each(0)))
}

// The high bytes and the low bytes of the units of any characters.
//
// Proved:
//
// - ensures highs: `HasLanes 16 result.0 (λ i. four_high (slice_index b2 i) (slice_index b1 i)
//   (slice_index b0 i))`
// - ensures lows: `HasLanes 16 result.1 (λ i. four_low (slice_index b2 i) (slice_index b1 i)
//   (slice_index b0 i))`
#[inline(always)]
pub(crate) fn four_bytes(b2: u8x16, b1: u8x16, b0: u8x16) -> (u8x16, u8x16) {
    let previous = previous_bytes(b1, b0);
    let highs = joined(high_bytes(b2, previous), trailing_bits(b2, previous));
    let (lead_highs, lead_lows) = leading_bytes(b2, b1, b0);
    // A leading surrogate ends two bytes after the first byte of four.
    (
        where_below(b2, 0xF0, highs, lead_highs),
        where_below(b2, 0xF0, low_bytes(previous, b0), lead_lows),
    )
}

// The high bytes of characters of three bytes.
//
// Proved:
//
// - ensures `HasLanes 16 result (λ i. three_high (slice_index b2 i) (slice_index b1 i))`
#[inline(always)]
pub(crate) fn three_highs(b2: u8x16, b1: u8x16) -> u8x16 {
    sum(up(b2, 4), masked(down(b1, 2), 0xF))
}

// The low bytes of characters of three bytes.
//
// Proved:
//
// - ensures `HasLanes 16 result (λ i. short_low (slice_index b1 i) (slice_index b0 i))`
#[inline(always)]
pub(crate) fn three_lows(b1: u8x16, b0: u8x16) -> u8x16 {
    sum(up(b1, 6), masked(b0, 0x3F))
}
