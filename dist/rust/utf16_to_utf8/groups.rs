// packaging/erase wrote this from crates/utf16_to_utf8/src/groups.rt: do not edit it.
//! The UTF-8 that several units add, with SIMD: the bytes that a unit of some kind adds, and which
//! of these each unit adds.
//!
//! The bits of a unit carry the tag bits of its bytes, so that additions replace choices.

use crate::proved::simd::*;
use crate::proved::utf16_to_utf8::lanes::{
    down, each, larger, left, masked, sum, up, where_below, where_surrogate,
};

// Proved:
//
// - ensures `HasLanes N result (λ i. two_bytes (slice_index marks.entry i) (slice_index bits.entry
//   i))`
#[inline(always)]
fn two_bytes<const N: usize>(marks: Simd<u16, N>, bits: Simd<u16, N>) -> Simd<u16, N> {
    sum(sum(down(bits, 6), marks), up(masked(bits, 0x3F), 8))
}

// The payload bits of the two bytes of surrogates, with the tag bits of the first byte above them.
// If the unit is leading, `leading` is the larger one, else it is zero.
//
// Proved:
//
// - ensures `HasLanes N result (λ i. surrogate_bits (slice_index preceding.entry i) (slice_index
//   units.entry i))`
#[inline(always)]
fn surrogate_bits<const N: usize>(preceding: Simd<u16, N>, units: Simd<u16, N>) -> Simd<u16, N> {
    let leading = left(down(sum(units, each(0x2400)), 2), each(0x2F0));
    let trailing = sum(up(masked(preceding, 3), 10), sum(units, each(0x4400)));
    larger(leading, trailing)
}

// The two bytes of units that add at most two; unspecified for other units.
//
// Proved:
//
// - requires `surrogates ≡ false → (i : ℕ) → i < N → slice_index units i < 0x800`
// - ensures `HasLanes N result (λ i. narrow (slice_index preceding.entry i) (slice_index
//   units.entry i))`
#[inline(always)]
pub(crate) fn narrow<const N: usize>(
    preceding: Simd<u16, N>,
    units: Simd<u16, N>,
    surrogates: bool,
) -> Simd<u16, N> {
    if !surrogates {
        return where_below(units, 0x80, units, two_bytes(each(0x80C0), units));
    }
    let letters = sum(units, each(0x3000));
    let bits = where_below(units, 0x8000, letters, surrogate_bits(preceding, units));
    where_below(units, 0x80, units, two_bytes(each(0x8000), bits))
}

// The first two bytes of units that add three.
//
// Proved:
//
// - ensures `HasLanes N result (λ i. wide (slice_index units.entry i))`
#[inline(always)]
pub(crate) fn wide<const N: usize>(units: Simd<u16, N>) -> Simd<u16, N> {
    two_bytes(each(0x80E0), down(units, 6))
}

// The third bytes of units that add three.
//
// Proved:
//
// - ensures `HasLanes N result (λ i. third (slice_index units.entry i))`
#[inline(always)]
pub(crate) fn thirds<const N: usize>(units: Simd<u16, N>) -> Simd<u16, N> {
    sum(masked(units, 0x3F), each(0x80))
}

// The first byte of units that add three, and above it the only byte of ASCII units.
//
// Proved:
//
// - ensures `HasLanes N result (λ i. outer (slice_index units.entry i))`
#[inline(always)]
pub(crate) fn outers<const N: usize>(units: Simd<u16, N>) -> Simd<u16, N> {
    sum(up(units, 8), sum(down(units, 12), each(0xE0)))
}

// The last two bytes of units that add two or three. Their payload bits have the tag bits of the
// first one above them.
//
// Proved:
//
// - requires `surrogates ≡ false → (i : ℕ) → i < N → is_surrogate (slice_index units i) ≡ false`
// - ensures `HasLanes N result (λ i. ending (slice_index preceding.entry i) (slice_index
//   units.entry i))`
#[inline(always)]
pub(crate) fn endings<const N: usize>(
    preceding: Simd<u16, N>,
    units: Simd<u16, N>,
    surrogates: bool,
) -> Simd<u16, N> {
    let tags = sum(each(0x2000), down(lows(units), 3));
    let bits = sum(masked(units, 0xFFF), tags);
    if !surrogates {
        return two_bytes(each(0x8000), bits);
    }
    let surrogate_bits = surrogate_bits(preceding, units);
    two_bytes(each(0x8000), where_surrogate(units, surrogate_bits, bits))
}

// In the low half of a lane the upper bit is set if the unit adds one byte, in the high half if it
// adds at most two. No other bit is read.
//
// Proved:
//
// - requires `surrogates ≡ false → (i : ℕ) → i < N → is_surrogate (slice_index units i) ≡ false`
// - ensures `HasLanes N result (λ i. absence (slice_index units.entry i))`
#[inline(always)]
pub(crate) fn absences<const N: usize>(units: Simd<u16, N>, surrogates: bool) -> Simd<u16, N> {
    let ones = left(each(0xFF), units);
    if !surrogates {
        return sum(lows(units), ones);
    }
    sum(where_surrogate(units, each(0x8000), lows(units)), ones)
}

// The upper bit, if the unit is below U+0800.
//
// Proved:
//
// - ensures `HasLanes N result (λ i. low (slice_index units.entry i))`
#[inline(always)]
fn lows<const N: usize>(units: Simd<u16, N>) -> Simd<u16, N> {
    masked(left(each(0x87FF), units), 0x8000)
}
