// packaging/erase wrote this from crates/utf16_from_utf8/src/lanes.rt: do not edit it.
//! SIMD operations on sixteen bytes, each with what it computes in the lane at `i`.

use crate::proved::simd::*;

// Proved:
//
// - ensures `HasLanes 16 result (λ i. byte)`
#[inline(always)]
pub(crate) fn each(byte: u8) -> u8x16 {
    u8x16::splat(byte)
}

// Proved:
//
// - ensures `HasLanes 16 result (λ i. bit_and (slice_index v i) mask)`
#[inline(always)]
pub(crate) fn masked(v: u8x16, mask: u8) -> u8x16 {
    v & u8x16::splat(mask)
}

// Proved:
//
// - ensures `HasLanes 16 result (λ i. (slice_index a i + slice_index b i) % 2 ^ 8)`
#[inline(always)]
pub(crate) fn sum(a: u8x16, b: u8x16) -> u8x16 {
    a + b
}

// Shifts the bits right.
//
// Proved:
//
// - requires `by < 8`
// - ensures `HasLanes 16 result (λ i. slice_index v i / 2 ^ by)`
#[inline(always)]
pub(crate) fn down(v: u8x16, by: u8) -> u8x16 {
    v >> u8x16::splat(by)
}

// Shifts the bits left, and drops the bits above a byte.
//
// Proved:
//
// - requires `by < 8`
// - ensures `HasLanes 16 result (λ i. slice_index v i * 2 ^ by % 2 ^ 8)`
#[inline(always)]
pub(crate) fn up(v: u8x16, by: u8) -> u8x16 {
    v << u8x16::splat(by)
}

// Selects the lane of `a` if the lane of `v` is below `limit`, else the lane of `b`.
//
// Proved:
//
// - ensures `HasLanes 16 result (λ i. if nat_lt (slice_index v i) limit then slice_index a i else
//   slice_index b i)`
#[inline(always)]
pub(crate) fn where_below(v: u8x16, limit: u8, a: u8x16, b: u8x16) -> u8x16 {
    v.simd_lt(u8x16::splat(limit)).select(a, b)
}

// The greater of the lanes at the same place.
//
// Proved:
//
// - ensures `HasLanes 16 result (λ i. if nat_lt (slice_index a i) (slice_index b i) then
//   slice_index b i else slice_index a i)`
#[inline(always)]
pub(crate) fn greater(a: u8x16, b: u8x16) -> u8x16 {
    a.simd_max(b)
}

// The lanes in two groups of sixteen.
//
// Proved:
//
// - ensures first: `result.0 ≡ chunk 0 16 v`
// - ensures second: `result.1 ≡ chunk 16 16 v`
#[inline(always)]
pub(crate) fn halves(v: u8x32) -> (u8x16, u8x16) {
    (v.extract::<0, 16>(), v.extract::<16, 16>())
}

// The byte before each one; before the first, `before`.
//
// Proved:
//
// - ensures `HasLanes 16 result (λ i. slice_index (before ∷ v) i)`
#[inline(always)]
pub(crate) fn previous_lanes(v: u8x16, before: u8) -> u8x16 {
    shuffle!(
        u8x16::splat(before),
        v,
        [15, 16, 17, 18, 19, 20, 21, 22, 23, 24, 25, 26, 27, 28, 29, 30,],
    )
}

// A bit for each byte that is not zero.
//
// Proved:
//
// - ensures bits: `(i : ℕ) → i < 16 → result / 2 ^ i % 2 ≡ if slice_index v i == 0 then 0 else 1`
// - ensures bound: `result < 2 ^ 16`
#[inline(always)]
pub(crate) fn set_bits(v: u8x16) -> u64 {
    v.simd_ne(u8x16::splat(0)).to_bitmask()
}
