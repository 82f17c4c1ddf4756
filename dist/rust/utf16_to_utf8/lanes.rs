// packaging/erase wrote this from crates/utf16_to_utf8/src/lanes.rt: do not edit it.
//! SIMD operations on lanes of sixteen bits, with what each computes per lane.
//!
//! They are generic over the number of lanes: sixteen fill one register of x86-64-v3, and two of
//! x86-64-v2.

use crate::proved::simd::*;

// Proved:
//
// - ensures `HasLanes N result (λ i. unit)`
#[inline(always)]
pub(crate) fn each<const N: usize>(unit: u16) -> Simd<u16, N> {
    Simd::splat(unit)
}

// Proved:
//
// - ensures `HasLanes N result (λ i. plus (slice_index a.entry i) (slice_index b.entry i))`
#[inline(always)]
pub(crate) fn sum<const N: usize>(a: Simd<u16, N>, b: Simd<u16, N>) -> Simd<u16, N> {
    a + b
}

// What is left of the lanes of `a` less those of `b`, at least zero.
//
// Proved:
//
// - ensures `HasLanes N result (λ i. slice_index a.entry i - slice_index b.entry i)`
#[inline(always)]
pub(crate) fn left<const N: usize>(a: Simd<u16, N>, b: Simd<u16, N>) -> Simd<u16, N> {
    a.saturating_sub(b)
}

// Proved:
//
// - ensures `HasLanes N result (λ i. bit_and (slice_index v.entry i) mask)`
#[inline(always)]
pub(crate) fn masked<const N: usize>(v: Simd<u16, N>, mask: u16) -> Simd<u16, N> {
    v & Simd::splat(mask)
}

// Proved:
//
// - requires `bits < 16`
// - ensures `HasLanes N result (λ i. slice_index v.entry i / 2 ^ bits)`
#[inline(always)]
pub(crate) fn down<const N: usize>(v: Simd<u16, N>, bits: u16) -> Simd<u16, N> {
    v >> Simd::splat(bits)
}

// Proved:
//
// - requires `bits < 16`
// - ensures `HasLanes N result (λ i. up (slice_index v.entry i) bits)`
#[inline(always)]
pub(crate) fn up<const N: usize>(v: Simd<u16, N>, bits: u16) -> Simd<u16, N> {
    v << Simd::splat(bits)
}

// Whether no lane has one of these bits.
//
// Proved:
//
// - ensures `IsTrue result → All (λ lane. bit_and lane bits ≡ 0) v.entry`
#[inline(always)]
pub(crate) fn have_none<const N: usize>(v: Simd<u16, N>, bits: u16) -> bool {
    (v & Simd::splat(bits)).reduce_or() == 0
}

// The low bytes of lanes of ASCII. The limits change nothing. With them LLVM narrows two vectors by
// one instruction, and without them it masks each vector first.
//
// Proved:
//
// - requires ascii: `All (λ unit. unit < 0x80) v`
// - ensures `result ≡ v.entry`
#[inline(always)]
pub(crate) fn low_bytes<const N: usize>(v: Simd<u16, N>) -> Simd<u8, N> {
    v.cast::<i16>()
        .simd_max(Simd::splat(0))
        .simd_min(Simd::splat(0xFF))
        .cast()
}

// The larger of the lanes at the same place.
//
// Proved:
//
// - ensures `HasLanes N result (λ i. if nat_lt (slice_index a.entry i) (slice_index b.entry i) then
//   slice_index b.entry i else slice_index a.entry i)`
#[inline(always)]
pub(crate) fn larger<const N: usize>(a: Simd<u16, N>, b: Simd<u16, N>) -> Simd<u16, N> {
    a.simd_max(b)
}

// The smaller of the lanes at the same place.
//
// Proved:
//
// - ensures `HasLanes N result (λ i. if nat_lt (slice_index a.entry i) (slice_index b.entry i) then
//   slice_index a.entry i else slice_index b.entry i)`
#[inline(always)]
pub(crate) fn smaller<const N: usize>(a: Simd<u16, N>, b: Simd<u16, N>) -> Simd<u16, N> {
    a.simd_min(b)
}

// Selects the lane of `a` if the lane of `v` is below `limit`, else the lane of `b`.
//
// Proved:
//
// - ensures `HasLanes N result (λ i. if nat_lt (slice_index v.entry i) limit then slice_index
//   a.entry i else slice_index b.entry i)`
#[inline(always)]
pub(crate) fn where_below<const N: usize>(
    v: Simd<u16, N>,
    limit: u16,
    a: Simd<u16, N>,
    b: Simd<u16, N>,
) -> Simd<u16, N> {
    v.simd_lt(Simd::splat(limit)).select(a, b)
}

// Selects the lane of `a` if the lane of `v` is a surrogate, else the lane of `b`.
//
// Proved:
//
// - ensures `HasLanes N result (λ i. if is_surrogate (slice_index v.entry i) then slice_index
//   a.entry i else slice_index b.entry i)`
#[inline(always)]
pub(crate) fn where_surrogate<const N: usize>(
    v: Simd<u16, N>,
    a: Simd<u16, N>,
    b: Simd<u16, N>,
) -> Simd<u16, N> {
    (v & Simd::splat(0xF800))
        .simd_eq(Simd::splat(0xD800))
        .select(a, b)
}

// The lane before each one; before the first, the last lane of `previous`.
//
// Proved:
//
// - ensures `HasLanes 16 result (λ i. slice_index (slice_index previous 15 ∷ v) i)`
#[inline(always)]
pub(crate) fn previous_lanes(previous: u16x16, v: u16x16) -> u16x16 {
    shuffle!(
        previous,
        v,
        [15, 16, 17, 18, 19, 20, 21, 22, 23, 24, 25, 26, 27, 28, 29, 30,],
    )
}

// The lane before each one of eight.
//
// Proved:
//
// - ensures `HasLanes 8 result (λ i. slice_index (slice_index previous 7 ∷ v) i)`
#[inline(always)]
pub(crate) fn previous_eight(previous: u16x8, v: u16x8) -> u16x8 {
    shuffle!(previous, v, [7, 8, 9, 10, 11, 12, 13, 14])
}

// Sixteen lanes whose last one is the last of eight.
//
// Proved:
//
// - ensures `slice_index result 15 ≡ slice_index v 7`
#[inline(always)]
pub(crate) fn doubled(v: u16x8) -> u16x16 {
    shuffle!(v, v, [0, 1, 2, 3, 4, 5, 6, 7, 0, 1, 2, 3, 4, 5, 6, 7])
}

// The lanes in two groups of eight.
//
// Proved:
//
// - ensures low: `result.0 ≡ chunk 0 8 v`
// - ensures high: `result.1 ≡ chunk 8 8 v`
#[inline(always)]
pub(crate) fn eights(v: u16x16) -> (u16x8, u16x8) {
    (v.extract::<0, 8>(), v.extract::<8, 8>())
}

// The lanes in two groups of sixteen.
//
// Proved:
//
// - ensures low: `result.0 ≡ chunk 0 16 v`
// - ensures high: `result.1 ≡ chunk 16 16 v`
#[inline(always)]
pub(crate) fn sixteens(v: u16x32) -> (u16x16, u16x16) {
    (v.extract::<0, 16>(), v.extract::<16, 16>())
}
