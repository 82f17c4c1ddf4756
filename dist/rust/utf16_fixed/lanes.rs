// packaging/erase wrote this from crates/utf16_fixed/src/lanes.rt: do not edit it.
//! Blocks of code units compared with limits, of UTF-32 and of its low units.

use crate::proved::simd::*;
use crate::proved::utf16_units::surrogates::plain_len;

// A bit for each unit above a limit.
//
// Proved:
//
// - requires `N ≤ 64`
// - ensures `result ≡ mask_l (map (above limit) units.entry)`
#[inline(always)]
pub(crate) fn bits_above<const N: usize>(units: Simd<u32, N>, limit: u32) -> u64 {
    units.simd_gt(Simd::splat(limit)).to_bitmask()
}

// The number of units before the first above a limit, or of all units if there is none.
//
// Proved:
//
// - requires `N ≤ 64`
// - ensures few: `result ≤ N`
// - ensures up_to: `All (λ unit. unit ≤ limit) (take result units.entry)`
#[inline(always)]
pub(crate) fn len_up_to<const N: usize>(units: Simd<u32, N>, limit: u32) -> usize {
    let others = bits_above(units, limit);
    if others == 0 {
        N
    } else {
        others.trailing_zeros() as usize
    }
}

// Whether all units are scalar values: at most 0x10FFFF, and no surrogates.
//
// Proved:
//
// - requires `N ≤ 64`
// - ensures `IsTrue result → All IsScalar units.entry`
#[inline(always)]
pub(crate) fn are_scalars<const N: usize>(units: Simd<u32, N>) -> bool {
    bits_above(units, 0x10_FFFF) == 0 && has_no_surrogate(units)
}

// The units, each of them at most 0xFFFF.
//
// Proved:
//
// - ensures `result ≡ map low_unit units.entry`
#[inline(always)]
pub(crate) fn low_units<const N: usize>(units: Simd<u32, N>) -> Simd<u16, N> {
    units.simd_min(Simd::splat(0xFFFF)).cast::<u16>()
}

// Whether all low units are below 0xFFFF and no surrogates. A low unit of 0xFFFF may be of a
// greater unit. The least and the greatest lanes of both are tested, which takes fewer tests.
//
// Proved:
//
// - ensures first: `IsTrue result → All IsBasicLow first`
// - ensures second: `IsTrue result → All IsBasicLow second`
#[inline(always)]
pub(crate) fn are_basic(first: u16x16, second: u16x16) -> bool {
    let least = lesser(from_surrogates(first), from_surrogates(second));
    are_below(greater(first, second), 0xFFFF) && are_from(least, 0x800)
}

// The number of units before the first that is a surrogate or above 0xFFFF, by the units and their
// low units.
//
// Proved:
//
// - requires few: `N ≤ 64`
// - requires low: `low ≡ map low_unit units`
// - ensures few: `result ≤ N`
// - ensures basic: `AreBasic (take result units.entry)`
#[inline(always)]
pub(crate) fn basic_len<const N: usize>(units: Simd<u32, N>, low: Simd<u16, N>) -> usize {
    plain_len(low).min(len_up_to(units, 0xFFFF))
}

// How far the units are above 0xD800, the first surrogate. The surrogates are the 0x800 units from
// there.
//
// Proved:
//
// - ensures `result ≡ map from_surrogates units`
#[inline(always)]
fn from_surrogates(units: u16x16) -> u16x16 {
    units - u16x16::splat(0xD800)
}

// The lesser of the lanes at the same place.
//
// Proved:
//
// - ensures `(limit : ℕ) → All (λ unit. limit ≤ unit) result → (All (λ unit. limit ≤ unit) first ×
//   All (λ unit. limit ≤ unit) second)`
#[inline(always)]
fn lesser(first: u16x16, second: u16x16) -> u16x16 {
    first.simd_min(second)
}

// The greater of the lanes at the same place.
//
// Proved:
//
// - ensures `(limit : ℕ) → All (λ unit. unit < limit) result → (All (λ unit. unit < limit) first ×
//   All (λ unit. unit < limit) second)`
#[inline(always)]
fn greater(first: u16x16, second: u16x16) -> u16x16 {
    first.simd_max(second)
}

// Whether all code units are below a limit.
//
// Proved:
//
// - requires `N ≤ 64`
// - ensures `IsTrue result ↔ All (λ unit. unit < limit) units.entry`
#[inline(always)]
pub(crate) fn are_below<const N: usize>(units: Simd<u16, N>, limit: u16) -> bool {
    units.simd_ge(Simd::splat(limit)).to_bitmask() == 0
}

// Whether no unit is below a limit.
//
// Proved:
//
// - ensures `IsTrue result → All (λ unit. limit ≤ unit) units`
#[inline(always)]
fn are_from(units: u16x16, limit: u16) -> bool {
    units.simd_lt(u16x16::splat(limit)).to_bitmask() == 0
}

// Whether no lane is a surrogate. Tested as whole units, because the units are there anyway: their
// high bytes would have to be packed first.
//
// Proved:
//
// - requires `N ≤ 64`
// - ensures `IsTrue result → HasNoSurrogate units.entry`
#[inline(always)]
pub(crate) fn has_no_low_surrogate<const N: usize>(units: Simd<u16, N>) -> bool {
    (units >> Simd::splat(11))
        .simd_eq(Simd::splat(0x1B))
        .to_bitmask()
        == 0
}

// Whether no unit is a surrogate: the surrogates are from 0xD800 to 0xDFFF.
//
// Proved:
//
// - requires `N ≤ 64`
// - ensures `IsTrue result → All (λ unit. unit / 0x800 ≢ 0x1B) units.entry`
#[inline(always)]
fn has_no_surrogate<const N: usize>(units: Simd<u32, N>) -> bool {
    (units >> Simd::splat(11))
        .simd_eq(Simd::splat(0x1B))
        .to_bitmask()
        == 0
}
