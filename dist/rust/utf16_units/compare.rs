// packaging/erase wrote this from crates/utf16_units/src/compare.rt: do not edit it.
//! Comparison of two texts by scalar values, computed on their bytes.

use crate::proved::simd::*;
use crate::proved::utf16_units::Utf16Order;
use core::cmp::Ordering;

/// Compares two texts by scalar values.
///
/// # Precondition
///
/// Both are well-formed UTF-16 in the byte order `E` (check with `validate_raw_utf16`).
///
/// # Complexity
///
/// Reads both up to the first code unit that differs, their common prefix in blocks.
///
/// Proved:
///
/// - requires first_well_formed: `IsUtf16 E.BIG first.now`
/// - requires second_well_formed: `IsUtf16 E.BIG second.now`
/// - ensures less: `result ≡ Less ↔ IsBefore (text_of E.BIG first.now) (text_of E.BIG second.now)`
/// - ensures equal: `result ≡ Equal ↔ (text_of E.BIG first.now ≡ text_of E.BIG second.now)`
/// - ensures greater: `result ≡ Greater ↔ IsBefore (text_of E.BIG second.now) (text_of E.BIG
///   first.now)`
/// - ensures computed: `result ≡ slice_cmp nat_cmp (text_of E.BIG first.now) (text_of E.BIG
///   second.now)`
pub fn compare<E: Utf16Order>(first: &[u8], second: &[u8]) -> Ordering {
    let far = same_pairs::<64>(first, second, 0);
    let near = same_pairs::<32>(first, second, far);
    let nearest = same_blocks::<16>(first, second, near);
    compare_units::<E>(first, second, nearest)
}

// The end of a common prefix of whole code units, found from `from` on by pairs of blocks of `N`
// bytes. It stops before a pair that differs: to look for the byte in every block takes nearly
// twice as long.
//
// Proved:
//
// - requires lanes: `(0 < N) × (N ≤ 64) × (N % 2 ≡ 0)`
// - requires same_before: `SameTo first.now second.now from`
// - ensures `SameTo first.now second.now result`
#[inline]
fn same_pairs<const N: usize>(first: &[u8], second: &[u8], from: usize) -> usize {
    let both = first.len().min(second.len());
    let mut at = from;
    while both - at >= 2 * N {
        let front = differing::<N>(first, second, at);
        let back = differing::<N>(first, second, at + N);
        if front | back != 0 {
            return at;
        }
        at += 2 * N;
    }
    at
}

// The end of a common prefix of whole code units, found from `from` on by blocks of `N` bytes.
//
// Proved:
//
// - requires lanes: `(0 < N) × (N ≤ 64) × (N % 2 ≡ 0)`
// - requires same_before: `SameTo first.now second.now from`
// - ensures `SameTo first.now second.now result`
#[inline]
fn same_blocks<const N: usize>(first: &[u8], second: &[u8], from: usize) -> usize {
    let mut at = from;
    while first.len() - at >= N && second.len() - at >= N {
        let same = differing::<N>(first, second, at).trailing_zeros() as usize;
        if same < N {
            return at + same / 2 * 2;
        }
        at += N;
    }
    at
}

// A bit for each byte of a block that differs.
//
// Proved:
//
// - requires lanes: `(0 < N) × (N ≤ 64)`
// - requires within: `at + N ≤ length first.now`
// - requires other_within: `at + N ≤ length second.now`
// - ensures `result ≡ differing at N first.now second.now`
#[inline(always)]
fn differing<const N: usize>(first: &[u8], second: &[u8], at: usize) -> u64 {
    Simd::<u8, N>::from_slice(&first[at..])
        .simd_ne(Simd::from_slice(&second[at..]))
        .to_bitmask()
}

// Compares by the first code unit that differs; the bytes before `from` are the same.
//
// Proved:
//
// - requires first_well_formed: `IsUtf16 E.BIG first.now`
// - requires second_well_formed: `IsUtf16 E.BIG second.now`
// - requires same_before: `SameTo first.now second.now from`
// - ensures `result ≡ units_cmp E.BIG first.now second.now`
#[inline]
fn compare_units<E: Utf16Order>(first: &[u8], second: &[u8], from: usize) -> Ordering {
    let mut at = from;
    while first.len() - at >= 2 && second.len() - at >= 2 {
        let unit = E::read_unit(crate::proved::kit::two(first, at));
        let other = E::read_unit(crate::proved::kit::two(second, at));
        if unit != other {
            return rank(unit).cmp(&rank(other));
        }
        at += 2;
    }
    first.len().cmp(&second.len())
}

// The rank of a code unit among all, with surrogates above the others.
//
// Proved:
//
// - ensures `result ≡ unit_rank unit`
#[inline]
fn rank(unit: u16) -> u16 {
    match unit {
        0..=0xD7FF => unit,
        0xD800..=0xDFFF => unit + 0x2000,
        0xE000..=0xFFFF => unit - 0x800,
    }
}
