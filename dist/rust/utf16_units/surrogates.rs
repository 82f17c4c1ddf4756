// packaging/erase wrote this from crates/utf16_units/src/surrogates.rt: do not edit it.
//! The surrogates of a block of code units, as bits.
//!
//! Only high bytes are compared, because twice as many fit into a register: whole units take 1.2 to
//! 1.3 times as long on emoji and on ASCII in big endian. Surrogates are paired exactly if the bits
//! of the trailing ones are those of the leading ones, moved by one. So one comparison of integers
//! tests all pairs of a block.

use crate::proved::simd::*;

// The high bytes of the units. A register holds twice as many of them as of units.
//
// Proved:
//
// - ensures `result ≡ map high_byte units.entry`
#[inline(always)]
fn high_bytes<const N: usize>(units: Simd<u16, N>) -> Simd<u8, N> {
    (units >> Simd::splat(8)).cast::<u8>()
}

/// Returns a bit for each unit whose high byte has the bits `class` under the mask `mask`.
///
/// Proved:
///
/// - requires `N ≤ 64`
/// - ensures `result ≡ mask_l (map (λ unit. bit_and (high_byte unit) mask == class) units.entry)`
#[inline(always)]
pub fn class_bits<const N: usize>(units: Simd<u16, N>, mask: u8, class: u8) -> u64 {
    (high_bytes(units) & Simd::splat(mask))
        .simd_eq(Simd::splat(class))
        .to_bitmask()
}

// A bit for each leading surrogate.
//
// Proved:
//
// - requires `N ≤ 64`
// - ensures `result ≡ mask_l (map is_high_surrogate units.entry)`
#[inline(always)]
pub(crate) fn leading_bits<const N: usize>(units: Simd<u16, N>) -> u64 {
    class_bits(units, 0xFC, 0xD8)
}

// A bit for each trailing surrogate.
//
// Proved:
//
// - requires `N ≤ 64`
// - ensures `result ≡ mask_l (map is_low_surrogate units.entry)`
#[inline(always)]
pub(crate) fn trailing_bits<const N: usize>(units: Simd<u16, N>) -> u64 {
    class_bits(units, 0xFC, 0xDC)
}

/// Returns `Some` if the surrogates are paired: a unit is trailing exactly if the unit before it is
/// leading. `before` says whether the unit before the block is leading, and the result whether the
/// last unit is.
///
/// Proved:
///
/// - requires `N ≤ 32`
/// - ensures some: `IfSome result (λ after. Paired before units.entry after)`
/// - ensures none: `IfNone result (Unpaired before units.entry)`
#[inline(always)]
pub fn paired<const N: usize>(units: Simd<u16, N>, before: bool) -> Option<bool> {
    let expected = 2 * leading_bits(units) + before as u64;
    if trailing_bits(units) == expected % (1 << N) {
        Some(expected >= 1 << N)
    } else {
        None
    }
}

// Whether the surrogates of the units from `from` on are paired, by themselves.
//
// Proved:
//
// - requires few: `N ≤ 32`
// - requires within: `from ≤ N`
// - ensures `IsTrue result ↔ Paired false (drop from units.entry) false`
#[inline(always)]
pub(crate) fn paired_from<const N: usize>(units: Simd<u16, N>, from: usize) -> bool {
    trailing_bits(units) >> from == 2 * (leading_bits(units) >> from)
}

/// Returns whether no unit is a surrogate.
///
/// Proved:
///
/// - requires `N ≤ 64`
/// - ensures `IsTrue result ↔ HasNoSurrogate units.entry`
#[inline(always)]
pub fn has_no_surrogate<const N: usize>(units: Simd<u16, N>) -> bool {
    class_bits(units, 0xF8, 0xD8) == 0
}

/// Returns the number of units before the first surrogate, or of all units if there is none.
///
/// # Precondition
///
/// There are at most sixty-four units.
///
/// Proved:
///
/// - requires `N ≤ 64`
/// - ensures few: `result ≤ N`
/// - ensures plain: `HasNoSurrogate (take result units.entry)`
/// - ensures stop: `result < N → ¬ IsNoSurrogate (slice_index units.entry result)`
#[inline(always)]
pub fn plain_len<const N: usize>(units: Simd<u16, N>) -> usize {
    let surrogates = class_bits(units, 0xF8, 0xD8);
    if surrogates == 0 {
        N
    } else {
        surrogates.trailing_zeros() as usize
    }
}
