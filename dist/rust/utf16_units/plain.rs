// packaging/erase wrote this from crates/utf16_units/src/plain.rt: do not edit it.
//! Bytes without a surrogate: a test for short texts, and how many such bytes a long text begins
//! with.
//!
//! Two reads that overlap cover every length from 8 to 64 bytes. A single unit is tested first: 1.3
//! ns, and 2.6 to 2.9 ns after other lengths, because a chain of tests compiles to a jump table.
//! The test is public, so that the call for C makes it without a stack frame.

use crate::proved::simd::*;
use crate::proved::utf16_units::blocks::{units16, units32, units4, units8};
use crate::proved::utf16_units::surrogates::{has_no_surrogate, plain_len};
use crate::proved::utf16_units::Utf16Order;

// The number of bytes before the first surrogate of the first sixty-four bytes: 64 if they have
// none, and 0 if there are fewer bytes.
//
// Proved:
//
// - ensures within: `result ≤ length raw.now`
// - ensures most: `result ≤ 64`
// - ensures plain: `HasNoSurrogate (units_of E.BIG (take result raw.now))`
// - ensures text: `IsUtf16 E.BIG (take result raw.now)`
// - ensures stop: `64 ≤ length raw.now → (result ≡ 64) ⊎ (¬ IsNoSurrogate (unit_of E.BIG
//   (slice_index raw.now result) (slice_index raw.now (result + 1))))`
// - ensures few: `length raw.now < 64 → result ≡ 0`
#[inline(always)]
pub(crate) fn plain_prefix_len<E: Utf16Order>(raw: &[u8]) -> usize {
    if raw.len() < 64 {
        return 0;
    }
    2 * plain_len(units32::<E>(u8x64::from_slice(raw)))
}

/// Returns `true` if `raw` has at most sixty-four bytes, and these are whole code units without a
/// surrogate. It reads eight bytes or more as two blocks, the first and the last bytes, which may
/// overlap.
///
/// # Complexity
///
/// Constant time.
///
/// Proved:
///
/// - ensures plain: `IsTrue result ↔ ((length raw.now ≤ 64) × (length raw.now % 2 ≡ 0) ×
///   HasNoSurrogate (units_of E.BIG raw.now))`
/// - ensures text: `IsTrue result → IsUtf16 E.BIG raw.now`
#[inline(always)]
pub fn is_short_plain<E: Utf16Order>(raw: &[u8]) -> bool {
    // Tested first: on the shortest text, the cost of any earlier test would be visible.
    if raw.len() == 2 {
        return is_no_surrogate::<E>(crate::proved::kit::two(raw, 0));
    }
    if raw.len() < 8 {
        return is_plain_few::<E>(raw);
    }
    if raw.len() > 64 {
        return false;
    }
    raw.len() % 2 == 0 && has_no_surrogate_short::<E>(raw)
}

// Whether none of four to thirty-two units is a surrogate.
//
// Proved:
//
// - requires some: `8 ≤ length raw.now`
// - requires short: `length raw.now ≤ 64`
// - requires even: `length raw.now % 2 ≡ 0`
// - ensures `IsTrue result ↔ HasNoSurrogate (units_of E.BIG raw.now)`
#[inline(always)]
fn has_no_surrogate_short<E: Utf16Order>(raw: &[u8]) -> bool {
    let len = raw.len();
    if len < 16 {
        has_no_surrogate(units4::<E>(u8x8::from_slice(raw)))
            && has_no_surrogate(units4::<E>(u8x8::from_slice(&raw[len - 8..])))
    } else if len < 32 {
        has_no_surrogate(units8::<E>(u8x16::from_slice(raw)))
            && has_no_surrogate(units8::<E>(u8x16::from_slice(&raw[len - 16..])))
    } else {
        has_no_surrogate(units16::<E>(u8x32::from_slice(raw)))
            && has_no_surrogate(units16::<E>(u8x32::from_slice(&raw[len - 32..])))
    }
}

// Whether fewer than eight bytes, and not two, are whole code units without a surrogate.
//
// Proved:
//
// - requires short: `length raw.now < 8`
// - requires other: `length raw.now ≢ 2`
// - ensures `IsTrue result ↔ ((length raw.now % 2 ≡ 0) × HasNoSurrogate (units_of E.BIG raw.now))`
#[inline(always)]
fn is_plain_few<E: Utf16Order>(raw: &[u8]) -> bool {
    if raw.len() == 4 {
        return is_no_surrogate::<E>(crate::proved::kit::two(raw, 0))
            & is_no_surrogate::<E>(crate::proved::kit::two(raw, 2));
    }
    if raw.len() == 6 {
        return is_no_surrogate::<E>(crate::proved::kit::two(raw, 0))
            & is_no_surrogate::<E>(crate::proved::kit::two(raw, 2))
            & is_no_surrogate::<E>(crate::proved::kit::two(raw, 4));
    }
    raw.is_empty()
}

// Whether a unit is not a surrogate: the surrogates are the units from 0xD800 to 0xDFFF.
//
// Proved:
//
// - ensures `IsTrue result ↔ IsNoSurrogate (unit_of E.BIG (slice_index unit 0) (slice_index unit
//   1))`
#[inline(always)]
fn is_no_surrogate<E: Utf16Order>(unit: [u8; 2]) -> bool {
    E::read_unit(unit) / 0x800 != 0x1B
}
