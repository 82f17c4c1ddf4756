// packaging/erase wrote this from crates/utf16_units/src/text.rt: do not edit it.
//! Questions about the text that bytes encode: how many characters it has, and whether all are
//! ASCII.
//!
//! The count subtracts the trailing surrogates, and decodes nothing. Less than a block is walked:
//! the loop after the blocks takes up to three times as long on a few characters.

use crate::proved::simd::*;
use crate::proved::utf16_units::blocks::{is_ascii_block, units32};
use crate::proved::utf16_units::ends::first_char;
use crate::proved::utf16_units::surrogates::trailing_bits;
use crate::proved::utf16_units::{is_trailing_surrogate, Utf16Order};

// The number of bytes of a block. Shorter texts have loops without SIMD.
const BLOCK: usize = 64;

/// Returns the number of characters that `raw` encodes.
///
/// # Precondition
///
/// `raw` is well-formed UTF-16 in the byte order `E` (check with `validate_raw_utf16`).
///
/// # Complexity
///
/// One pass: each character has one code unit that is not a trailing surrogate.
///
/// Proved:
///
/// - requires `IsUtf16 E.BIG raw.now`
/// - ensures `result ≡ length (text_of E.BIG raw.now)`
pub fn count_chars<E: Utf16Order>(raw: &[u8]) -> usize {
    if raw.len() < BLOCK {
        count_few::<E>(raw)
    } else {
        raw.len() / 2 - trailing_units::<E>(raw)
    }
}

// The number of characters of a short text, counted one by one. Not inlined, so that the compiler
// optimizes the loop separately.
//
// Proved:
//
// - requires `IsUtf16 E.BIG raw.now`
// - ensures `result ≡ length (text_of E.BIG raw.now)`
#[inline]
fn count_few<E: Utf16Order>(raw: &[u8]) -> usize {
    let mut count = 0;
    let mut rest = raw;
    while !rest.is_empty() {
        let (_, size) = first_char::<E>(rest);
        rest = &rest[size..];
        count += 1;
    }
    count
}

/// Returns the number of code units that are trailing surrogates, in any bytes. A last odd byte is
/// not part of a code unit.
///
/// # Complexity
///
/// One pass.
///
/// Proved:
///
/// - ensures `result ≡ count_by is_low_surrogate (units_of E.BIG raw.now)`
pub fn trailing_units<E: Utf16Order>(raw: &[u8]) -> usize {
    let mut at = 0;
    let mut trailing: usize = 0;
    while raw.len() - at >= BLOCK {
        let block = u8x64::from_slice(&raw[at..]);
        trailing += trailing_bits(units32::<E>(block)).count_ones() as usize;
        at += BLOCK;
    }
    for unit in raw[at..].chunks_exact(2) {
        trailing += is_trailing_surrogate(E::read_unit(crate::proved::kit::two(unit, 0))) as usize;
    }
    trailing
}

/// Returns `true` if every character is ASCII.
///
/// # Precondition
///
/// `raw` is well-formed UTF-16 in the byte order `E` (check with `validate_raw_utf16`).
///
/// # Complexity
///
/// One pass, up to the first block that has a non-ASCII character.
///
/// Proved:
///
/// - requires `IsUtf16 E.BIG raw.now`
/// - ensures `IsTrue result ↔ All (λ c. c < 0x80) (text_of E.BIG raw.now)`
pub fn is_ascii<E: Utf16Order>(raw: &[u8]) -> bool {
    if raw.len() < BLOCK {
        has_few_ascii_units::<E>(raw)
    } else {
        has_ascii_units::<E>(raw)
    }
}

/// Returns `true` if every code unit is ASCII, in any bytes. A last odd byte is not part of a code
/// unit.
///
/// # Complexity
///
/// One pass, up to the first block that has a non-ASCII code unit.
///
/// Proved:
///
/// - ensures `IsTrue result ↔ All (λ unit. unit < 0x80) (units_of E.BIG raw.now)`
pub fn has_ascii_units<E: Utf16Order>(raw: &[u8]) -> bool {
    let mut at = 0;
    while raw.len() - at >= BLOCK {
        if !is_ascii_block::<E>(u8x64::from_slice(&raw[at..])) {
            return false;
        }
        at += BLOCK;
    }
    has_few_ascii_units::<E>(&raw[at..])
}

// Whether every code unit is ASCII, tested one by one. Not inlined, so that the compiler optimizes
// the loop separately.
//
// Proved:
//
// - ensures `IsTrue result ↔ All (λ unit. unit < 0x80) (units_of E.BIG raw.now)`
#[inline]
fn has_few_ascii_units<E: Utf16Order>(raw: &[u8]) -> bool {
    let mut at = 0;
    for unit in raw[at..].chunks_exact(2) {
        if E::read_unit(crate::proved::kit::two(unit, 0)) >= 0x80 {
            return false;
        }
    }
    true
}
