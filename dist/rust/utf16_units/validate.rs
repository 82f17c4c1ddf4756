// packaging/erase wrote this from crates/utf16_units/src/validate.rt: do not edit it.
//! Validation of UTF-16.
//!
//! A block has to be right only if it accepts: the loop over units finds the error, with the proof
//! that it did. The contracts also say where blocks stop, so blocks that accept less than they
//! could are not proved.
//!
//! Blocks without a surrogate have loops that look for no pairs. After a surrogate these are tried
//! again every 256 bytes, so that pairs rarely pay for both tests. If the first surrogate is
//! unpaired, no pairs are looked for: random bytes take a third less time.

use crate::proved::simd::*;
use crate::proved::utf16_units::blocks::{units16, units32};
use crate::proved::utf16_units::plain::{is_short_plain, plain_prefix_len};
use crate::proved::utf16_units::surrogates::{has_no_surrogate, leading_bits, paired, paired_from};
use crate::proved::utf16_units::{is_trailing_surrogate, Utf16Error, Utf16Order};

/// Tests whether `raw` is well-formed UTF-16 in the byte order `E`.
///
/// # Errors
///
/// [`Utf16Error`], if `raw` is ill-formed: the length of the longest valid prefix and what follows
/// it.
///
/// # Complexity
///
/// One pass.
///
/// Proved:
///
/// - ensures ok: `IsOk result ↔ IsUtf16 E.BIG raw.now`
/// - ensures error: `IfErr result (IsErrorOf E.BIG raw.now)`
#[inline(always)]
pub fn validate_raw_utf16<E: Utf16Order>(raw: &[u8]) -> Result<(), Utf16Error> {
    if is_short_plain::<E>(raw) {
        return Ok(());
    }
    let valid_up_to = valid_len::<E>(raw);
    if valid_up_to == raw.len() {
        return Ok(());
    }
    Err(Utf16Error {
        valid_up_to,
        error_len: error_len::<E>(&raw[valid_up_to..]),
    })
}

// The `error_len` of the sequence at the start of `rest`, which is not a character.
//
// Proved:
//
// - requires `0 < length rest.now`
// - ensures `BeginsWithNoChar E.BIG rest.now → IsIllFormedAt E.BIG rest.now result`
#[inline(never)]
fn error_len<E: Utf16Order>(rest: &[u8]) -> Option<u8> {
    match first_char_len::<E>(rest) {
        Ok(_) => None,
        Err(error_len) => error_len,
    }
}

// The length of the longest valid prefix. Kept out of line so that short texts do not pay for its
// registers. It does not look for pairs if the first surrogate is unpaired. The bytes after the
// last block are tested at once: unit by unit they cost a third of the instructions for a line.
//
// Proved:
//
// - ensures `IsTextUpTo E.BIG raw.now result`
#[inline(never)]
fn valid_len<E: Utf16Order>(raw: &[u8]) -> usize {
    if raw.len() < 32 {
        return valid_len_from::<E>(raw, 0);
    }
    let front = plain_front::<E>(raw);
    if raw.len() - front > 64 {
        let first = front + plain_prefix_len::<E>(&raw[front..]);
        if let Err(_) = first_char_len::<E>(&raw[first..]) {
            return first;
        }
    }
    let passed = passed_blocks::<E>(raw, front);
    if raw.len() - passed <= 32 && is_text_to_end::<E>(raw, passed) {
        return raw.len();
    }
    let plain = plain_prefix_len::<E>(&raw[passed..]);
    valid_len_from::<E>(raw, passed + plain)
}

// The end of a well-formed prefix, as far as whole blocks from `from` on are well formed.
//
// Proved:
//
// - requires `PairedTo E.BIG raw.now from false`
// - ensures within: `result ≤ length raw.now`
// - ensures well_formed: `IsUtf16 E.BIG (take result raw.now)`
// - ensures passed: `PassedTo E.BIG raw.now result`
fn passed_blocks<E: Utf16Order>(raw: &[u8], from: usize) -> usize {
    let (whole, leading) = paired_blocks::<E>(raw, from);
    let (at, leading) = paired_half_block::<E>(raw, whole, leading);
    if leading {
        at - 2
    } else {
        at
    }
}

// The distance in bytes at which the loop for pairs tries again to pass blocks without a surrogate,
// and the length of a front after which such blocks are passed two at a time.
const PLAIN_EVERY: usize = 256;

// The end of the blocks of 64 bytes from `from` on whose surrogates are paired, and whether the
// last unit is leading. Another loop, which does not look for pairs, passes blocks without a
// surrogate.
//
// Proved:
//
// - requires `PairedTo E.BIG raw.now from false`
// - ensures paired: `PairedTo E.BIG raw.now result.0 result.1`
// - ensures stops: `BlocksStopAt 64 E.BIG raw.now result.0 result.1`
fn paired_blocks<E: Utf16Order>(raw: &[u8], from: usize) -> (usize, bool) {
    let mut at = from;
    let mut leading = false;
    while raw.len() - at >= 64 {
        let units = units32::<E>(u8x64::from_slice(&raw[at..]));
        let Some(last) = paired(units, leading) else {
            break;
        };
        leading = last;
        at += 64;
        if at % PLAIN_EVERY == 0 && leading_bits(units) == 0 && !leading {
            at = plain_blocks::<E>(raw, at);
        }
    }
    (at, leading)
}

// The end of the blocks of 64 bytes at the front that have no surrogate. The first few are tested
// one by one, and the others two at a time. Random bytes rarely get that far.
//
// Proved:
//
// - ensures `PairedTo E.BIG raw.now result false`
#[inline(always)]
fn plain_front<E: Utf16Order>(raw: &[u8]) -> usize {
    let mut at = 0;
    while raw.len() - at >= 64 {
        if !is_plain::<E>(u8x64::from_slice(&raw[at..])) {
            break;
        }
        at += 64;
        if at == PLAIN_EVERY {
            at = plain_pairs::<E>(raw, at);
        }
    }
    at
}

// The end of the pairs of blocks of 64 bytes from `from` on that have no surrogate.
//
// Proved:
//
// - requires `PairedTo E.BIG raw.now from false`
// - ensures paired: `PairedTo E.BIG raw.now result false`
// - ensures after: `from ≤ result`
#[inline(always)]
fn plain_pairs<E: Utf16Order>(raw: &[u8], from: usize) -> usize {
    let mut at = from;
    while raw.len() - at >= 128
        && is_plain::<E>(u8x64::from_slice(&raw[at..]))
            & is_plain::<E>(u8x64::from_slice(&raw[at + 64..]))
    {
        at += 128;
    }
    at
}

// Whether no code unit of a block is a surrogate.
//
// Proved:
//
// - ensures `IsTrue result → HasNoSurrogate (units_of E.BIG block)`
#[inline(always)]
fn is_plain<E: Utf16Order>(block: u8x64) -> bool {
    has_no_surrogate(units32::<E>(block))
}

// The end of the blocks of 64 bytes from `from` on that have no surrogate.
//
// Proved:
//
// - requires `PairedTo E.BIG raw.now from false`
// - ensures paired: `PairedTo E.BIG raw.now result false`
// - ensures after: `from ≤ result`
#[inline(always)]
fn plain_blocks<E: Utf16Order>(raw: &[u8], from: usize) -> usize {
    let mut at = from;
    while raw.len() - at >= 64 {
        if !is_plain::<E>(u8x64::from_slice(&raw[at..])) {
            break;
        }
        at += 64;
    }
    at
}

// Passes one more block of 32 bytes, if its surrogates are paired. Returns where it stops, and
// whether the last unit is leading.
//
// Proved:
//
// - requires `PairedTo E.BIG raw.now at leading`
// - ensures paired: `PairedTo E.BIG raw.now result.0 result.1`
// - ensures stops: `BlocksStopAt 32 E.BIG raw.now at leading → result.0 ≡ at`
// - ensures passes: `¬ BlocksStopAt 32 E.BIG raw.now at leading → result.0 ≡ at + 32`
fn paired_half_block<E: Utf16Order>(raw: &[u8], at: usize, leading: bool) -> (usize, bool) {
    if raw.len() - at < 32 {
        return (at, leading);
    }
    let block = u8x32::from_slice(&raw[at..]);
    match paired(units16::<E>(block), leading) {
        Some(last) => (at + 32, last),
        None => (at, leading),
    }
}

// Whether the bytes from `from` on, at most 32, are whole units whose surrogates are paired. They
// are the end of the last block of 32 bytes, which is read as a whole.
//
// Proved:
//
// - requires long: `32 ≤ length raw.now`
// - requires within: `from ≤ length raw.now`
// - requires near: `length raw.now ≤ from + 32`
// - ensures paired: `IsTrue result ↔ ((length (drop from raw.now) % 2 ≡ 0) × Paired false (units_of
//   E.BIG (drop from raw.now)) false)`
// - ensures text: `IsTrue result → IsUtf16 E.BIG (drop from raw.now)`
#[inline(always)]
fn is_text_to_end<E: Utf16Order>(raw: &[u8], from: usize) -> bool {
    let before = 32 - (raw.len() - from);
    let last = u8x32::from_slice(&raw[raw.len() - 32..]);
    before % 2 == 0 && paired_from(units16::<E>(last), before / 2)
}

// The length of the longest valid prefix, found unit by unit from the end of a well-formed prefix.
// Inlined at each call, so that short texts, for which it starts at 0, do not pay for the blocks.
//
// Proved:
//
// - requires within: `from ≤ length raw.now`
// - requires well_formed_before: `IsUtf16 E.BIG (take from raw.now)`
// - ensures `IsTextUpTo E.BIG raw.now result`
#[inline(always)]
pub(crate) fn valid_len_from<E: Utf16Order>(raw: &[u8], from: usize) -> usize {
    let mut at = from;
    while at < raw.len() {
        match first_char_len::<E>(&raw[at..]) {
            Ok(len) => at += len,
            Err(_) => return at,
        }
    }
    at
}

/// Returns the number of bytes of the character at the start of `rest`, 2 or 4.
///
/// # Errors
///
/// The [`Utf16Error::error_len`] of what is at the start of `rest`, if it is not a character.
///
/// # Precondition
///
/// `rest` is not empty.
///
/// Proved:
///
/// - requires `0 < length rest.now`
/// - ensures char: `IfOk result (BeginsWithChar E.BIG rest.now)`
/// - ensures advances: `IfOk result (λ n. 0 < n)`
/// - ensures ill_formed: `IfErr result (IsIllFormedAt E.BIG rest.now)`
#[inline]
pub fn first_char_len<E: Utf16Order>(rest: &[u8]) -> Result<usize, Option<u8>> {
    if rest.len() < 2 {
        return Err(None);
    }
    let unit = E::read_unit(crate::proved::kit::two(rest, 0));
    // One test for all units that are not surrogates: the surrogates are from 0xD800 to 0xDFFF.
    if unit / 0x800 != 0x1B {
        return Ok(2);
    }
    if is_trailing_surrogate(unit) {
        return Err(Some(2));
    }
    if rest.len() < 4 {
        return Err(None);
    }
    if is_trailing_surrogate(E::read_unit(crate::proved::kit::two(rest, 2))) {
        Ok(4)
    } else {
        Err(Some(2))
    }
}
