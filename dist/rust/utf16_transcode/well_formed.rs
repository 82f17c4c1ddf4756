// packaging/erase wrote this from crates/utf16_transcode/src/well_formed.rt: do not edit it.
//! Unpaired surrogates replaced by U+FFFD, which has the same length: in place, or in a copy.
//!
//! The validator passes what is well formed, up to the next unpaired surrogate. On nothing but
//! unpaired surrogates that takes 3.2 ns a byte. A copy with SIMD that compares each unit with its
//! neighbours takes a ninth of it there, but no real text gains by it.

use crate::proved::utf16_to_utf8::put;
use crate::proved::utf16_transcode::decode::valid_up_to;
use crate::proved::utf16_transcode::replacement::REPLACEMENT_UNIT;
use crate::proved::utf16_units::laws::are_bytes;
use crate::proved::utf16_units::{first_char_len, is_leading_surrogate, Utf16Order};

/// Replaces each unpaired surrogate by U+FFFD in place, and returns how many there were. After that
/// the whole code units are well formed. A leading surrogate at the end is unpaired. An odd byte at
/// the end is unchanged. Any bytes are allowed.
///
/// # Complexity
///
/// Linear time: the bytes are validated once, with SIMD, up to each unpaired surrogate and from
/// there on.
///
/// Proved:
///
/// - ensures bytes: `utf16.new ≡ encode E.BIG (lossy_text E.BIG (take (length utf16.old / 2 * 2)
///   utf16.old)) ++ drop (length utf16.old / 2 * 2) utf16.old`
/// - ensures count: `result ≡ unpaired E.BIG (take (length utf16.old / 2 * 2) utf16.old)`
pub fn make_well_formed<E: Utf16Order>(utf16: &mut [u8]) -> usize {
    let whole = utf16.len() / 2 * 2;
    mend::<E>(&mut utf16[..whole])
}

/// Copies UTF-16 to the start of a buffer with U+FFFD instead of each unpaired surrogate, and
/// returns the number of bytes written: all but an incomplete character at the end (an odd byte, or
/// a leading surrogate and at most one byte after it). The written bytes are well formed. Each of
/// their characters is at the same offset as the character that it copies or the surrogate that it
/// replaces. The other bytes of the buffer are unchanged.
///
/// # Precondition
///
/// The buffer is at least as long as the bytes.
///
/// # Complexity
///
/// A copy, and one pass over it.
///
/// Proved:
///
/// - requires space: `length raw.now ≤ length to.old`
/// - ensures len: `result + length (split_tail E.BIG raw.now) ≡ length raw.now`
/// - ensures bytes: `to.new ≡ encode E.BIG (lossy_chars (split_items E.BIG raw.now)) ++ drop result
///   to.old`
/// - ensures well_formed: `IsUtf16 E.BIG (take result to.new)`
/// - ensures encoding: `Encodes E.BIG (lossy_chars (split_items E.BIG raw.now)) (take result
///   to.new)`
pub fn write_well_formed<E: Utf16Order>(raw: &[u8], to: &mut [u8]) -> usize {
    let len = decided_len::<E>(raw);
    let copy = &mut to[..len];
    copy.copy_from_slice(&raw[..len]);
    make_well_formed::<E>(copy);
    len
}

// Returns the number of bytes before the incomplete character at the end.
//
// Proved:
//
// - ensures whole: `result % 2 ≡ 0`
// - ensures len: `result + length (split_tail E.BIG raw.now) ≡ length raw.now`
fn decided_len<E: Utf16Order>(raw: &[u8]) -> usize {
    let whole = raw.len() / 2 * 2;
    if whole > 0 && is_leading_surrogate(E::read_unit([raw[whole - 2], raw[whole - 1]])) {
        whole - 2
    } else {
        whole
    }
}

// Replaces each unpaired surrogate of whole code units, and returns how many there were.
//
// Proved:
//
// - requires `length utf16.old % 2 ≡ 0`
// - ensures bytes: `utf16.new ≡ encode E.BIG (lossy_text E.BIG utf16.old)`
// - ensures count: `result ≡ unpaired E.BIG utf16.old`
fn mend<E: Utf16Order>(utf16: &mut [u8]) -> usize {
    are_bytes(utf16);
    let replacement = E::write_unit(REPLACEMENT_UNIT);
    let mut at = 0;
    let mut count = 0;
    while at < utf16.len() {
        match first_char_len::<E>(&utf16[at..]) {
            Ok(len) => at += len + valid_up_to::<E>(&utf16[at + len..]),
            Err(_) => {
                at = put(&replacement, utf16, at);
                count += 1;
            }
        }
    }
    count
}
