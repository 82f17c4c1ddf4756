// packaging/erase wrote this from crates/utf16_bytes/src/first.rt: do not edit it.
//! The first character of a text whose unpaired surrogates are U+FFFD.

use crate::proved::utf16_units::ends::first_char;
use crate::proved::utf16_units::{first_char_len, Utf16Order};

/// Returns the first character, U+FFFD for an unpaired surrogate or an incomplete character at the
/// end, and how many bytes it takes; `None` if there are no bytes.
///
/// Proved:
///
/// - ensures first: `IfSome result (λ first. lossy_text E.BIG rest.now ≡ first.0 ∷ lossy_text E.BIG
///   (drop first.1 rest.now))`
/// - ensures within: `IfSome result (λ first. first.1 ≤ length rest.now)`
/// - ensures some: `IfSome result (λ first. 0 < first.1)`
/// - ensures none: `result ≡ None → lossy_text E.BIG rest.now ≡ []`
#[inline]
pub fn first_lossy<E: Utf16Order>(rest: &[u8]) -> Option<(char, usize)> {
    if rest.is_empty() {
        return None;
    }
    match first_char_len::<E>(rest) {
        Ok(len) => Some(first_char::<E>(&rest[..len])),
        Err(Some(len)) => Some((char::REPLACEMENT_CHARACTER, len as usize)),
        Err(None) => Some((char::REPLACEMENT_CHARACTER, rest.len())),
    }
}
