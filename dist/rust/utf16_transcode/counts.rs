// packaging/erase wrote this from crates/utf16_transcode/src/counts.rt: do not edit it.
//! How many ill-formed sequences any bytes have, which is how often a lossy conversion replaces.

use crate::proved::utf16_units::{validate_raw_utf16, Utf16Order};

/// Returns how many U+FFFD `to_utf8_lossy` writes for ill-formed sequences of the whole input: one
/// for each unpaired surrogate, and one for an incomplete character at the end. A U+FFFD of the
/// input is a character and does not count, so the result is 0 exactly if the bytes are well
/// formed. Any bytes are allowed.
///
/// # Complexity
///
/// Linear time: the bytes are validated once, with SIMD, up to each ill-formed sequence and from
/// there on.
///
/// Proved:
///
/// - ensures count: `result ≡ ill_formed_count E.BIG raw.now`
/// - ensures well_formed: `(result ≡ 0) ↔ IsUtf16 E.BIG raw.now`
pub fn to_utf8_replacements<E: Utf16Order>(raw: &[u8]) -> usize {
    let mut rest = raw;
    let mut count = 0;
    loop {
        let error = match validate_raw_utf16::<E>(rest) {
            Ok(()) => return count,
            Err(error) => error,
        };
        count += 1;
        let (_, next) = rest.split_at(error.valid_up_to());
        match error.error_len() {
            Some(len) => rest = &next[len..],
            None => return count,
        }
    }
}

/// Returns how many U+FFFD `from_utf8_lossy` writes for ill-formed sequences of the whole input:
/// one for each maximal subpart, and one for an incomplete character at the end. A U+FFFD of the
/// input is a character and does not count, so the result is 0 exactly if the bytes are UTF-8. Any
/// bytes are allowed.
///
/// # Complexity
///
/// One pass.
///
/// # Source
///
/// `String::from_utf8_lossy` replaces the same sequences.
///
/// Proved:
///
/// - ensures count: `result ≡ ill_formed_utf8_count text.now`
/// - ensures well_formed: `(result ≡ 0) ↔ IsUtf8 text.now`
pub fn from_utf8_replacements(text: &[u8]) -> usize {
    let mut count = 0;
    for chunk in text.utf8_chunks() {
        if !chunk.invalid().is_empty() {
            count += 1;
        }
    }
    count
}
