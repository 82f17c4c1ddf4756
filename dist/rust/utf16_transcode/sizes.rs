// packaging/erase wrote this from crates/utf16_transcode/src/sizes.rt: do not edit it.
//! The length of a text in the other encoding, in bytes.
//!
//! Valid parts are counted with SIMD, and each ill-formed sequence adds the length of U+FFFD. Only
//! parts of fewer than sixteen bytes are counted character by character.

use crate::proved::utf16_from_utf8::is_text;
use crate::proved::utf16_to_utf8::utf8_len;
use crate::proved::utf16_transcode::direction::BLOCK_LEN;
use crate::proved::utf16_transcode::replacement::REPLACEMENT;
use crate::proved::utf16_units::strategy::FEW_TEXT;
use crate::proved::utf16_units::{utf16_len, validate_raw_utf16, Utf16Order};

/// Returns the length in bytes of the output of `to_utf8_lossy` for the whole input. Any bytes are
/// allowed.
///
/// # Complexity
///
/// Two passes.
///
/// Proved:
///
/// - ensures `result ≡ length (encode_utf8_all (lossy_text E.BIG raw.now))`
pub fn to_utf8_lossy_len<E: Utf16Order>(raw: &[u8]) -> usize {
    let mut rest = raw;
    let mut size = 0;
    loop {
        let error = match validate_raw_utf16::<E>(rest) {
            Ok(()) => return size + utf8_len::<E>(rest),
            Err(error) => error,
        };
        let (front, next) = rest.split_at(error.valid_up_to());
        size += utf8_len::<E>(front) + REPLACEMENT.len();
        match error.error_len() {
            Some(len) => rest = &next[len..],
            None => return size,
        }
    }
}

/// Returns the length in bytes of UTF-16, in either byte order, of the longest valid prefix of
/// UTF-8: of all of the bytes if they are UTF-8. Any bytes are allowed.
///
/// # Complexity
///
/// Two passes, or three if the bytes are not UTF-8.
///
/// Proved:
///
/// - ensures `result ≡ size (chars (take (utf8_valid_len text.now) text.now))`
pub fn from_utf8_len(text: &[u8]) -> usize {
    if is_text_within_block(text) {
        return utf16_len(unsafe { core::str::from_utf8_unchecked(text) });
    }
    match crate::proved::simdutf8::compat::from_utf8(text) {
        Ok(text) => utf16_len(text),
        Err(error) => {
            utf16_len(unsafe { core::str::from_utf8_unchecked(&text[..error.valid_up_to()]) })
        }
    }
}

// Whether the bytes are a text of eight bytes or more and less than a block, in which `simdutf8`
// goes byte by byte: on 62 bytes of Greek that takes four times as long.
//
// Proved:
//
// - ensures `IsTrue result → IsUtf8 bytes.now`
pub(crate) fn is_text_within_block(bytes: &[u8]) -> bool {
    (FEW_TEXT..BLOCK_LEN).contains(&bytes.len()) && is_text(bytes)
}
