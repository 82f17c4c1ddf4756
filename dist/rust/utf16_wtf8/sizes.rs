// packaging/erase wrote this from crates/utf16_wtf8/src/sizes.rt: do not edit it.
//! The length of code units in WTF-8, and of WTF-8 in UTF-16, in bytes.

use crate::proved::utf16_transcode::to_utf8_lossy_len;
use crate::proved::utf16_units::{is_leading_surrogate, utf16_len, Utf16Order};
use crate::proved::utf16_wtf8::encode::{
    begins_surrogate, first_surrogate, SURROGATE_LEN, UNIT_LEN,
};

/// Returns the length in bytes of the output of `to_wtf8` for the whole input. Any bytes are
/// allowed.
///
/// # Complexity
///
/// Two passes.
///
/// Proved:
///
/// - ensures `result ≡ length (flat_map generalized_utf8 (points_of E.BIG raw.now))`
pub fn to_wtf8_len<E: Utf16Order>(raw: &[u8]) -> usize {
    // A surrogate in WTF-8 is as long as U+FFFD, which replaces it in the lossy text.
    to_utf8_lossy_len::<E>(&raw[..raw.len() / 2 * 2])
}

/// Returns the length in bytes of what `from_wtf8` writes, in either byte order, given enough
/// space: of the UTF-16 of the longest prefix that is WTF-8. Any bytes are allowed.
///
/// # Complexity
///
/// Two passes.
///
/// Proved:
///
/// - ensures len: `HasUtf16Len wtf8.now result`
/// - ensures written: `IsWrittenIfItFits wtf8.now result`
pub fn from_wtf8_len(wtf8: &[u8]) -> usize {
    let mut read = 0;
    let mut len = 0;
    // Whether what was read ends with a leading surrogate.
    let mut after_leading = false;
    loop {
        let text = utf8_front(&wtf8[read..]);
        read += text.len();
        len += utf16_len(text);
        after_leading = after_leading && text.is_empty();
        let rest = &wtf8[read..];
        if !begins_surrogate(rest) {
            return len;
        }
        match first_surrogate(rest, after_leading) {
            Ok(unit) => {
                read += SURROGATE_LEN;
                len += UNIT_LEN;
                after_leading = is_leading_surrogate(unit);
            }
            Err(_) => return len,
        }
    }
}

// Returns the longest prefix that is UTF-8.
//
// Proved:
//
// - ensures front: `result.now ≡ take (utf8_valid_len bytes.now) bytes.now`
// - ensures within: `length result.now ≤ length bytes.now`
fn utf8_front(bytes: &[u8]) -> &str {
    match core::str::from_utf8(bytes) {
        Ok(text) => text,
        Err(error) => unsafe { core::str::from_utf8_unchecked(&bytes[..error.valid_up_to()]) },
    }
}
