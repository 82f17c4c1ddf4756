// packaging/erase wrote this from crates/utf16_from_utf8/src/chars.rt: do not edit it.
//! Converts a few characters one by one.

use crate::proved::utf16_units::{Utf16CharExt, Utf16Order};

// Writes the characters to the start of a buffer that has space for them, and returns the number of
// bytes written.
//
// Proved:
//
// - requires `size (chars s.now) ≤ length buf.old`
// - ensures bytes: `take result buf.new ≡ encode E.BIG (chars s.now)`
// - ensures written_to: `result ≡ size (chars s.now)`
pub(crate) fn write_chars<E: Utf16Order>(s: &str, buf: &mut [u8]) -> usize {
    let mut len = 0;
    for c in s.chars() {
        len += c.encode_utf16_into::<E>(&mut buf[len..]);
    }
    len
}
