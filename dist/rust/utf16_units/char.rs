// packaging/erase wrote this from crates/utf16_units/src/char.rt: do not edit it.
//! UTF-16 of one character.

use crate::proved::utf16_units::Utf16Order;

/// Extension of `char` for UTF-16.
pub trait Utf16CharExt {
    /// Returns the number of bytes that the character takes in UTF-16, 2 or 4.
    ///
    /// Proved:
    ///
    /// - ensures `result ≡ char_size (code self)`
    fn encoded_utf16_len(self) -> usize;

    /// Writes the character in UTF-16 to the start of `buf` and returns the number of bytes
    /// written. Later bytes are unchanged.
    ///
    /// # Precondition
    ///
    /// `buf` has at least as many bytes as `encoded_utf16_len` returns.
    ///
    /// Proved:
    ///
    /// - requires `char_size (code self) ≤ length buf.old`
    /// - ensures len: `result ≡ char_size (code self)`
    /// - ensures bytes: `buf.new ≡ char_bytes E.BIG (code self) ++ drop (char_size (code self))
    ///   buf.old`
    fn encode_utf16_into<E: Utf16Order>(self, buf: &mut [u8]) -> usize;
}

impl Utf16CharExt for char {
    #[inline]
    fn encoded_utf16_len(self) -> usize {
        if (self as u32) < 0x1_0000 {
            2
        } else {
            4
        }
    }

    #[inline]
    fn encode_utf16_into<E: Utf16Order>(self, buf: &mut [u8]) -> usize {
        let code = self as u32;
        if code < 0x1_0000 {
            buf[..2].copy_from_slice(&E::write_unit(code as u16));
            return 2;
        }
        let above = code - 0x1_0000;
        buf[..2].copy_from_slice(&E::write_unit((0xD800 + above / 0x400) as u16));
        buf[2..4].copy_from_slice(&E::write_unit((0xDC00 + above % 0x400) as u16));
        4
    }
}
