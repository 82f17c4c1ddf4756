use core::iter::FusedIterator;

use crate::{validate, ByteOrder};

/// A part of bytes that may be ill-formed UTF-16: a well-formed prefix, and an ill-formed sequence
/// after it.
#[derive(Clone, Copy, Debug, Eq, PartialEq)]
pub struct Utf16Chunk<'a> {
    valid: &'a [u8],
    invalid: &'a [u8],
}

impl<'a> Utf16Chunk<'a> {
    /// Returns the longest well-formed prefix of what was left, which may be empty.
    #[must_use]
    pub fn valid(&self) -> &'a [u8] {
        self.valid
    }

    /// Returns the ill-formed sequence after it, which is one U+FFFD in lossy text. It is empty only
    /// in the last chunk.
    #[must_use]
    pub fn invalid(&self) -> &'a [u8] {
        self.invalid
    }
}

/// An iterator over the well-formed and the ill-formed parts of bytes, like std's `Utf8Chunks`.
///
/// ```
/// use dethrux::{ByteOrder::LittleEndian, Utf16Chunks};
///
/// let chunks = Utf16Chunks::new(LittleEndian, b"h\0\0\xDCi\0");
/// let mut chunks = chunks.map(|chunk| (chunk.valid(), chunk.invalid()));
/// assert_eq!(chunks.next(), Some((&b"h\0"[..], &b"\0\xDC"[..])));
/// assert_eq!(chunks.next(), Some((&b"i\0"[..], &b""[..])));
/// assert_eq!(chunks.next(), None);
/// ```
#[derive(Clone, Debug)]
pub struct Utf16Chunks<'a> {
    order: ByteOrder,
    rest: &'a [u8],
}

impl<'a> Utf16Chunks<'a> {
    /// Returns an iterator over the parts of these bytes.
    #[must_use]
    pub fn new(order: ByteOrder, bytes: &'a [u8]) -> Self {
        Utf16Chunks { order, rest: bytes }
    }
}

impl<'a> Iterator for Utf16Chunks<'a> {
    type Item = Utf16Chunk<'a>;

    fn next(&mut self) -> Option<Utf16Chunk<'a>> {
        if self.rest.is_empty() {
            return None;
        }
        let error = validate(self.order, self.rest).err();
        let valid_len = error.map_or(self.rest.len(), |it| it.valid_up_to());
        let (valid, after) = self.rest.split_at(valid_len);
        let invalid_len = error.and_then(|it| it.error_len()).unwrap_or(after.len());
        let (invalid, rest) = after.split_at(invalid_len);
        self.rest = rest;
        Some(Utf16Chunk { valid, invalid })
    }
}

impl FusedIterator for Utf16Chunks<'_> {}
