// packaging/erase wrote this from crates/utf16_units/src/error.rt: do not edit it.
//! The error for ill-formed UTF-16.

use core::error::Error;
use core::fmt;

/// The error for ill-formed UTF-16: the length of the longest valid prefix, and whether more bytes
/// could make the input well formed.
#[derive(Clone, Copy, Debug, PartialEq, Eq)]
pub struct Utf16Error {
    pub(crate) valid_up_to: usize,
    pub(crate) error_len: Option<u8>,
}

impl Utf16Error {
    /// Returns the length in bytes of the longest prefix that is well-formed UTF-16.
    ///
    /// Proved:
    ///
    /// - ensures `result ≡ valid_up_to self.now`
    #[inline]
    pub fn valid_up_to(&self) -> usize {
        self.valid_up_to
    }

    /// Returns the length in bytes of the ill-formed sequence after the valid prefix: `Some(2)` for
    /// an unpaired surrogate, `None` if the input is incomplete.
    ///
    /// After `Some(2)`, decoding can resume two bytes after `valid_up_to`. With `None`, the bytes
    /// end inside a character: the last 1 to 3 bytes may be the start of one.
    ///
    /// Proved:
    ///
    /// - ensures `result ≡ error_len self.now`
    #[inline]
    pub fn error_len(&self) -> Option<usize> {
        self.error_len.map(usize::from)
    }

    /// Returns a form of the error whose `Display` says which sequence is ill-formed and where.
    ///
    /// Proved:
    ///
    /// - ensures `result ≡ detail self.now`
    #[inline]
    pub(crate) fn detail(&self) -> Detail {
        Detail { error: *self }
    }
}

/// The form of a [`Utf16Error`] that says which sequence is ill-formed and where: "unpaired
/// surrogate of 2 bytes at byte 6", or "incomplete character at byte 6".
#[derive(Clone, Copy, Debug, PartialEq, Eq)]
pub struct Detail {
    error: Utf16Error,
}

impl fmt::Display for Detail {
    fn fmt(&self, f: &mut fmt::Formatter<'_>) -> fmt::Result {
        let at = self.error.valid_up_to;
        match self.error.error_len {
            Some(_) => write!(f, "unpaired surrogate of 2 bytes at byte {at}"),
            None => write!(f, "incomplete character at byte {at}"),
        }
    }
}

impl fmt::Display for Utf16Error {
    fn fmt(&self, f: &mut fmt::Formatter<'_>) -> fmt::Result {
        f.write_str("Invalid UTF-16LE data in byte slice")
    }
}

impl Error for Utf16Error {}
