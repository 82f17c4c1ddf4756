// packaging/erase wrote this from crates/utf16_str/src/ascii_whitespace.rt: do not edit it.
//! The white space of ASCII at the ends of a text. It is U+0009, U+000A, U+000C, U+000D and U+0020,
//! as in `char::is_ascii_whitespace`.

use crate::proved::utf16_str::words::{AsciiSpace, Space};
use crate::proved::utf16_str::WStr;
use crate::proved::utf16_units::Utf16Order;

impl<'a, E: Utf16Order> WStr<'a, E> {
    /// Returns the text without the white space of ASCII at its start.
    ///
    /// # Complexity
    ///
    /// One pass over the white space. Copies nothing.
    ///
    /// # Source
    ///
    /// `str::trim_ascii_start`.
    ///
    /// Proved:
    ///
    /// - ensures text: `IsTrimmedStartWith SaysIsAsciiWhitespace (wstr_text self.entry) (wstr_text
    ///   result)`
    /// - ensures bytes: `wstr_bytes result ≡ drop (length (wstr_bytes self.entry) - length
    ///   (wstr_bytes result)) (wstr_bytes self.entry)`
    #[inline]
    pub fn trim_ascii_start(self) -> Self {
        self.trim_start_by(&AsciiSpace::is_space)
    }

    /// Returns the text without the white space of ASCII at its end.
    ///
    /// # Complexity
    ///
    /// One pass over the white space. Copies nothing.
    ///
    /// # Source
    ///
    /// `str::trim_ascii_end`.
    ///
    /// Proved:
    ///
    /// - ensures text: `IsTrimmedEndWith SaysIsAsciiWhitespace (wstr_text self.entry) (wstr_text
    ///   result)`
    /// - ensures bytes: `wstr_bytes result ≡ take (length (wstr_bytes result)) (wstr_bytes
    ///   self.entry)`
    #[inline]
    pub fn trim_ascii_end(self) -> Self {
        self.trim_end_by(&AsciiSpace::is_space)
    }

    /// Returns the text without the white space of ASCII at its start and at its end.
    ///
    /// # Complexity
    ///
    /// One pass over the white space. Copies nothing.
    ///
    /// # Source
    ///
    /// `str::trim_ascii`.
    ///
    /// Proved:
    ///
    /// - ensures text: `IsTrimmedWith SaysIsAsciiWhitespace (wstr_text self.entry) (wstr_text
    ///   result)`
    /// - ensures bytes: `LiesAfterTrim SaysIsAsciiWhitespace (wstr_text self.entry) (wstr_bytes
    ///   self.entry) (wstr_bytes result)`
    #[inline]
    pub fn trim_ascii(self) -> Self {
        self.trim_with(AsciiSpace::is_space)
    }
}
