// packaging/erase wrote this from crates/utf16_str/src/trim.rt: do not edit it.
//! A text without the white space at its ends.

use crate::proved::utf16_str::words::{Space, UnicodeSpace};
use crate::proved::utf16_str::WStr;
use crate::proved::utf16_units::Utf16Order;

impl<'a, E: Utf16Order> WStr<'a, E> {
    /// Returns the text without the white space at its start. White space is what has the property
    /// `White_Space` of Unicode, as in `char::is_whitespace`.
    ///
    /// # Complexity
    ///
    /// One pass over the white space. Copies nothing.
    ///
    /// # Source
    ///
    /// `str::trim_start`.
    ///
    /// Proved:
    ///
    /// - ensures text: `wstr_text result ≡ skip_leading_whitespace (wstr_text self.entry)`
    /// - ensures bytes: `wstr_bytes result ≡ drop (length (wstr_bytes self.entry) - length
    ///   (wstr_bytes result)) (wstr_bytes self.entry)`
    pub fn trim_start(self) -> WStr<'a, E> {
        self.trim_start_by(&UnicodeSpace::is_space)
    }

    /// Returns the text without the white space at its end.
    ///
    /// # Complexity
    ///
    /// One pass over the white space. Copies nothing.
    ///
    /// # Source
    ///
    /// `str::trim_end`.
    ///
    /// Proved:
    ///
    /// - ensures text: `wstr_text result ≡ drop_trailing_whitespace (wstr_text self.entry)`
    /// - ensures bytes: `wstr_bytes result ≡ take (length (wstr_bytes result)) (wstr_bytes
    ///   self.entry)`
    pub fn trim_end(self) -> WStr<'a, E> {
        self.trim_end_by(&UnicodeSpace::is_space)
    }

    /// Returns the text without the white space at its start and at its end.
    ///
    /// # Complexity
    ///
    /// One pass over the white space. Copies nothing.
    ///
    /// # Source
    ///
    /// `str::trim`.
    ///
    /// Proved:
    ///
    /// - ensures text: `wstr_text result ≡ drop_trailing_whitespace (skip_leading_whitespace
    ///   (wstr_text self.entry))`
    /// - ensures bytes: `let start = size (wstr_text self.entry) - size (skip_leading_whitespace
    ///   (wstr_text self.entry)) in wstr_bytes result ≡ bytes_between (wstr_bytes self.entry) start
    ///   (start + length (wstr_bytes result))`
    pub fn trim(self) -> WStr<'a, E> {
        self.trim_start().trim_end()
    }
}
