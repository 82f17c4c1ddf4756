// packaging/erase wrote this from crates/utf16_str/src/trim_matches.rt: do not edit it.
//! A text without the occurrences of a pattern at its ends.

use crate::proved::utf16_bytes::Pattern;
use crate::proved::utf16_str::WStr;
use crate::proved::utf16_units::Utf16Order;

impl<'a, E: Utf16Order> WStr<'a, E> {
    /// Returns the text without a text or a character at its start, as often as it is there. The
    /// empty text takes nothing off.
    ///
    /// # Complexity
    ///
    /// One pass over what it takes off. Copies nothing.
    ///
    /// # Source
    ///
    /// `str::trim_start_matches`.
    ///
    /// Proved:
    ///
    /// - ensures text: `IsTrimmedStart (P.part pattern) (wstr_text self.entry) (wstr_text result)`
    /// - ensures bytes: `wstr_bytes result ≡ drop (length (wstr_bytes self.entry) - length
    ///   (wstr_bytes result)) (wstr_bytes self.entry)`
    pub fn trim_start_matches<P: Pattern<E>>(self, pattern: P) -> WStr<'a, E> {
        let mut text = self;
        if pattern.encoded_len() == 0 {
            return text;
        }
        while let Some(rest) = text.strip_prefix(pattern) {
            text = rest;
        }
        text
    }

    /// Returns the text without a text or a character at its end, as often as it is there. The
    /// empty text takes nothing off.
    ///
    /// # Complexity
    ///
    /// One pass over what it takes off. Copies nothing.
    ///
    /// # Source
    ///
    /// `str::trim_end_matches`.
    ///
    /// Proved:
    ///
    /// - ensures text: `IsTrimmedEnd (P.part pattern) (wstr_text self.entry) (wstr_text result)`
    /// - ensures bytes: `wstr_bytes result ≡ take (length (wstr_bytes result)) (wstr_bytes
    ///   self.entry)`
    pub fn trim_end_matches<P: Pattern<E>>(self, pattern: P) -> WStr<'a, E> {
        let mut text = self;
        if pattern.encoded_len() == 0 {
            return text;
        }
        while let Some(front) = text.strip_suffix(pattern) {
            text = front;
        }
        text
    }

    /// Returns the text without a text or a character at its start, and then at its end, each as
    /// often as it is there. The empty text takes nothing off.
    ///
    /// # Complexity
    ///
    /// One pass over what it takes off. Copies nothing.
    ///
    /// # Source
    ///
    /// `str::trim_matches`, which takes a character, but no text.
    ///
    /// Proved:
    ///
    /// - ensures `IsTrimmed (P.part pattern) (wstr_text self.entry) (wstr_text result)`
    pub fn trim_matches<P: Pattern<E>>(self, pattern: P) -> WStr<'a, E> {
        self.trim_start_matches(pattern).trim_end_matches(pattern)
    }
}
