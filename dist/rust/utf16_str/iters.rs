// packaging/erase wrote this from crates/utf16_str/src/iters.rt: do not edit it.
//! Iterators over the characters of a string, from either end, with or without their byte offsets.

use crate::proved::utf16_str::WStr;
use crate::proved::utf16_units::ends::{first_char, last_char};
use crate::proved::utf16_units::text::count_chars;
use crate::proved::utf16_units::{Utf16CharExt, Utf16Order};
use core::fmt;

/// An iterator over the remaining characters of a [`WStr`], from either end. Once none is left,
/// `next` and `next_back` always return `None`.

#[derive(Clone)]
pub struct WStrChars<'a, E: Utf16Order> {
    pub(crate) rest: WStr<'a, E>,
}

impl<'a, E: Utf16Order> WStrChars<'a, E> {
    /// Returns the remaining text as a view.
    ///
    /// Proved:
    ///
    /// - ensures `wstr_text result ≡ self.now`
    #[inline]
    pub fn as_wstr(&self) -> WStr<'a, E> {
        let WStrChars { rest } = self;
        *rest
    }

    /// Returns the number of remaining characters.
    ///
    /// # Complexity
    ///
    /// One pass over the remaining text.
    ///
    /// Proved:
    ///
    /// - ensures `result ≡ length self.entry`
    pub fn count(self) -> usize {
        count_chars::<E>(self.rest.as_bytes())
    }

    /// Returns the last remaining character, or `None` if none is left.
    ///
    /// # Complexity
    ///
    /// Constant time: reads one character at the end.
    ///
    /// Proved:
    ///
    /// - ensures `result ≡ slice_get self.entry (length self.entry - 1)`
    #[inline]
    pub fn last(self) -> Option<char> {
        let mut rest = self;
        rest.next_back()
    }
}

impl<'a, E: Utf16Order> Iterator for WStrChars<'a, E> {
    type Item = char;

    #[inline]
    fn next(&mut self) -> Option<char> {
        let raw = self.rest.as_bytes();
        if raw.is_empty() {
            return None;
        }
        let (first, size) = first_char::<E>(raw);
        self.rest = WStr::from_utf16_unchecked(&raw[size..]);
        Some(first)
    }
}

impl<'a, E: Utf16Order> DoubleEndedIterator for WStrChars<'a, E> {
    #[inline]
    fn next_back(&mut self) -> Option<char> {
        let raw = self.rest.as_bytes();
        if raw.is_empty() {
            return None;
        }
        let (last, size) = last_char::<E>(raw);
        self.rest = WStr::from_utf16_unchecked(&raw[..raw.len() - size]);
        Some(last)
    }
}

impl<'a, E: Utf16Order> fmt::Debug for WStrChars<'a, E> {
    fn fmt(&self, f: &mut fmt::Formatter<'_>) -> fmt::Result {
        f.debug_struct("WStrChars")
            .field("rest", &self.rest)
            .finish()
    }
}

/// An iterator over the remaining characters of a [`WStr`], each with its byte offset in it, from
/// either end. Once none is left, `next` and `next_back` always return `None`.

#[derive(Clone)]
pub struct WStrCharIndices<'a, E: Utf16Order> {
    pub(crate) offset: usize,
    pub(crate) chars: WStrChars<'a, E>,
}

impl<'a, E: Utf16Order> WStrCharIndices<'a, E> {
    /// Returns the remaining text as a view.
    ///
    /// Proved:
    ///
    /// - ensures `wstr_text result ≡ map (λ at. at.1) self.now`
    #[inline]
    pub fn as_wstr(&self) -> WStr<'a, E> {
        self.chars.as_wstr()
    }

    /// Returns the number of remaining characters.
    ///
    /// # Complexity
    ///
    /// One pass over the remaining text.
    ///
    /// Proved:
    ///
    /// - ensures `result ≡ length self.entry`
    pub fn count(self) -> usize {
        self.chars.count()
    }

    /// Returns the last remaining character with its byte offset, or `None` if none is left.
    ///
    /// # Complexity
    ///
    /// Constant time: reads one character at the end.
    ///
    /// Proved:
    ///
    /// - ensures `result ≡ slice_get self.entry (length self.entry - 1)`
    #[inline]
    pub fn last(self) -> Option<(usize, char)> {
        let mut left = self;
        left.next_back()
    }
}

impl<'a, E: Utf16Order> Iterator for WStrCharIndices<'a, E> {
    type Item = (usize, char);

    #[inline]
    fn next(&mut self) -> Option<(usize, char)> {
        let Some(c) = self.chars.next() else {
            return None;
        };
        let offset = self.offset;
        self.offset += c.encoded_utf16_len();
        Some((offset, c))
    }
}

impl<'a, E: Utf16Order> DoubleEndedIterator for WStrCharIndices<'a, E> {
    #[inline]
    fn next_back(&mut self) -> Option<(usize, char)> {
        let Some(c) = self.chars.next_back() else {
            return None;
        };
        Some((self.offset + self.chars.as_wstr().len(), c))
    }
}

impl<'a, E: Utf16Order> fmt::Debug for WStrCharIndices<'a, E> {
    fn fmt(&self, f: &mut fmt::Formatter<'_>) -> fmt::Result {
        f.debug_struct("WStrCharIndices")
            .field("offset", &self.offset)
            .field("chars", &self.chars)
            .finish()
    }
}
