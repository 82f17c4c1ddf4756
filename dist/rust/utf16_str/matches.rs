// packaging/erase wrote this from crates/utf16_str/src/matches.rt: do not edit it.
//! The occurrences of a pattern in a text that do not overlap, with or without their offsets.

use crate::proved::utf16_bytes::Pattern;
use crate::proved::utf16_str::remaining::{Backward, Forward, Remaining};
use crate::proved::utf16_str::WStr;
use crate::proved::utf16_units::Utf16Order;

/// An iterator over the remaining occurrences of a pattern in a [`WStr`], each a view with its byte
/// offset. Once none is left, `next` always returns `None`.

#[derive(Clone)]
pub struct WStrMatchIndices<'a, E: Utf16Order, P: Pattern<E>> {
    left: Remaining<'a, E, P>,
    offset: usize,
}

impl<'a, E: Utf16Order, P: Pattern<E>> Iterator for WStrMatchIndices<'a, E, P> {
    type Item = (usize, WStr<'a, E>);

    #[inline]
    fn next(&mut self) -> Option<(usize, WStr<'a, E>)> {
        let (part, closed) = self.left.next_part::<Forward>()?;
        if self.left.rest.is_none() {
            return None;
        }
        let offset = self.offset + part.len();
        self.offset += closed.len();
        let (_, found) = closed.split_at(part.len());
        Some((offset, found))
    }
}

/// An iterator over the remaining occurrences of a pattern in a [`WStr`], each a view. Once none is
/// left, `next` always returns `None`.

#[derive(Clone)]
pub struct WStrMatches<'a, E: Utf16Order, P: Pattern<E>> {
    indices: WStrMatchIndices<'a, E, P>,
}

impl<'a, E: Utf16Order, P: Pattern<E>> Iterator for WStrMatches<'a, E, P> {
    type Item = WStr<'a, E>;

    #[inline]
    fn next(&mut self) -> Option<WStr<'a, E>> {
        let (_, found) = self.indices.next()?;
        Some(found)
    }
}

/// An iterator over the remaining occurrences of a pattern in a [`WStr`], the last first, each a
/// view with its byte offset. Once none is left, `next` always returns `None`.

#[derive(Clone)]
pub struct WStrRMatchIndices<'a, E: Utf16Order, P: Pattern<E>> {
    left: Remaining<'a, E, P>,
}

impl<'a, E: Utf16Order, P: Pattern<E>> Iterator for WStrRMatchIndices<'a, E, P> {
    type Item = (usize, WStr<'a, E>);

    #[inline]
    fn next(&mut self) -> Option<(usize, WStr<'a, E>)> {
        let (part, closed) = self.left.next_part::<Backward>()?;
        let before = self.left.rest?;
        let (found, _) = closed.split_at(closed.len() - part.len());
        Some((before.len(), found))
    }
}

impl<'a, E: Utf16Order> WStr<'a, E> {
    /// Returns an iterator over the occurrences of a text or a character, in order, each with its
    /// byte offset. Of occurrences that overlap it takes the first. The empty text occurs at each
    /// boundary.
    ///
    /// # Complexity
    ///
    /// One pass over the text. Copies nothing and does not allocate.
    ///
    /// # Source
    ///
    /// `str::match_indices`, with offsets in bytes of UTF-16.
    ///
    /// Proved:
    ///
    /// - ensures parts: `result ≡ match_offsets (P.part pattern) 0 (split_by (P.part pattern)
    ///   (wstr_text self.entry))`
    /// - ensures bound: `length result < 2 ^ 64`
    /// - ensures runs: `YieldsTextsAt self.entry`
    /// - ensures within: `YieldsPartsAt self.entry result`
    pub fn match_indices<P: Pattern<E>>(self, pattern: P) -> WStrMatchIndices<'a, E, P> {
        WStrMatchIndices {
            left: Remaining::new(self, pattern),
            offset: 0,
        }
    }

    /// Returns an iterator over the occurrences of a text or a character, in order, as views. Of
    /// occurrences that overlap it takes the first. Its `count` is the number of occurrences.
    ///
    /// # Complexity
    ///
    /// One pass over the text. Copies nothing and does not allocate.
    ///
    /// # Source
    ///
    /// `str::matches`.
    ///
    /// Proved:
    ///
    /// - ensures parts: `result ≡ map (λ at. at.1) (match_offsets (P.part pattern) 0 (split_by
    ///   (P.part pattern) (wstr_text self.entry)))`
    /// - ensures bound: `length result < 2 ^ 64`
    /// - ensures runs: `YieldsTexts self.entry`
    /// - ensures within: `YieldsPartsOf self.entry (map (λ at. at.0) (match_offsets (P.part
    ///   pattern) 0 (split_by (P.part pattern) (wstr_text self.entry)))) result`
    pub fn matches<P: Pattern<E>>(self, pattern: P) -> WStrMatches<'a, E, P> {
        WStrMatches {
            indices: self.match_indices(pattern),
        }
    }

    /// Returns an iterator over the occurrences of a text or a character, the last first, each with
    /// its byte offset. Of occurrences that overlap it takes the last.
    ///
    /// # Complexity
    ///
    /// One pass over the text. Copies nothing and does not allocate.
    ///
    /// # Source
    ///
    /// `str::rmatch_indices`, with offsets in bytes of UTF-16.
    ///
    /// Proved:
    ///
    /// - ensures parts: `result ≡ rmatch_offsets (P.part pattern) (size (wstr_text self.entry))
    ///   (rsplit_by (P.part pattern) (wstr_text self.entry))`
    /// - ensures bound: `length result < 2 ^ 64`
    /// - ensures runs: `YieldsTextsAt self.entry`
    /// - ensures within: `YieldsPartsAt self.entry result`
    pub fn rmatch_indices<P: Pattern<E>>(self, pattern: P) -> WStrRMatchIndices<'a, E, P> {
        WStrRMatchIndices {
            left: Remaining::new(self, pattern),
        }
    }
}
