// packaging/erase wrote this from crates/utf16_str/src/split.rt: do not edit it.
//! The substrings of a text between occurrences of a delimiter.

use crate::proved::utf16_bytes::Pattern;
use crate::proved::utf16_str::remaining::{Backward, Direction, Forward, Remaining};
use crate::proved::utf16_str::WStr;
use crate::proved::utf16_units::Utf16Order;
use core::marker::PhantomData;

/// An iterator over the remaining substrings of a [`WStr`] separated by a delimiter. It goes in the
/// direction `D`, and for a `char` from either end. Each is a view without the delimiter. Once none
/// is left, `next` and `next_back` always return `None`.

#[derive(Clone)]
pub struct WStrParts<'a, E: Utf16Order, P: Pattern<E>, D: Direction> {
    left: Remaining<'a, E, P>,
    direction: PhantomData<D>,
}

/// An iterator over the remaining substrings of a [`WStr`], in order: see [`WStrParts`].
pub type WStrSplit<'a, E, P> = WStrParts<'a, E, P, Forward>;

/// An iterator over the remaining substrings of a [`WStr`], the last first: see [`WStrParts`].
pub type WStrRSplit<'a, E, P> = WStrParts<'a, E, P, Backward>;

impl<'a, E: Utf16Order, P: Pattern<E>, D: Direction> Iterator for WStrParts<'a, E, P, D> {
    type Item = WStr<'a, E>;

    #[inline]
    fn next(&mut self) -> Option<WStr<'a, E>> {
        let (part, _) = self.left.next_part::<D>()?;
        Some(part)
    }
}

impl<'a, E: Utf16Order> DoubleEndedIterator for WStrParts<'a, E, char, Forward> {
    #[inline]
    fn next_back(&mut self) -> Option<WStr<'a, E>> {
        let (part, _) = self.left.next_part::<Backward>()?;
        Some(part)
    }
}

impl<'a, E: Utf16Order> WStr<'a, E> {
    /// Returns an iterator over the substrings separated by `delimiter`, a text or a character, in
    /// order and without the delimiter.
    ///
    /// The empty text has one substring, the empty one. A delimiter at an end of the text, or next
    /// to another delimiter, has an empty substring there. Delimiters that overlap are one: the
    /// search goes on after the first. The empty delimiter separates each character, and both ends.
    ///
    /// # Complexity
    ///
    /// One pass over the text. Copies nothing and does not allocate.
    ///
    /// # Source
    ///
    /// The substrings are the same as with `str::split`, and for a `char` with `rev` as with
    /// `str::rsplit`.
    ///
    /// Proved:
    ///
    /// - ensures parts: `result ≡ split_by (P.part delimiter) (wstr_text self.entry)`
    /// - ensures joined: `joined_with (P.part delimiter) result ≡ wstr_text self.entry`
    /// - ensures lack: `EachLacks (P.part delimiter) result`
    /// - ensures bound: `length result < 2 ^ 64`
    /// - ensures runs: `YieldsTexts self.entry`
    /// - ensures runs_back: `YieldsTextsBack self.entry`
    /// - ensures within: `YieldsPartsOf self.entry (offsets_from (size (P.part delimiter)) 0
    ///   result) result`
    /// - ensures within_back: `YieldsPartsOfBack self.entry (offsets_from (size (P.part delimiter))
    ///   0 result) result`
    pub fn split<P: Pattern<E>>(self, delimiter: P) -> WStrSplit<'a, E, P> {
        WStrParts {
            left: Remaining::new(self, delimiter),
            direction: PhantomData,
        }
    }

    /// Returns an iterator over the substrings separated by `delimiter`, a text or a character, the
    /// last first and without the delimiter. Of delimiters that overlap, it takes the last.
    ///
    /// # Complexity
    ///
    /// One pass over the text. Copies nothing and does not allocate.
    ///
    /// # Source
    ///
    /// The substrings are the same as with `str::rsplit`.
    ///
    /// Proved:
    ///
    /// - ensures parts: `result ≡ rsplit_by (P.part delimiter) (wstr_text self.entry)`
    /// - ensures bound: `length result < 2 ^ 64`
    /// - ensures runs: `YieldsTexts self.entry`
    /// - ensures within: `YieldsPartsOf self.entry (roffsets_from (size (P.part delimiter)) (size
    ///   (wstr_text self.entry)) result) result`
    pub fn rsplit<P: Pattern<E>>(self, delimiter: P) -> WStrRSplit<'a, E, P> {
        WStrParts {
            left: Remaining::new(self, delimiter),
            direction: PhantomData,
        }
    }
}
