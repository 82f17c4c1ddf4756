// packaging/erase wrote this from crates/utf16_str/src/terminators.rt: do not edit it.
//! The substrings of a text that each end with a terminator, without it and with it.

use crate::proved::utf16_bytes::Pattern;
use crate::proved::utf16_str::remaining::{Forward, Remaining};
use crate::proved::utf16_str::WStr;
use crate::proved::utf16_units::Utf16Order;

/// An iterator over the remaining substrings of a [`WStr`] that each end with a terminator. Each is
/// a view without it. Once none is left, `next` always returns `None`.

#[derive(Clone)]
pub struct WStrSplitTerminator<'a, E: Utf16Order, P: Pattern<E>> {
    left: Remaining<'a, E, P>,
}

impl<'a, E: Utf16Order, P: Pattern<E>> Iterator for WStrSplitTerminator<'a, E, P> {
    type Item = WStr<'a, E>;

    #[inline]
    fn next(&mut self) -> Option<WStr<'a, E>> {
        let (part, _) = self.left.next_part::<Forward>()?;
        if self.left.rest.is_none() && part.is_empty() {
            return None;
        }
        Some(part)
    }
}

/// An iterator over the remaining substrings of a [`WStr`] that each end with a terminator. Each is
/// a view with it. Once none is left, `next` always returns `None`.

#[derive(Clone)]
pub struct WStrSplitInclusive<'a, E: Utf16Order, P: Pattern<E>> {
    left: Remaining<'a, E, P>,
}

impl<'a, E: Utf16Order, P: Pattern<E>> Iterator for WStrSplitInclusive<'a, E, P> {
    type Item = WStr<'a, E>;

    #[inline]
    fn next(&mut self) -> Option<WStr<'a, E>> {
        let (_, part) = self.left.next_part::<Forward>()?;
        if self.left.rest.is_none() && part.is_empty() {
            return None;
        }
        Some(part)
    }
}

impl<'a, E: Utf16Order> WStr<'a, E> {
    /// Returns an iterator over the substrings that `split` gives, but without an empty one at the
    /// end: each delimiter ends a substring.
    ///
    /// # Complexity
    ///
    /// One pass over the text. Copies nothing and does not allocate.
    ///
    /// # Source
    ///
    /// The substrings are the same as with `str::split_terminator`.
    ///
    /// Proved:
    ///
    /// - ensures parts: `result ≡ without_empty_last (split_by (P.part terminator) (wstr_text
    ///   self.entry))`
    /// - ensures bound: `length result < 2 ^ 64`
    /// - ensures runs: `YieldsTexts self.entry`
    /// - ensures within: `YieldsPartsOf self.entry (offsets_from (size (P.part terminator)) 0
    ///   result) result`
    pub fn split_terminator<P: Pattern<E>>(self, terminator: P) -> WStrSplitTerminator<'a, E, P> {
        WStrSplitTerminator {
            left: Remaining::new(self, terminator),
        }
    }

    /// Returns an iterator over the substrings that `split_terminator` gives, each with the
    /// terminator that ends it. The last one may have none.
    ///
    /// # Complexity
    ///
    /// One pass over the text. Copies nothing and does not allocate.
    ///
    /// # Source
    ///
    /// The substrings are the same as with `str::split_inclusive`.
    ///
    /// Proved:
    ///
    /// - ensures parts: `result ≡ with_terminators (P.part terminator) (split_by (P.part
    ///   terminator) (wstr_text self.entry))`
    /// - ensures bound: `length result < 2 ^ 64`
    /// - ensures runs: `YieldsTexts self.entry`
    /// - ensures within: `YieldsPartsOf self.entry (offsets_from 0 0 result) result`
    pub fn split_inclusive<P: Pattern<E>>(self, terminator: P) -> WStrSplitInclusive<'a, E, P> {
        WStrSplitInclusive {
            left: Remaining::new(self, terminator),
        }
    }
}
