// packaging/erase wrote this from crates/utf16_str/src/parts.rt: do not edit it.
//! Substrings of a view: by ranges, and by splitting at an offset or around a pattern.

use crate::proved::utf16_bytes::Pattern;
use crate::proved::utf16_str::{SliceIndex, WStr};
use crate::proved::utf16_units::Utf16Order;

impl<'a, E: Utf16Order> WStr<'a, E> {
    /// Returns the substring at a range, or `None` if there is none.
    ///
    /// There is one if the range has a window (see [`SliceIndex`]), the window is not reversed, and
    /// both its ends are character boundaries.
    ///
    /// Proved:
    ///
    /// - ensures some: `IsSome result ↔ IsRangeOf E.BIG (wstr_bytes self.entry) (I.window index)`
    /// - ensures part: `IfSome result (λ part. wstr_text part ≡ range_text E.BIG (wstr_bytes
    ///   self.entry) (I.window index))`
    /// - ensures bytes: `IfSome result (λ part. wstr_bytes part ≡ range_bytes (wstr_bytes
    ///   self.entry) (I.window index))`
    #[inline]
    pub fn get<I: SliceIndex<E>>(self, index: I) -> Option<WStr<'a, E>> {
        index.get(self)
    }

    /// Returns the substring at a range.
    ///
    /// # Precondition
    ///
    /// There is a substring at the range (check with `get`).
    ///
    /// Proved:
    ///
    /// - requires `IsRangeOf E.BIG (wstr_bytes self) (I.window index)`
    /// - ensures text: `wstr_text result ≡ range_text E.BIG (wstr_bytes self.entry) (I.window
    ///   index)`
    /// - ensures bytes: `wstr_bytes result ≡ range_bytes (wstr_bytes self.entry) (I.window index)`
    #[inline]
    pub fn get_unchecked<I: SliceIndex<E>>(self, index: I) -> WStr<'a, E> {
        index.get_unchecked(self)
    }

    /// Returns the substring at a range. This replaces `s[a..b]`.
    ///
    /// # Precondition
    ///
    /// There is a substring at the range (check with `get`).
    ///
    /// Proved:
    ///
    /// - requires `IsRangeOf E.BIG (wstr_bytes self) (I.window index)`
    /// - ensures text: `wstr_text result ≡ range_text E.BIG (wstr_bytes self.entry) (I.window
    ///   index)`
    /// - ensures bytes: `wstr_bytes result ≡ range_bytes (wstr_bytes self.entry) (I.window index)`
    #[inline]
    pub fn index<I: SliceIndex<E>>(self, index: I) -> WStr<'a, E> {
        index.index(self)
    }

    /// Splits the text in two at the byte offset `mid`.
    ///
    /// # Precondition
    ///
    /// `mid` is a character boundary (check with `is_char_boundary`).
    ///
    /// Proved:
    ///
    /// - requires `IsBoundary (wstr_text self) mid`
    /// - ensures joined: `wstr_text result.0 ++ wstr_text result.1 ≡ wstr_text self.entry`
    /// - ensures front: `wstr_text result.0 ≡ text_to (wstr_text self.entry) mid`
    /// - ensures back: `wstr_text result.1 ≡ text_from (wstr_text self.entry) mid`
    /// - ensures front_bytes: `wstr_bytes result.0 ≡ take mid (wstr_bytes self.entry)`
    /// - ensures back_bytes: `wstr_bytes result.1 ≡ drop mid (wstr_bytes self.entry)`
    #[inline]
    pub fn split_at(self, mid: usize) -> (WStr<'a, E>, WStr<'a, E>) {
        let (front, back) = self.as_bytes().split_at(mid);
        (
            WStr::from_utf16_unchecked(front),
            WStr::from_utf16_unchecked(back),
        )
    }

    /// Splits the text in two at the byte offset `mid`, or returns `None` if it is not a character
    /// boundary.
    ///
    /// Proved:
    ///
    /// - ensures some: `IsSome result ↔ IsBoundary (wstr_text self.entry) mid`
    /// - ensures joined: `IfSome result (λ parts. wstr_text parts.0 ++ wstr_text parts.1 ≡
    ///   wstr_text self.entry)`
    /// - ensures front: `IfSome result (λ parts. wstr_text parts.0 ≡ text_to (wstr_text self.entry)
    ///   mid)`
    /// - ensures back: `IfSome result (λ parts. wstr_text parts.1 ≡ text_from (wstr_text
    ///   self.entry) mid)`
    /// - ensures front_bytes: `IfSome result (λ parts. wstr_bytes parts.0 ≡ take mid (wstr_bytes
    ///   self.entry))`
    /// - ensures back_bytes: `IfSome result (λ parts. wstr_bytes parts.1 ≡ drop mid (wstr_bytes
    ///   self.entry))`
    #[inline]
    pub fn split_at_checked(self, mid: usize) -> Option<(WStr<'a, E>, WStr<'a, E>)> {
        if self.is_char_boundary(mid) {
            Some(self.split_at(mid))
        } else {
            None
        }
    }

    /// Splits the text at the first occurrence of `delimiter`, a text or a character, and returns
    /// the text before it and the text after it, or `None` if it does not occur. The empty text
    /// occurs at the start.
    ///
    /// # Complexity
    ///
    /// One pass, up to that occurrence. Copies nothing.
    ///
    /// # Source
    ///
    /// `str::split_once`.
    ///
    /// Proved:
    ///
    /// - ensures none: `IsNone result ↔ LacksPart (P.part delimiter) (wstr_text self.entry)`
    /// - ensures split: `IfSome result (λ parts. wstr_text self.entry ≡ wstr_text parts.0 ++
    ///   (P.part delimiter ++ wstr_text parts.1))`
    /// - ensures first: `IfSome result (λ parts. IsBeforeFirst (P.part delimiter) (wstr_text
    ///   self.entry) (wstr_text parts.0))`
    /// - ensures value: `is_some result ≡ has_part (P.part delimiter) (wstr_text self.entry)`
    /// - ensures before: `IfSome result (λ parts. wstr_text parts.0 ≡ before_part (P.part
    ///   delimiter) (wstr_text self.entry))`
    /// - ensures after: `IfSome result (λ parts. wstr_text parts.1 ≡ after_part (P.part delimiter)
    ///   (wstr_text self.entry))`
    /// - ensures whole: `IsNone result → (before_part (P.part delimiter) (wstr_text self.entry) ≡
    ///   wstr_text self.entry) × (after_part (P.part delimiter) (wstr_text self.entry) ≡ [])`
    /// - ensures front_bytes: `IfSome result (λ parts. wstr_bytes parts.0 ≡ take (size (wstr_text
    ///   parts.0)) (wstr_bytes self.entry))`
    /// - ensures back_bytes: `IfSome result (λ parts. wstr_bytes parts.1 ≡ drop (size (wstr_text
    ///   parts.0) + size (P.part delimiter)) (wstr_bytes self.entry))`
    #[inline]
    pub fn split_once<P: Pattern<E>>(self, delimiter: P) -> Option<(WStr<'a, E>, WStr<'a, E>)> {
        let at = delimiter.next_in(self.as_bytes())?;
        Some(self.split_around(at, delimiter))
    }

    /// Splits the text at the last occurrence of `delimiter`, a text or a character, and returns
    /// the text before it and the text after it, or `None` if it does not occur. The empty text
    /// occurs last at the end.
    ///
    /// # Complexity
    ///
    /// One pass, from the end down to that occurrence. Copies nothing.
    ///
    /// # Source
    ///
    /// `str::rsplit_once`.
    ///
    /// Proved:
    ///
    /// - ensures none: `IsNone result ↔ LacksPart (P.part delimiter) (wstr_text self.entry)`
    /// - ensures split: `IfSome result (λ parts. wstr_text self.entry ≡ wstr_text parts.0 ++
    ///   (P.part delimiter ++ wstr_text parts.1))`
    /// - ensures last: `IfSome result (λ parts. IsAfterLast (P.part delimiter) (wstr_text
    ///   self.entry) (wstr_text parts.1))`
    /// - ensures front_bytes: `IfSome result (λ parts. wstr_bytes parts.0 ≡ take (size (wstr_text
    ///   parts.0)) (wstr_bytes self.entry))`
    /// - ensures back_bytes: `IfSome result (λ parts. wstr_bytes parts.1 ≡ drop (size (wstr_text
    ///   parts.0) + size (P.part delimiter)) (wstr_bytes self.entry))`
    pub fn rsplit_once<P: Pattern<E>>(self, delimiter: P) -> Option<(WStr<'a, E>, WStr<'a, E>)> {
        let at = self.rfind(delimiter)?;
        Some(self.split_around(at, delimiter))
    }

    // The text before an occurrence of a pattern, and the text after it.
    //
    // Proved:
    //
    // - requires `OccursIn (wstr_text self) at (P.part pattern)`
    // - ensures split: `wstr_text self.entry ≡ wstr_text result.0 ++ (P.part pattern ++ wstr_text
    //   result.1)`
    // - ensures front: `wstr_text result.0 ≡ text_to (wstr_text self.entry) at`
    // - ensures back: `wstr_text result.1 ≡ text_from (wstr_text self.entry) (at + size (P.part
    //   pattern))`
    // - ensures front_bytes: `wstr_bytes result.0 ≡ take (size (wstr_text result.0)) (wstr_bytes
    //   self.entry)`
    // - ensures back_bytes: `wstr_bytes result.1 ≡ drop (size (wstr_text result.0) + size (P.part
    //   pattern)) (wstr_bytes self.entry)`
    fn split_around<P: Pattern<E>>(self, at: usize, pattern: P) -> (WStr<'a, E>, WStr<'a, E>) {
        let (front, _) = self.split_at(at);
        let (_, back) = self.split_at(at + pattern.encoded_len());
        (front, back)
    }

    // The first character and the text after it, like `split_first` of a slice.
    //
    // Proved:
    //
    // - ensures `MatchOption result (wstr_text self.entry ≡ []) (λ first. wstr_text self.entry ≡
    //   first.0 ∷ wstr_text first.1)`
    #[inline]
    pub(crate) fn split_first(self) -> Option<(char, WStr<'a, E>)> {
        let mut chars = self.chars();
        let first = chars.next()?;
        Some((first, chars.as_wstr()))
    }

    // The last character and the text before it, like `split_last` of a slice.
    //
    // Proved:
    //
    // - ensures `MatchOption result (wstr_text self.entry ≡ []) (λ last. wstr_text self.entry ≡
    //   wstr_text last.1 ++ last.0 ∷ [])`
    #[inline]
    pub(crate) fn split_last(self) -> Option<(char, WStr<'a, E>)> {
        let mut chars = self.chars();
        let last = chars.next_back()?;
        Some((last, chars.as_wstr()))
    }

    // The substring between two offsets, or `None` if they are reversed or one is not a boundary.
    //
    // Proved:
    //
    // - ensures some: `IsSome result ↔ IsWindowOf (wstr_text self.entry) (Some (start, end))`
    // - ensures part: `IfSome result (λ part. wstr_text part ≡ text_between (wstr_text self.entry)
    //   start end)`
    // - ensures bytes: `IfSome result (λ part. wstr_bytes part ≡ bytes_between (wstr_bytes
    //   self.entry) start end)`
    #[inline]
    pub(crate) fn part(self, start: usize, end: usize) -> Option<WStr<'a, E>> {
        if start <= end && self.is_char_boundary(start) && self.is_char_boundary(end) {
            Some(self.part_unchecked(start, end))
        } else {
            None
        }
    }

    // Proved:
    //
    // - requires `IsWindowOf (wstr_text self) (Some (start, end))`
    // - ensures text: `wstr_text result ≡ text_between (wstr_text self.entry) start end`
    // - ensures bytes: `wstr_bytes result ≡ bytes_between (wstr_bytes self.entry) start end`
    #[inline]
    pub(crate) fn part_unchecked(self, start: usize, end: usize) -> WStr<'a, E> {
        WStr::from_utf16_unchecked(&self.as_bytes()[start..end])
    }
}
