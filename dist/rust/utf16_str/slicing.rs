// packaging/erase wrote this from crates/utf16_str/src/slicing.rt: do not edit it.
//! Substrings by ranges of byte offsets.

use crate::proved::utf16_str::WStr;
use crate::proved::utf16_units::Utf16Order;
use core::ops::{Range, RangeFrom, RangeFull, RangeInclusive, RangeTo, RangeToInclusive};

/// A range that selects a substring by its window, from one byte offset up to another.
///
/// There is such a substring exactly if there is a window, its start is at most its end, and both
/// are character boundaries.
///
/// Any crate may implement it: a type of ranges defines its window, and proves that `window`
/// computes it.
pub trait SliceIndex<E: Utf16Order> {
    /// Returns the window in a string of `len` bytes, or `None` if there is none.
    ///
    /// The window may be reversed, out of range, or not at character boundaries; `get` tests that.
    ///
    /// Proved:
    ///
    /// - ensures `result ≡ window self len`
    fn window(self, len: usize) -> Option<(usize, usize)>;

    /// Returns the substring of `slice`, or `None` if there is none.
    ///
    /// Proved:
    ///
    /// - ensures some: `IsSome result ↔ IsWindowOf (wstr_text slice.entry) (window self (length
    ///   (wstr_bytes slice.entry)))`
    /// - ensures part: `IfSome result (λ part. wstr_text part ≡ window_text (wstr_text slice.entry)
    ///   (window self (length (wstr_bytes slice.entry))))`
    /// - ensures bytes: `IfSome result (λ part. wstr_bytes part ≡ window_bytes (wstr_bytes
    ///   slice.entry) (window self (length (wstr_bytes slice.entry))))`
    fn get<'a>(self, slice: WStr<'a, E>) -> Option<WStr<'a, E>>
    where
        Self: Sized,
    {
        let (start, end) = self.window(slice.len())?;
        slice.part(start, end)
    }

    /// Returns the substring of `slice`.
    ///
    /// # Precondition
    ///
    /// There is such a substring (check with `get`).
    ///
    /// Proved:
    ///
    /// - requires `IsWindowOf (wstr_text slice) (window self (length (wstr_bytes slice)))`
    /// - ensures text: `wstr_text result ≡ window_text (wstr_text slice.entry) (window self (length
    ///   (wstr_bytes slice.entry)))`
    /// - ensures bytes: `wstr_bytes result ≡ window_bytes (wstr_bytes slice.entry) (window self
    ///   (length (wstr_bytes slice.entry)))`
    fn get_unchecked<'a>(self, slice: WStr<'a, E>) -> WStr<'a, E>
    where
        Self: Sized,
    {
        let (start, end) = self.window(slice.len()).unwrap();
        slice.part_unchecked(start, end)
    }

    /// Returns the substring of `slice`.
    ///
    /// # Precondition
    ///
    /// There is such a substring (check with `get`).
    ///
    /// Proved:
    ///
    /// - requires `IsWindowOf (wstr_text slice) (window self (length (wstr_bytes slice)))`
    /// - ensures text: `wstr_text result ≡ window_text (wstr_text slice.entry) (window self (length
    ///   (wstr_bytes slice.entry)))`
    /// - ensures bytes: `wstr_bytes result ≡ window_bytes (wstr_bytes slice.entry) (window self
    ///   (length (wstr_bytes slice.entry)))`
    fn index<'a>(self, slice: WStr<'a, E>) -> WStr<'a, E>
    where
        Self: Sized,
    {
        self.get_unchecked(slice)
    }
}

impl<E: Utf16Order> SliceIndex<E> for Range<usize> {
    #[inline]
    fn window(self, _len: usize) -> Option<(usize, usize)> {
        Some((self.start, self.end))
    }
}

impl<E: Utf16Order> SliceIndex<E> for RangeFrom<usize> {
    #[inline]
    fn window(self, len: usize) -> Option<(usize, usize)> {
        Some((self.start, len))
    }
}

impl<E: Utf16Order> SliceIndex<E> for RangeTo<usize> {
    #[inline]
    fn window(self, _len: usize) -> Option<(usize, usize)> {
        Some((0, self.end))
    }
}

impl<E: Utf16Order> SliceIndex<E> for RangeFull {
    #[inline]
    fn window(self, len: usize) -> Option<(usize, usize)> {
        Some((0, len))
    }
}

impl<E: Utf16Order> SliceIndex<E> for RangeInclusive<usize> {
    #[inline]
    fn window(self, _len: usize) -> Option<(usize, usize)> {
        let start = *self.start();
        let last = *self.end();
        if last < usize::MAX {
            Some((start, last + 1))
        } else {
            None
        }
    }
}

impl<E: Utf16Order> SliceIndex<E> for RangeToInclusive<usize> {
    #[inline]
    fn window(self, _len: usize) -> Option<(usize, usize)> {
        let last = self.end;
        if last < usize::MAX {
            Some((0, last + 1))
        } else {
            None
        }
    }
}
