// packaging/erase wrote this from crates/utf16_str/src/search.rt: do not edit it.
//! Searches in a text.

use crate::proved::utf16_bytes::{find, rfind, Pattern};
use crate::proved::utf16_str::WStr;
use crate::proved::utf16_units::Utf16Order;

impl<'p, E: Utf16Order> Pattern<E> for WStr<'p, E> {
    #[inline]
    fn encoded_len(self) -> usize {
        self.len()
    }

    #[inline]
    fn first_in(self, bytes: &[u8]) -> Option<usize> {
        find::<E>(bytes, self.as_bytes())
    }

    #[inline]
    fn next_in(self, bytes: &[u8]) -> Option<usize> {
        find::<E>(bytes, self.as_bytes())
    }

    #[inline]
    fn last_in(self, bytes: &[u8]) -> Option<usize> {
        rfind::<E>(bytes, self.as_bytes())
    }

    #[inline]
    fn prefix_len(self, bytes: &[u8]) -> Option<usize> {
        bytes.starts_with(self.as_bytes()).then_some(self.len())
    }

    #[inline]
    fn suffix_len(self, bytes: &[u8]) -> Option<usize> {
        bytes.ends_with(self.as_bytes()).then_some(self.len())
    }
}

impl<'a, E: Utf16Order> WStr<'a, E> {
    /// Returns the least byte offset at which a text or a character occurs in this text, or `None`
    /// if it occurs nowhere. The empty text occurs at each boundary, so first at 0.
    ///
    /// # Complexity
    ///
    /// Linear in both lengths. Does not allocate.
    ///
    /// # Source
    ///
    /// `str::find`, with offsets in bytes of UTF-16.
    ///
    /// Proved:
    ///
    /// - ensures first: `IsFirst (λ at. OccursIn (wstr_text self.entry) at (P.part pattern))
    ///   result`
    /// - ensures around: `IfSome result (λ at. wstr_text self.entry ≡ text_to (wstr_text
    ///   self.entry) at ++ P.part pattern ++ text_from (wstr_text self.entry) (at + size (P.part
    ///   pattern)))`
    pub fn find<P: Pattern<E>>(self, pattern: P) -> Option<usize> {
        pattern.first_in(self.as_bytes())
    }

    /// Returns the greatest byte offset at which a text or a character occurs in this text, or
    /// `None` if it occurs nowhere. The empty text occurs last at the length.
    ///
    /// # Complexity
    ///
    /// Linear in both lengths. Does not allocate.
    ///
    /// # Source
    ///
    /// `str::rfind`, with offsets in bytes of UTF-16.
    ///
    /// Proved:
    ///
    /// - ensures last: `IsLast (λ at. OccursIn (wstr_text self.entry) at (P.part pattern)) result`
    /// - ensures around: `IfSome result (λ at. wstr_text self.entry ≡ text_to (wstr_text
    ///   self.entry) at ++ P.part pattern ++ text_from (wstr_text self.entry) (at + size (P.part
    ///   pattern)))`
    pub fn rfind<P: Pattern<E>>(self, pattern: P) -> Option<usize> {
        pattern.last_in(self.as_bytes())
    }

    /// Returns `true` if a text or a character occurs in this text.
    ///
    /// # Complexity
    ///
    /// Linear in both lengths. Does not allocate.
    ///
    /// Proved:
    ///
    /// - ensures occurs: `IsTrue result ↔ ((front : List ℕ) × (back : List ℕ) × (wstr_text
    ///   self.entry ≡ front ++ P.part pattern ++ back))`
    /// - ensures value: `result ≡ has_part (P.part pattern) (wstr_text self.entry)`
    pub fn contains<P: Pattern<E>>(self, pattern: P) -> bool {
        self.find(pattern).is_some()
    }
}
