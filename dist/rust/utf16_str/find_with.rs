// packaging/erase wrote this from crates/utf16_str/src/find_with.rt: do not edit it.
//! The first and the last character for which a predicate is true.

use crate::proved::utf16_str::WStr;
use crate::proved::utf16_units::Utf16Order;

impl<'a, E: Utf16Order> WStr<'a, E> {
    /// Returns the least byte offset of a character for which the predicate is true, or `None` if
    /// there is none.
    ///
    /// # Precondition
    ///
    /// The predicate may be called on any character.
    ///
    /// # Complexity
    ///
    /// One pass, up to that character. Calls the predicate once for each character that it passes.
    ///
    /// # Source
    ///
    /// `str::find` with a closure, with offsets in bytes of UTF-16.
    ///
    /// Proved:
    ///
    /// - requires `F.IsAlwaysCallable predicate`
    /// - ensures first: `IsFirstWith (F.post predicate) (wstr_text self.entry) result`
    /// - ensures boundary: `IfSome result (IsBoundary (wstr_text self.entry))`
    #[inline]
    pub fn find_with<F: Fn(char) -> bool>(self, predicate: F) -> Option<usize> {
        self.find_by(&predicate)
    }

    /// Returns the greatest byte offset of a character for which the predicate is true, or `None`
    /// if there is none.
    ///
    /// # Precondition
    ///
    /// The predicate may be called on any character.
    ///
    /// # Complexity
    ///
    /// One pass, from the end down to that character. Calls the predicate once for each character
    /// that it passes.
    ///
    /// # Source
    ///
    /// `str::rfind` with a closure, with offsets in bytes of UTF-16.
    ///
    /// Proved:
    ///
    /// - requires `F.IsAlwaysCallable predicate`
    /// - ensures last: `IsLastWith (F.post predicate) (wstr_text self.entry) result`
    /// - ensures boundary: `IfSome result (IsBoundary (wstr_text self.entry))`
    #[inline]
    pub fn rfind_with<F: Fn(char) -> bool>(self, predicate: F) -> Option<usize> {
        self.rfind_by(&predicate)
    }

    // The least byte offset of a character for which the predicate is true.
    //
    // Proved:
    //
    // - requires `F.IsAlwaysCallable predicate.now`
    // - ensures `IsFirstWith (F.post predicate.now) (wstr_text self.entry) result`
    pub(crate) fn find_by<F: Fn(char) -> bool>(self, predicate: &F) -> Option<usize> {
        for (at, c) in self.char_indices() {
            if predicate(c) {
                return Some(at);
            }
        }
        None
    }

    // The greatest byte offset of a character for which the predicate is true.
    //
    // Proved:
    //
    // - requires `F.IsAlwaysCallable predicate.now`
    // - ensures `IsLastWith (F.post predicate.now) (wstr_text self.entry) result`
    pub(crate) fn rfind_by<F: Fn(char) -> bool>(self, predicate: &F) -> Option<usize> {
        let mut chars = self.chars();
        while let Some(c) = chars.next_back() {
            if predicate(c) {
                return Some(chars.as_wstr().len());
            }
        }
        None
    }
}
