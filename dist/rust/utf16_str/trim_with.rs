// packaging/erase wrote this from crates/utf16_str/src/trim_with.rt: do not edit it.
//! A text without the characters at its ends for which a predicate is true.

use crate::proved::utf16_str::WStr;
use crate::proved::utf16_units::Utf16Order;

impl<'a, E: Utf16Order> WStr<'a, E> {
    /// Returns the text without the characters at its start for which the predicate is true: it
    /// begins with the first one for which the predicate is false.
    ///
    /// # Precondition
    ///
    /// The predicate may be called on any character.
    ///
    /// # Complexity
    ///
    /// One pass over what it takes off, and one character more. Copies nothing.
    ///
    /// # Source
    ///
    /// `str::trim_start_matches` with a closure. The name is that of `ByteSlice::trim_start_with`
    /// of the crate `bstr`.
    ///
    /// Proved:
    ///
    /// - requires `F.IsAlwaysCallable predicate`
    /// - ensures text: `IsTrimmedStartWith (F.post predicate) (wstr_text self.entry) (wstr_text
    ///   result)`
    /// - ensures bytes: `wstr_bytes result ≡ drop (length (wstr_bytes self.entry) - length
    ///   (wstr_bytes result)) (wstr_bytes self.entry)`
    #[inline]
    pub fn trim_start_with<F: Fn(char) -> bool>(self, predicate: F) -> Self {
        self.trim_start_by(&predicate)
    }

    /// Returns the text without the characters at its end for which the predicate is true: it ends
    /// with the last one for which the predicate is false.
    ///
    /// # Precondition
    ///
    /// The predicate may be called on any character.
    ///
    /// # Complexity
    ///
    /// One pass over what it takes off, and one character more. Copies nothing.
    ///
    /// # Source
    ///
    /// `str::trim_end_matches` with a closure. The name is that of `ByteSlice::trim_end_with` of
    /// the crate `bstr`.
    ///
    /// Proved:
    ///
    /// - requires `F.IsAlwaysCallable predicate`
    /// - ensures text: `IsTrimmedEndWith (F.post predicate) (wstr_text self.entry) (wstr_text
    ///   result)`
    /// - ensures bytes: `wstr_bytes result ≡ take (length (wstr_bytes result)) (wstr_bytes
    ///   self.entry)`
    #[inline]
    pub fn trim_end_with<F: Fn(char) -> bool>(self, predicate: F) -> Self {
        self.trim_end_by(&predicate)
    }

    /// Returns the text without the characters at its start, and then at its end, for which the
    /// predicate is true.
    ///
    /// # Precondition
    ///
    /// The predicate may be called on any character.
    ///
    /// # Complexity
    ///
    /// One pass over what it takes off, and two characters more. Copies nothing.
    ///
    /// # Source
    ///
    /// `str::trim_matches` with a closure. The name is that of `ByteSlice::trim_with` of the crate
    /// `bstr`.
    ///
    /// Proved:
    ///
    /// - requires `F.IsAlwaysCallable predicate`
    /// - ensures text: `IsTrimmedWith (F.post predicate) (wstr_text self.entry) (wstr_text result)`
    /// - ensures bytes: `LiesAfterTrim (F.post predicate) (wstr_text self.entry) (wstr_bytes
    ///   self.entry) (wstr_bytes result)`
    #[inline]
    pub fn trim_with<F: Fn(char) -> bool>(self, predicate: F) -> Self {
        self.trim_start_by(&predicate).trim_end_by(&predicate)
    }

    // The text without the characters at its start for which the predicate is true.
    //
    // Proved:
    //
    // - requires `F.IsAlwaysCallable predicate.now`
    // - ensures text: `IsTrimmedStartWith (F.post predicate.now) (wstr_text self.entry) (wstr_text
    //   result)`
    // - ensures bytes: `wstr_bytes result ≡ drop (length (wstr_bytes self.entry) - length
    //   (wstr_bytes result)) (wstr_bytes self.entry)`
    pub(crate) fn trim_start_by<F: Fn(char) -> bool>(self, predicate: &F) -> Self {
        let mut rest = self;
        let mut chars = self.chars();
        while let Some(c) = chars.next() {
            if !predicate(c) {
                return rest;
            }
            rest = chars.as_wstr();
        }
        rest
    }

    // The text without the characters at its end for which the predicate is true.
    //
    // Proved:
    //
    // - requires `F.IsAlwaysCallable predicate.now`
    // - ensures text: `IsTrimmedEndWith (F.post predicate.now) (wstr_text self.entry) (wstr_text
    //   result)`
    // - ensures bytes: `wstr_bytes result ≡ take (length (wstr_bytes result)) (wstr_bytes
    //   self.entry)`
    pub(crate) fn trim_end_by<F: Fn(char) -> bool>(self, predicate: &F) -> Self {
        let mut front = self;
        let mut chars = self.chars();
        while let Some(c) = chars.next_back() {
            if !predicate(c) {
                return front;
            }
            front = chars.as_wstr();
        }
        front
    }
}
