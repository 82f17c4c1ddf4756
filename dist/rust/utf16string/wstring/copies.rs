// packaging/erase wrote this from crates/utf16string/src/wstring/copies.rt: do not edit it.
//! Strings copied from a view, and copies of a string.

use crate::proved::kit::{Clone, Vec};

use crate::proved::kit::{AllocError, Allocator};
use crate::proved::utf16_str::WStr;
use crate::proved::utf16_units::Utf16Order;
use crate::proved::utf16string::WString;

impl<E: Utf16Order, A: Allocator> WString<E, A> {
    /// Returns a new string with the text of a view, in memory of the given allocator.
    ///
    /// # Errors
    ///
    /// `AllocError`, if allocation fails. It does not fail for the empty text.
    ///
    /// # Complexity
    ///
    /// Copies the bytes once. Allocates once, as many bytes as the text has, and not at all for the
    /// empty text.
    ///
    /// Proved:
    ///
    /// - ensures text: `IfOk result (λ s. wstring_text s ≡ wstr_text text.entry)`
    /// - ensures bytes: `IfOk result (λ s. wstring_bytes s ≡ wstr_bytes text.entry)`
    /// - ensures nothing: `wstr_text text.entry ≡ [] → IsOk result`
    /// - ensures empty: `wstr_text text.entry ≡ [] → IfOk result (λ s. wstring_capacity s ≡ 0)`
    pub fn from_wstr(alloc: A, text: WStr<E>) -> Result<Self, AllocError> {
        if text.is_empty() {
            return Ok(Self::new(alloc));
        }
        let raw = Vec::from_slice(alloc, text.as_bytes())?;
        Ok(Self::from_utf16_unchecked(raw))
    }
}

impl<E: Utf16Order, A: Allocator + Clone> WString<E, A> {
    /// Returns a new string with the same text, in memory of a clone of the string's allocator.
    ///
    /// # Errors
    ///
    /// `AllocError`, if allocation fails or the allocator cannot be cloned.
    ///
    /// # Complexity
    ///
    /// Copies the bytes once. Allocates once, as many bytes as the text has, and not at all for the
    /// empty text.
    ///
    /// Proved:
    ///
    /// - ensures text: `IfOk result (λ copy. wstring_text copy ≡ wstring_text self.now)`
    /// - ensures bytes: `IfOk result (λ copy. wstring_bytes copy ≡ wstring_bytes self.now)`
    /// - ensures infallible: `wstring_text self.now ≡ [] → A.is_infallible (vec_allocator
    ///   (wstring_vec self.now)) → IsOk result`
    /// - ensures empty: `wstring_text self.now ≡ [] → IfOk result (λ copy. wstring_capacity copy ≡
    ///   0)`
    pub fn clone(&self) -> Result<Self, AllocError> {
        let alloc = self.raw.allocator().clone()?;
        Self::from_wstr(alloc, self.as_wstr())
    }
}

impl<E: Utf16Order, A: Allocator + Clone> Clone for WString<E, A> {
    fn clone(&self) -> Result<Self, AllocError> {
        WString::clone(self)
    }
}
