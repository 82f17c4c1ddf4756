// packaging/erase wrote this from crates/utf16string/src/wstring/repeats.rt: do not edit it.
//! A text repeated.

use crate::proved::kit::Vec;

use crate::proved::kit::{AllocError, Allocator};
use crate::proved::utf16_units::Utf16Order;
use crate::proved::utf16string::WString;

impl<E: Utf16Order, A: Allocator> WString<E, A> {
    /// Returns a new string with the text `n` times over.
    ///
    /// # Errors
    ///
    /// `AllocError`, if allocation fails, or if the result would be longer than `usize::MAX` bytes.
    /// It does not fail if the result is empty.
    ///
    /// # Complexity
    ///
    /// Allocates once, as many bytes as the result has, and not at all if it is empty.
    ///
    /// # Source
    ///
    /// `str::repeat`, which panics if the length overflows.
    ///
    /// Proved:
    ///
    /// - ensures text: `IfOk result (λ s. wstring_text s ≡ repeat n (wstring_text self.now))`
    /// - ensures nothing: `n * length (wstring_bytes self.now) ≡ 0 → IsOk result`
    /// - ensures empty: `n * length (wstring_bytes self.now) ≡ 0 → IfOk result (λ s.
    ///   wstring_capacity s ≡ 0)`
    pub fn repeat<B: Allocator>(&self, alloc: B, n: usize) -> Result<WString<E, B>, AllocError> {
        let len = self.len().checked_mul(n).ok_or(AllocError)?;
        if len == 0 {
            return Ok(WString::new(alloc));
        }
        let mut raw = Vec::with_capacity(alloc, len)?;
        for _ in 0..n {
            raw.extend_from_slice(self.as_bytes())?;
        }
        Ok(WString::from_utf16_unchecked(raw))
    }
}
