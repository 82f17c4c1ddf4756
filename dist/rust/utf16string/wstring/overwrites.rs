// packaging/erase wrote this from crates/utf16string/src/wstring/overwrites.rt: do not edit it.
//! Texts written over a part of a string.

use crate::proved::kit::Allocator;
use crate::proved::utf16_str::{WStr, WStrMut};
use crate::proved::utf16_units::Utf16Order;
use crate::proved::utf16string::WString;

impl<E: Utf16Order, A: Allocator> WString<E, A> {
    /// Returns whether a text can overwrite the bytes starting at the byte offset `idx`: whether
    /// `idx` and `idx + text.len()` are both character boundaries. Any offset is allowed.
    ///
    /// Proved:
    ///
    /// - ensures `IsTrue result ↔ (IsBoundary (wstring_text self.now) idx × IsBoundary
    ///   (wstring_text self.now) (idx + size (wstr_text text.entry)))`
    #[inline]
    pub fn fits(&self, idx: usize, text: WStr<E>) -> bool {
        self.as_wstr().fits(idx, text)
    }

    /// Overwrites the bytes starting at the byte offset `idx` with the bytes of a text. All other
    /// bytes and the capacity stay.
    ///
    /// # Precondition
    ///
    /// `idx` and `idx + text.len()` are character boundaries (check with `fits`).
    ///
    /// Proved:
    ///
    /// - requires start: `IsBoundary (wstring_text self.old) idx`
    /// - requires end: `IsBoundary (wstring_text self.old) (idx + size (wstr_text text))`
    /// - ensures text: `wstring_text self.new ≡ overwrite_at (wstring_text self.old) idx (wstr_text
    ///   text.entry)`
    /// - ensures bytes: `wstring_bytes self.new ≡ splice (wstring_bytes self.old) idx (idx + length
    ///   (wstr_bytes text.entry)) (wstr_bytes text.entry)`
    /// - ensures capacity: `wstring_capacity self.new ≡ wstring_capacity self.old`
    #[inline]
    pub fn overwrite(&mut self, idx: usize, text: WStr<E>) {
        overwrite_text(self.raw.as_mut_slice(), idx, text);
    }
}

// Overwrites the bytes of a text, starting at `idx`, with the bytes of another text.
//
// Proved:
//
// - requires well_formed: `IsUtf16 E.BIG raw.old`
// - requires start: `IsBoundary (text_of E.BIG raw.old) idx`
// - requires end: `IsBoundary (text_of E.BIG raw.old) (idx + size (wstr_text text))`
// - ensures `raw.new ≡ splice raw.old idx (idx + length (wstr_bytes text.entry)) (wstr_bytes
//   text.entry)`
#[inline]
fn overwrite_text<E: Utf16Order>(raw: &mut [u8], idx: usize, text: WStr<E>) {
    WStrMut::from_utf16_unchecked(raw).overwrite(idx, text);
}
