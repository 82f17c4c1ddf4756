// packaging/erase wrote this from crates/utf16string/src/wstring/cmp.rt: do not edit it.
//! Comparison of strings by scalar values, character by character, like `String`. In both byte
//! orders the result can differ from a comparison of the bytes or of the code units.

use crate::proved::kit::Allocator;
use crate::proved::utf16_units::Utf16Order;
use crate::proved::utf16string::WString;
use core::cmp::Ordering;

impl<E: Utf16Order, A: Allocator> PartialOrd for WString<E, A> {
    #[inline]
    fn partial_cmp(&self, other: &Self) -> Option<Ordering> {
        Some(self.cmp(other))
    }
}

impl<E: Utf16Order, A: Allocator> Ord for WString<E, A> {
    // Proved:
    //
    // - ensures cmp: `result ≡ slice_cmp nat_cmp (wstring_text self.now) (wstring_text other.now)`
    // - ensures less: `result ≡ Less ↔ IsBefore (wstring_text self.now) (wstring_text other.now)`
    // - ensures equal: `result ≡ Equal ↔ (wstring_text self.now ≡ wstring_text other.now)`
    // - ensures greater: `result ≡ Greater ↔ IsBefore (wstring_text other.now) (wstring_text
    //   self.now)`
    #[inline]
    fn cmp(&self, other: &Self) -> Ordering {
        self.as_wstr().cmp(&other.as_wstr())
    }
}
