// packaging/erase wrote this from crates/utf16string/src/wstring/byte_order.rt: do not edit it.
//! A string converted to the other byte order.

use crate::proved::kit::Allocator;
use crate::proved::utf16_bytes::swap_byte_order;
use crate::proved::utf16_units::Utf16Order;
use crate::proved::utf16string::WString;

impl<E: Utf16Order, A: Allocator> WString<E, A> {
    /// Converts the string to byte order `F`: returns the same text in the same memory. For a copy
    /// in the other byte order, call `from_wstr` first.
    ///
    /// # Complexity
    ///
    /// If the byte order changes, swaps the two bytes of each code unit in one pass; otherwise
    /// leaves the bytes as they are. Allocates nothing, and the capacity stays.
    ///
    /// Proved:
    ///
    /// - ensures text: `wstring_text result ≡ wstring_text self`
    /// - ensures encoding: `Encodes F.BIG (wstring_text self) (wstring_bytes result)`
    /// - ensures same: `E.BIG ≡ F.BIG → wstring_bytes result ≡ wstring_bytes self`
    /// - ensures capacity: `wstring_capacity result ≡ wstring_capacity self`
    /// - ensures allocator: `vec_allocator (wstring_vec result) ≡ vec_allocator (wstring_vec self)`
    pub fn into_byte_order<F: Utf16Order>(self) -> WString<F, A> {
        let mut raw = self.raw;
        if E::is_big() != F::is_big() {
            swap_byte_order(raw.as_mut_slice());
        }
        WString::<F, A>::from_utf16_unchecked(raw)
    }
}
