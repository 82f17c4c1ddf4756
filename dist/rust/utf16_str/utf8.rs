// packaging/erase wrote this from crates/utf16_str/src/utf8.rt: do not edit it.
//! Conversion of a view to UTF-8.

use crate::proved::kit::String;

use crate::proved::kit::{AllocError, Allocator};
use crate::proved::utf16_str::WStr;
use crate::proved::utf16_to_utf8::{append_utf8, to_utf8};
use crate::proved::utf16_units::Utf16Order;

impl<'a, E: Utf16Order> WStr<'a, E> {
    /// Returns the text in UTF-8, as a new `String`.
    ///
    /// # Errors
    ///
    /// `AllocError`, only if allocation fails.
    ///
    /// # Complexity
    ///
    /// One pass over a text of fewer than 192 bytes, else two. Allocates once, for as many bytes as
    /// the characters take, but at least eight, and not at all for the empty text.
    ///
    /// Proved:
    ///
    /// - ensures text: `IfOk result (λ s. string_bytes s ≡ encode_utf8_all (wstr_text self.now))`
    /// - ensures nothing: `wstr_text self.now ≡ [] → IsOk result`
    #[inline]
    pub fn to_utf8<A: Allocator>(&self, alloc: A) -> Result<String<A>, AllocError> {
        to_utf8::<E, A>(self.as_bytes(), alloc)
    }

    /// Appends the text, in UTF-8, to a `String`.
    ///
    /// # Errors
    ///
    /// `AllocError`, only if allocation fails. `to` is unchanged.
    ///
    /// # Complexity
    ///
    /// One pass if the view has 8 to 190 bytes, or if `to` has spare capacity of three bytes per
    /// code unit, else two. Allocates once, and not at all if the spare capacity suffices.
    ///
    /// Proved:
    ///
    /// - ensures text: `OnOk result (string_bytes to.new ≡ string_bytes to.old ++ encode_utf8_all
    ///   (wstr_text self.entry))`
    /// - ensures err: `OnErr result ((string_bytes to.new ≡ string_bytes to.old) × (string_capacity
    ///   to.new ≡ string_capacity to.old))`
    /// - ensures grows: `string_capacity to.old ≤ string_capacity to.new`
    /// - ensures succeeds: `string_len to.old + length (encode_utf8_all (wstr_text self.entry)) ≤
    ///   string_capacity to.old → IsOk result`
    /// - ensures nothing: `wstr_text self.entry ≡ [] → IsOk result`
    #[inline]
    pub fn push_utf8<A: Allocator>(self, to: &mut String<A>) -> Result<(), AllocError> {
        append_utf8::<E, A>(self.as_bytes(), to)
    }
}
