// packaging/erase wrote this from crates/utf16string/src/wstring/writes.rt: do not edit it.
//! Text formatted into a string.

use crate::proved::kit::Allocator;
use crate::proved::utf16_units::Utf16Order;
use crate::proved::utf16string::WString;
use core::fmt;

/// `write!` appends what it formats, piece by piece.
impl<E: Utf16Order, A: Allocator> fmt::Write for WString<E, A> {
    /// Appends the characters of a UTF-8 string, like `push_str`.
    ///
    /// # Errors
    ///
    /// `fmt::Error`, if allocation fails. The string is unchanged by this call. What `write!`
    /// appended before with other calls stays.
    ///
    /// Proved:
    ///
    /// - ensures ok: `IsOk result → wstring_utf8 self.new ≡ wstring_utf8 self.old ++ s.now`
    /// - ensures text: `OnOk result (wstring_text self.new ≡ push_text (wstring_text self.old)
    ///   (chars s.now))`
    /// - ensures err: `OnErr result (IsUnchanged self.old self.new)`
    /// - ensures succeeds: `length (wstring_bytes self.old) + size (chars s.now) ≤ wstring_capacity
    ///   self.old → IsOk result`
    /// - ensures grows: `wstring_capacity self.old ≤ wstring_capacity self.new`
    fn write_str(&mut self, s: &str) -> fmt::Result {
        self.push_str(s)?;
        Ok(())
    }
}
