// packaging/erase wrote this from crates/utf16string/src/wstring/utf8.rt: do not edit it.
//! Strings made from UTF-8, and UTF-8 appended to a string or inserted into it.

use crate::proved::kit::Vec;

use super::inserts::write_char;
use super::ranges::turn_in;
use crate::proved::kit::{AllocError, Allocator};
use crate::proved::utf16_from_utf8::{append_utf16, extend_utf16, write_text, SLACK};
use crate::proved::utf16_units::size::utf16_len_by_chars;
use crate::proved::utf16_units::strategy::{FEW_TEXT, SHORT_TEXT};
use crate::proved::utf16_units::{utf16_len, Utf16Order};
use crate::proved::utf16string::WString;

impl<E: Utf16Order, A: Allocator> WString<E, A> {
    /// Returns a new string with the characters of a UTF-8 string.
    ///
    /// # Errors
    ///
    /// `AllocError`, if allocation fails. It does not fail for the empty text.
    ///
    /// # Complexity
    ///
    /// One pass over a text of 8 to 191 bytes, else two. Allocates once, for as many bytes as the
    /// string takes, and not at all for the empty text.
    ///
    /// Proved:
    ///
    /// - ensures text: `IfOk result (λ t. wstring_text t ≡ chars s.now)`
    /// - ensures nothing: `s.now ≡ [] → IsOk result`
    /// - ensures empty: `s.now ≡ [] → IfOk result (λ t. wstring_capacity t ≡ 0)`
    #[inline]
    pub fn from_str(alloc: A, s: &str) -> Result<Self, AllocError> {
        if s.len() < FEW_TEXT {
            Self::from_few(alloc, s)
        } else if s.len() <= SHORT_TEXT {
            Self::from_short(alloc, s)
        } else {
            Self::from_long(alloc, s)
        }
    }

    // Converts a few characters, whose length is computed first.
    //
    // Proved:
    //
    // - ensures text: `IfOk result (λ t. wstring_text t ≡ chars s.now)`
    // - ensures nothing: `s.now ≡ [] → IsOk result`
    // - ensures exact: `IfOk result (λ t. wstring_capacity t ≡ size (chars s.now))`
    #[inline(never)]
    fn from_few(alloc: A, s: &str) -> Result<Self, AllocError> {
        let mut raw = Vec::with_capacity(alloc, utf16_len_by_chars(s))?;
        for c in s.chars() {
            write_char::<E, A>(&mut raw, c);
        }
        Ok(Self::from_utf16_unchecked(raw))
    }

    // Converts a short text, which is written to the stack before its length is known.
    //
    // Proved:
    //
    // - requires `length s.now ≤ SHORT_TEXT`
    // - ensures `IfOk result (λ t. wstring_text t ≡ chars s.now)`
    #[inline(never)]
    fn from_short(alloc: A, s: &str) -> Result<Self, AllocError> {
        let mut buf = [0; 2 * SHORT_TEXT + SLACK];
        let end = write_text::<E>(s.as_bytes(), &mut buf);
        let mut raw = Vec::with_capacity(alloc, end)?;
        raw.extend_from_slice(&buf[..end])?;
        Ok(Self::from_utf16_unchecked(raw))
    }

    // Converts a long text, whose length is computed first.
    //
    // Proved:
    //
    // - ensures `IfOk result (λ t. wstring_text t ≡ chars s.now)`
    #[inline(never)]
    fn from_long(alloc: A, s: &str) -> Result<Self, AllocError> {
        let mut raw = Vec::with_capacity(alloc, utf16_len(s))?;
        extend_utf16::<E, A>(&mut raw, s)?;
        Ok(Self::from_utf16_unchecked(raw))
    }

    /// Appends the characters of a UTF-8 string.
    ///
    /// # Errors
    ///
    /// `AllocError`, if allocation fails. The string is unchanged.
    ///
    /// # Complexity
    ///
    /// One pass over a text of fewer than 192 bytes, else two. Allocates at most once, and not at
    /// all if the text fits in the capacity.
    ///
    /// Proved:
    ///
    /// - ensures text: `OnOk result (wstring_text self.new ≡ push_text (wstring_text self.old)
    ///   (chars string.now))`
    /// - ensures len: `OnOk result (length (wstring_bytes self.new) ≡ length (wstring_bytes
    ///   self.old) + size (chars string.now))`
    /// - ensures err: `OnErr result (IsUnchanged self.old self.new)`
    /// - ensures succeeds: `length (wstring_bytes self.old) + size (chars string.now) ≤
    ///   wstring_capacity self.old → IsOk result`
    /// - ensures grows: `wstring_capacity self.old ≤ wstring_capacity self.new`
    pub fn push_str(&mut self, string: &str) -> Result<(), AllocError> {
        append_utf16::<E, A>(&mut self.raw, string)
    }

    /// Inserts the characters of a UTF-8 string at a byte offset.
    ///
    /// # Errors
    ///
    /// `AllocError`, if allocation fails. The string is unchanged.
    ///
    /// # Precondition
    ///
    /// The offset is a character boundary (check with `is_char_boundary`).
    ///
    /// # Complexity
    ///
    /// As of `push_str`. Moves the bytes after the offset in blocks.
    ///
    /// # Source
    ///
    /// `String::insert_str`.
    ///
    /// Proved:
    ///
    /// - requires `IsBoundary (wstring_text self.old) idx`
    /// - ensures text: `OnOk result (wstring_text self.new ≡ insert_at (wstring_text self.old) idx
    ///   (chars string.now))`
    /// - ensures len: `OnOk result (length (wstring_bytes self.new) ≡ length (wstring_bytes
    ///   self.old) + size (chars string.now))`
    /// - ensures err: `OnErr result (IsUnchanged self.old self.new)`
    /// - ensures succeeds: `length (wstring_bytes self.old) + size (chars string.now) ≤
    ///   wstring_capacity self.old → IsOk result`
    /// - ensures grows: `wstring_capacity self.old ≤ wstring_capacity self.new`
    pub fn insert_str(&mut self, idx: usize, string: &str) -> Result<(), AllocError> {
        insert_utf8::<E, A>(&mut self.raw, idx, string)
    }
}

// Inserts the characters of a UTF-8 string at an index. If allocation fails, nothing has changed.
// They are appended first, since a vector grows only at its end.
//
// Proved:
//
// - requires `index ≤ vec_len raw.old`
// - ensures items: `OnOk result (raw.new.items ≡ splice raw.old.items index index (encode E.BIG
//   (chars string.now)))`
// - ensures err: `OnErr result (VecUnchanged raw.old raw.new × (vec_capacity raw.new ≡ vec_capacity
//   raw.old))`
// - ensures succeeds: `vec_len raw.old + size (chars string.now) ≤ vec_capacity raw.old → IsOk
//   result`
// - ensures grows: `vec_capacity raw.old ≤ vec_capacity raw.new`
fn insert_utf8<E: Utf16Order, A: Allocator>(
    raw: &mut Vec<u8, A>,
    index: usize,
    string: &str,
) -> Result<(), AllocError> {
    let len = raw.len();
    append_utf16::<E, A>(raw, string)?;
    let added = raw.len() - len;
    turn_in(raw, index, added);
    Ok(())
}
