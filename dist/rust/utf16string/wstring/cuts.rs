// packaging/erase wrote this from crates/utf16string/src/wstring/cuts.rt: do not edit it.
//! Removal of characters and texts from a string.

use crate::proved::kit::{Clone, Vec};

use crate::proved::kit::{AllocError, Allocator};
use crate::proved::utf16_units::ends::last_char;
use crate::proved::utf16_units::{Utf16CharExt, Utf16Order};
use crate::proved::utf16string::WString;

impl<E: Utf16Order, A: Allocator> WString<E, A> {
    /// Removes the last character and returns it, or `None` if the text is empty. The capacity
    /// stays.
    ///
    /// Proved:
    ///
    /// - ensures some: `IsSome result ↔ (wstring_text self.old ≢ [])`
    /// - ensures text: `push_text (wstring_text self.new) (option_to_list result) ≡ wstring_text
    ///   self.old`
    /// - ensures capacity: `wstring_capacity self.new ≡ wstring_capacity self.old`
    #[inline]
    pub fn pop(&mut self) -> Option<char> {
        if self.raw.is_empty() {
            return None;
        }
        // The size is that of `last_char`, not computed from the character: the next call does not
        // wait for a character to be decoded.
        let (last, size) = last_char::<E>(&self.raw);
        let front = self.raw.len() - size;
        self.raw.truncate(front);
        Some(last)
    }

    /// Removes the character at a byte offset and returns it. The capacity stays.
    ///
    /// # Precondition
    ///
    /// The offset is a character boundary (check with `is_char_boundary`) below the length in bytes
    /// (check with `len`).
    ///
    /// # Complexity
    ///
    /// Moves the bytes after the character in one block.
    ///
    /// Proved:
    ///
    /// - requires boundary: `IsBoundary (wstring_text self.old) idx`
    /// - requires within: `idx < size (wstring_text self.old)`
    /// - ensures char: `char_at (wstring_text self.old) idx ≡ Some result`
    /// - ensures text: `wstring_text self.new ≡ remove_at (wstring_text self.old) idx`
    /// - ensures capacity: `wstring_capacity self.new ≡ wstring_capacity self.old`
    pub fn remove(&mut self, idx: usize) -> char {
        let removed = self.index(idx..).chars().next().unwrap();
        remove_bytes(&mut self.raw, idx, idx + removed.encoded_utf16_len());
        removed
    }

    /// Shortens the text to `new_len` bytes. Does nothing if `new_len` is at least the length, even
    /// if it is odd. The capacity stays.
    ///
    /// # Precondition
    ///
    /// A `new_len` below the length is a character boundary (check with `is_char_boundary`).
    ///
    /// Proved:
    ///
    /// - requires `new_len < size (wstring_text self.old) → IsBoundary (wstring_text self.old)
    ///   new_len`
    /// - ensures cut: `new_len < size (wstring_text self.old) → wstring_text self.new ≡ text_to
    ///   (wstring_text self.old) new_len`
    /// - ensures past: `size (wstring_text self.old) ≤ new_len → wstring_text self.new ≡
    ///   wstring_text self.old`
    /// - ensures capacity: `wstring_capacity self.new ≡ wstring_capacity self.old`
    #[inline]
    pub fn truncate(&mut self, new_len: usize) {
        self.raw.truncate(new_len);
    }

    /// Removes all characters. The capacity stays.
    ///
    /// Proved:
    ///
    /// - ensures text: `wstring_text self.new ≡ []`
    /// - ensures capacity: `wstring_capacity self.new ≡ wstring_capacity self.old`
    #[inline]
    pub fn clear(&mut self) {
        self.raw.clear();
    }

    /// Splits the text at a byte offset: keeps the prefix, with the capacity, and returns the rest.
    ///
    /// # Errors
    ///
    /// `AllocError`, if allocation fails or the allocator cannot be cloned. The string is
    /// unchanged.
    ///
    /// # Precondition
    ///
    /// The offset is a character boundary (check with `is_char_boundary`).
    ///
    /// # Complexity
    ///
    /// Copies the bytes of the rest once. Allocates nothing if the rest is empty.
    ///
    /// Proved:
    ///
    /// - requires `IsBoundary (wstring_text self.old) at`
    /// - ensures front: `OnOk result (wstring_text self.new ≡ split_front (wstring_text self.old)
    ///   at)`
    /// - ensures back: `IfOk result (λ back. wstring_text back ≡ split_back (wstring_text self.old)
    ///   at)`
    /// - ensures err: `OnErr result (IsUnchanged self.old self.new)`
    /// - ensures infallible: `at ≡ size (wstring_text self.old) → A.is_infallible (vec_allocator
    ///   (wstring_vec self.old)) → IsOk result`
    /// - ensures empty: `at ≡ size (wstring_text self.old) → IfOk result (λ back. wstring_capacity
    ///   back ≡ 0)`
    /// - ensures capacity: `wstring_capacity self.new ≡ wstring_capacity self.old`
    pub fn split_off(&mut self, at: usize) -> Result<WString<E, A>, AllocError>
    where
        A: Clone,
    {
        if at == self.len() {
            let alloc = self.raw.allocator().clone()?;
            return Ok(WString::new(alloc));
        }
        let back = self.raw.split_off(at)?;
        Ok(WString::from_utf16_unchecked(back))
    }
}

// Removes the bytes of a character. Each length has its own call: the distance is a constant there,
// so LLVM makes a `memmove` of it.
//
// Proved:
//
// - requires size: `(end ≡ start + 2) ⊎ (end ≡ start + 4)`
// - requires within: `end ≤ vec_len raw.old`
// - ensures items: `raw.new.items ≡ remove_range raw.old.items start end`
// - ensures capacity: `vec_capacity raw.new ≡ vec_capacity raw.old`
#[inline]
fn remove_bytes<A: Allocator>(raw: &mut Vec<u8, A>, start: usize, end: usize) {
    if end - start == 2 {
        close_gap(raw, start, 2);
    } else {
        close_gap(raw, start, 4);
    }
}

// Removes `size` bytes at an index.
//
// Proved:
//
// - requires `start + size ≤ vec_len raw.old`
// - ensures items: `raw.new.items ≡ remove_range raw.old.items start (start + size)`
// - ensures capacity: `vec_capacity raw.new ≡ vec_capacity raw.old`
#[inline]
fn close_gap<A: Allocator>(raw: &mut Vec<u8, A>, start: usize, size: usize) {
    let front = raw.len() - size;
    raw[start..].copy_within(size.., 0);
    raw.truncate(front);
}
