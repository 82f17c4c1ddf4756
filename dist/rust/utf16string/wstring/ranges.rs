// packaging/erase wrote this from crates/utf16string/src/wstring/ranges.rt: do not edit it.
//! Substrings of a string replaced or removed, by ranges of byte offsets.

use crate::proved::kit::{Clone, Vec};

use super::inserts::append;
use crate::proved::kit::{AllocError, Allocator};
use crate::proved::utf16_str::{SliceIndex, WStr};
use crate::proved::utf16_units::Utf16Order;
use crate::proved::utf16string::WString;

impl<E: Utf16Order, A: Allocator> WString<E, A> {
    /// Replaces the substring at a range with a text.
    ///
    /// # Errors
    ///
    /// `AllocError`, if allocation fails. The string is unchanged.
    ///
    /// # Precondition
    ///
    /// The start is at most the end, and both are character boundaries (check with `get`).
    ///
    /// # Complexity
    ///
    /// Moves the bytes after the range in blocks. Allocates at most once, and not at all if the
    /// result fits in the capacity.
    ///
    /// # Source
    ///
    /// `String::replace_range`.
    ///
    /// Proved:
    ///
    /// - requires `IsRangeOf E.BIG (wstring_bytes self.old) (I.window range)`
    /// - ensures text: `OnOk result (wstring_text self.new ≡ range_replaced E.BIG (wstring_bytes
    ///   self.old) (I.window range) (wstr_text replace_with.entry))`
    /// - ensures len: `OnOk result (length (wstring_bytes self.new) + length (range_bytes
    ///   (wstring_bytes self.old) (I.window range)) ≡ length (wstring_bytes self.old) + length
    ///   (wstr_bytes replace_with.entry))`
    /// - ensures err: `OnErr result (IsUnchanged self.old self.new)`
    /// - ensures succeeds: `length (wstring_bytes self.old) + length (wstr_bytes
    ///   replace_with.entry) ≤ wstring_capacity self.old + length (range_bytes (wstring_bytes
    ///   self.old) (I.window range)) → IsOk result`
    /// - ensures grows: `wstring_capacity self.old ≤ wstring_capacity self.new`
    pub fn replace_range<I: SliceIndex<E>>(
        &mut self,
        range: I,
        replace_with: WStr<E>,
    ) -> Result<(), AllocError> {
        let (start, end) = range.window(self.len()).unwrap();
        replace_bytes(&mut self.raw, start, end, replace_with.as_bytes())
    }

    /// Removes the substring at a range and returns it as a string, in memory of a clone of the
    /// string's allocator. The capacity stays.
    ///
    /// std's `drain` returns an iterator, which removes the range when it is dropped. Here the
    /// range is removed when the call returns; call `chars` on the result for its characters.
    ///
    /// # Errors
    ///
    /// `AllocError`, if allocation fails or the allocator cannot be cloned. The string is
    /// unchanged.
    ///
    /// # Precondition
    ///
    /// The start is at most the end, and both are character boundaries (check with `get`).
    ///
    /// # Complexity
    ///
    /// Copies the bytes of the range once, and moves the bytes after it in blocks. Allocates once,
    /// as many bytes as the range has, and not at all if it is empty.
    ///
    /// # Source
    ///
    /// `String::drain`, with the result as a string.
    ///
    /// Proved:
    ///
    /// - requires `IsRangeOf E.BIG (wstring_bytes self.old) (I.window range)`
    /// - ensures text: `OnOk result (wstring_text self.new ≡ range_removed E.BIG (wstring_bytes
    ///   self.old) (I.window range))`
    /// - ensures drained: `IfOk result (λ part. wstring_text part ≡ range_text E.BIG (wstring_bytes
    ///   self.old) (I.window range))`
    /// - ensures err: `OnErr result (IsUnchanged self.old self.new)`
    /// - ensures infallible: `range_text E.BIG (wstring_bytes self.old) (I.window range) ≡ [] →
    ///   A.is_infallible (vec_allocator (wstring_vec self.old)) → IsOk result`
    /// - ensures empty: `range_text E.BIG (wstring_bytes self.old) (I.window range) ≡ [] → IfOk
    ///   result (λ part. wstring_capacity part ≡ 0)`
    /// - ensures capacity: `wstring_capacity self.new ≡ wstring_capacity self.old`
    pub fn drain<I: SliceIndex<E>>(&mut self, range: I) -> Result<WString<E, A>, AllocError>
    where
        A: Clone,
    {
        let (start, end) = range.window(self.len()).unwrap();
        let alloc = self.raw.allocator().clone()?;
        let part = WString::from_wstr(alloc, self.index(start..end))?;
        cut_out(&mut self.raw, start, end);
        Ok(part)
    }
}

// Replaces the bytes from one index up to another. If allocation fails, nothing has changed.
//
// Proved:
//
// - requires ordered: `start ≤ end`
// - requires within: `end ≤ vec_len raw.old`
// - ensures items: `OnOk result (raw.new.items ≡ splice raw.old.items start end bytes.now)`
// - ensures err: `OnErr result (VecUnchanged raw.old raw.new × (vec_capacity raw.new ≡ vec_capacity
//   raw.old))`
// - ensures succeeds: `vec_len raw.old + length bytes.now ≤ vec_capacity raw.old + (end - start) →
//   IsOk result`
// - ensures grows: `vec_capacity raw.old ≤ vec_capacity raw.new`
fn replace_bytes<A: Allocator>(
    raw: &mut Vec<u8, A>,
    start: usize,
    end: usize,
    bytes: &[u8],
) -> Result<(), AllocError> {
    let room = end - start;
    if bytes.len() <= room {
        put_over(raw, start, bytes);
        cut_out(raw, start + bytes.len(), end);
        return Ok(());
    }
    let (over, more) = bytes.split_at(room);
    append(raw, more)?;
    turn_in(raw, end, more.len());
    raw[start..end].copy_from_slice(over);
    Ok(())
}

// Writes bytes over those that start at an index.
//
// Proved:
//
// - requires `start + length bytes.now ≤ vec_len raw.old`
// - ensures items: `raw.new.items ≡ splice raw.old.items start (start + length bytes.now)
//   bytes.now`
// - ensures capacity: `vec_capacity raw.new ≡ vec_capacity raw.old`
fn put_over<A: Allocator>(raw: &mut Vec<u8, A>, start: usize, bytes: &[u8]) {
    raw[start..start + bytes.len()].copy_from_slice(bytes);
}

// Removes the bytes from one index up to another. A rotation moves the others in blocks, and
// `copy_within` byte by byte if the distance is not a constant.
//
// Proved:
//
// - requires ordered: `start ≤ end`
// - requires within: `end ≤ vec_len raw.old`
// - ensures items: `raw.new.items ≡ remove_range raw.old.items start end`
// - ensures capacity: `vec_capacity raw.new ≡ vec_capacity raw.old`
fn cut_out<A: Allocator>(raw: &mut Vec<u8, A>, start: usize, end: usize) {
    let removed = end - start;
    let front = raw.len() - removed;
    raw[start..].rotate_left(removed);
    raw.truncate(front);
}

// Moves the last bytes, as many as `added`, to an index.
//
// Proved:
//
// - requires `index + added ≤ vec_len raw.old`
// - ensures items: `(text more : List ℕ) → raw.old.items ≡ text ++ more → length more ≡ added →
//   raw.new.items ≡ splice text index index more`
// - ensures capacity: `vec_capacity raw.new ≡ vec_capacity raw.old`
pub(super) fn turn_in<A: Allocator>(raw: &mut Vec<u8, A>, index: usize, added: usize) {
    raw[index..].rotate_right(added);
}
