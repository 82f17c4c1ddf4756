// packaging/erase wrote this from crates/utf16string/src/wstring/inserts.rt: do not edit it.
//! Appends characters and texts to a string, and inserts them into it.

use crate::proved::kit::Vec;

use super::capacity::reserve_bytes;
use crate::proved::kit::{AllocError, Allocator};
use crate::proved::utf16_str::WStr;
use crate::proved::utf16_units::{Utf16CharExt, Utf16Order};
use crate::proved::utf16string::WString;

impl<E: Utf16Order, A: Allocator> WString<E, A> {
    /// Appends a character.
    ///
    /// # Errors
    ///
    /// `AllocError`, if allocation fails. The string is unchanged.
    ///
    /// # Complexity
    ///
    /// Amortized constant time, like `push` of `Vec`. If the character fits, it allocates nothing
    /// and the capacity stays.
    ///
    /// Proved:
    ///
    /// - ensures text: `OnOk result (wstring_text self.new ≡ push_text (wstring_text self.old) (ch
    ///   ∷ []))`
    /// - ensures len: `OnOk result (length (wstring_bytes self.new) ≡ length (wstring_bytes
    ///   self.old) + char_size ch)`
    /// - ensures err: `OnErr result (IsUnchanged self.old self.new)`
    /// - ensures succeeds: `length (wstring_bytes self.old) + char_size ch ≤ wstring_capacity
    ///   self.old → IsOk result`
    /// - ensures stays: `length (wstring_bytes self.old) + char_size ch ≤ wstring_capacity self.old
    ///   → wstring_capacity self.new ≡ wstring_capacity self.old`
    /// - ensures grows: `wstring_capacity self.old ≤ wstring_capacity self.new`
    #[inline]
    pub fn push(&mut self, ch: char) -> Result<(), AllocError> {
        push_char::<E, A>(&mut self.raw, ch)
    }

    /// Appends a text.
    ///
    /// # Errors
    ///
    /// `AllocError`, if allocation fails. The string is unchanged.
    ///
    /// # Complexity
    ///
    /// Copies the bytes of the text once. Allocates only if they do not fit.
    ///
    /// Proved:
    ///
    /// - ensures text: `OnOk result (wstring_text self.new ≡ push_text (wstring_text self.old)
    ///   (wstr_text string.entry))`
    /// - ensures len: `OnOk result (length (wstring_bytes self.new) ≡ length (wstring_bytes
    ///   self.old) + length (wstr_bytes string.entry))`
    /// - ensures err: `OnErr result (IsUnchanged self.old self.new)`
    /// - ensures succeeds: `length (wstring_bytes self.old) + length (wstr_bytes string.entry) ≤
    ///   wstring_capacity self.old → IsOk result`
    /// - ensures grows: `wstring_capacity self.old ≤ wstring_capacity self.new`
    #[inline]
    pub fn push_wstr(&mut self, string: WStr<E>) -> Result<(), AllocError> {
        append(&mut self.raw, string.as_bytes())
    }

    /// Inserts a character at a byte offset.
    ///
    /// # Errors
    ///
    /// `AllocError`, if allocation fails. The string is unchanged.
    ///
    /// # Precondition
    ///
    /// The offset is a character boundary (check with `is_char_boundary`).
    ///
    /// # Complexity
    ///
    /// Moves the bytes after the offset in one block. If the character fits, the capacity stays.
    ///
    /// Proved:
    ///
    /// - requires `IsBoundary (wstring_text self.old) idx`
    /// - ensures text: `OnOk result (wstring_text self.new ≡ insert_at (wstring_text self.old) idx
    ///   (ch ∷ []))`
    /// - ensures len: `OnOk result (length (wstring_bytes self.new) ≡ length (wstring_bytes
    ///   self.old) + char_size ch)`
    /// - ensures err: `OnErr result (IsUnchanged self.old self.new)`
    /// - ensures succeeds: `length (wstring_bytes self.old) + char_size ch ≤ wstring_capacity
    ///   self.old → IsOk result`
    /// - ensures stays: `length (wstring_bytes self.old) + char_size ch ≤ wstring_capacity self.old
    ///   → wstring_capacity self.new ≡ wstring_capacity self.old`
    /// - ensures grows: `wstring_capacity self.old ≤ wstring_capacity self.new`
    pub fn insert(&mut self, idx: usize, ch: char) -> Result<(), AllocError> {
        insert_char::<E, A>(&mut self.raw, idx, ch)
    }

    /// Inserts a text at a byte offset.
    ///
    /// # Errors
    ///
    /// `AllocError`, if allocation fails. The string is unchanged.
    ///
    /// # Precondition
    ///
    /// The offset is a character boundary (check with `is_char_boundary`).
    ///
    /// # Complexity
    ///
    /// Moves the bytes after the offset in one block.
    ///
    /// Proved:
    ///
    /// - requires `IsBoundary (wstring_text self.old) idx`
    /// - ensures text: `OnOk result (wstring_text self.new ≡ insert_at (wstring_text self.old) idx
    ///   (wstr_text string.entry))`
    /// - ensures len: `OnOk result (length (wstring_bytes self.new) ≡ length (wstring_bytes
    ///   self.old) + length (wstr_bytes string.entry))`
    /// - ensures err: `OnErr result (IsUnchanged self.old self.new)`
    /// - ensures succeeds: `length (wstring_bytes self.old) + length (wstr_bytes string.entry) ≤
    ///   wstring_capacity self.old → IsOk result`
    /// - ensures grows: `wstring_capacity self.old ≤ wstring_capacity self.new`
    pub fn insert_wstr(&mut self, idx: usize, string: WStr<E>) -> Result<(), AllocError> {
        insert_bytes(&mut self.raw, idx, string.as_bytes())
    }
}

// Appends the bytes of a character.
//
// Proved:
//
// - ensures items: `OnOk result (raw.new.items ≡ raw.old.items ++ char_bytes E.BIG ch)`
// - ensures err: `OnErr result (VecUnchanged raw.old raw.new × (vec_capacity raw.new ≡ vec_capacity
//   raw.old))`
// - ensures succeeds: `vec_len raw.old + char_size ch ≤ vec_capacity raw.old → IsOk result`
// - ensures stays: `vec_len raw.old + char_size ch ≤ vec_capacity raw.old → vec_capacity raw.new ≡
//   vec_capacity raw.old`
// - ensures grows: `vec_capacity raw.old ≤ vec_capacity raw.new`
#[inline]
fn push_char<E: Utf16Order, A: Allocator>(
    raw: &mut Vec<u8, A>,
    ch: char,
) -> Result<(), AllocError> {
    let mut units = [0; 4];
    let len = ch.encode_utf16_into::<E>(&mut units);
    push_units(raw, units, len)
}

// Appends the bytes of a character to a vector with enough capacity.
//
// Proved:
//
// - requires `vec_len raw.old + char_size ch ≤ vec_capacity raw.old`
// - ensures items: `raw.new.items ≡ raw.old.items ++ char_bytes E.BIG ch`
// - ensures capacity: `vec_capacity raw.new ≡ vec_capacity raw.old`
#[inline]
pub(super) fn write_char<E: Utf16Order, A: Allocator>(raw: &mut Vec<u8, A>, ch: char) {
    let mut bytes = [0; 4];
    let len = ch.encode_utf16_into::<E>(&mut bytes);
    write_units(raw, bytes, len);
}

// Appends the first two or all four bytes. If they fit, the capacity stays.
//
// Proved:
//
// - requires `(len ≡ 2) ⊎ (len ≡ 4)`
// - ensures items: `OnOk result (raw.new.items ≡ raw.old.items ++ take len units)`
// - ensures err: `OnErr result (VecUnchanged raw.old raw.new × (vec_capacity raw.new ≡ vec_capacity
//   raw.old))`
// - ensures succeeds: `vec_len raw.old + len ≤ vec_capacity raw.old → IsOk result`
// - ensures stays: `vec_len raw.old + len ≤ vec_capacity raw.old → vec_capacity raw.new ≡
//   vec_capacity raw.old`
// - ensures grows: `vec_capacity raw.old ≤ vec_capacity raw.new`
#[inline]
fn push_units<A: Allocator>(
    raw: &mut Vec<u8, A>,
    units: [u8; 4],
    len: usize,
) -> Result<(), AllocError> {
    reserve_bytes(raw, len)?;
    write_units(raw, units, len);
    Ok(())
}

// Appends the first two or all four bytes to a vector with enough capacity.
//
// Proved:
//
// - requires width: `(len ≡ 2) ⊎ (len ≡ 4)`
// - requires fits: `vec_len raw.old + len ≤ vec_capacity raw.old`
// - ensures items: `raw.new.items ≡ raw.old.items ++ take len units`
// - ensures capacity: `vec_capacity raw.new ≡ vec_capacity raw.old`
#[inline]
fn write_units<A: Allocator>(raw: &mut Vec<u8, A>, units: [u8; 4], len: usize) {
    let [first, second, third, last] = units;
    raw.push_reserved(first);
    raw.push_reserved(second);
    if len == 4 {
        raw.push_reserved(third);
        raw.push_reserved(last);
    }
}

// Appends bytes. Reserves capacity for them first; if that fails, nothing has changed.
//
// Proved:
//
// - ensures items: `OnOk result (raw.new.items ≡ raw.old.items ++ bytes.now)`
// - ensures err: `OnErr result (VecUnchanged raw.old raw.new × (vec_capacity raw.new ≡ vec_capacity
//   raw.old))`
// - ensures succeeds: `vec_len raw.old + length bytes.now ≤ vec_capacity raw.old → IsOk result`
// - ensures grows: `vec_capacity raw.old ≤ vec_capacity raw.new`
#[inline]
pub(super) fn append<A: Allocator>(raw: &mut Vec<u8, A>, bytes: &[u8]) -> Result<(), AllocError> {
    raw.reserve(bytes.len())?;
    raw.extend_from_slice(bytes)
}

// Inserts the bytes of a character at an index. If allocation fails, nothing has changed.
//
// Proved:
//
// - requires `index ≤ vec_len raw.old`
// - ensures items: `OnOk result (raw.new.items ≡ splice raw.old.items index index (char_bytes E.BIG
//   ch))`
// - ensures err: `OnErr result (VecUnchanged raw.old raw.new × (vec_capacity raw.new ≡ vec_capacity
//   raw.old))`
// - ensures succeeds: `vec_len raw.old + char_size ch ≤ vec_capacity raw.old → IsOk result`
// - ensures stays: `vec_len raw.old + char_size ch ≤ vec_capacity raw.old → vec_capacity raw.new ≡
//   vec_capacity raw.old`
// - ensures grows: `vec_capacity raw.old ≤ vec_capacity raw.new`
fn insert_char<E: Utf16Order, A: Allocator>(
    raw: &mut Vec<u8, A>,
    index: usize,
    ch: char,
) -> Result<(), AllocError> {
    let mut units = [0; 4];
    let len = ch.encode_utf16_into::<E>(&mut units);

    // Each length has its own call: the distance is a constant there, so LLVM makes a `memmove` of
    // the move.
    if len == 2 {
        insert_bytes(raw, index, &units[..2])
    } else {
        insert_bytes(raw, index, &units[..4])
    }
}

// Inserts bytes at an index. Reserves capacity for them first; if that fails, nothing has changed.
// They are written once.
//
// Proved:
//
// - requires `index ≤ vec_len raw.old`
// - ensures items: `OnOk result (raw.new.items ≡ splice raw.old.items index index bytes.now)`
// - ensures err: `OnErr result (VecUnchanged raw.old raw.new × (vec_capacity raw.new ≡ vec_capacity
//   raw.old))`
// - ensures succeeds: `vec_len raw.old + length bytes.now ≤ vec_capacity raw.old → IsOk result`
// - ensures grows: `vec_capacity raw.old ≤ vec_capacity raw.new`
#[inline]
fn insert_bytes<A: Allocator>(
    raw: &mut Vec<u8, A>,
    index: usize,
    bytes: &[u8],
) -> Result<(), AllocError> {
    raw.insert_from_slice(index, bytes)
}

// Moves the bytes at the end, which were appended, to an index.
//
// Proved:
//
// - requires `index + length bytes.now ≤ vec_len raw.old`
// - ensures items: `(text : List ℕ) → raw.old.items ≡ text ++ bytes.now → raw.new.items ≡ splice
//   text index index bytes.now`
// - ensures capacity: `vec_capacity raw.new ≡ vec_capacity raw.old`
#[inline]
fn move_in<A: Allocator>(raw: &mut Vec<u8, A>, index: usize, bytes: &[u8]) {
    let moved = raw.len() - index - bytes.len();
    raw[index..].copy_within(..moved, bytes.len());
    raw[index..index + bytes.len()].copy_from_slice(bytes);
}
