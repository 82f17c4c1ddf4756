// packaging/erase wrote this from crates/utf16string/src/wstring/capacity.rt: do not edit it.
//! The capacity of a string.

use crate::proved::kit::Vec;

use crate::proved::kit::{AllocError, Allocator};
use crate::proved::utf16_units::Utf16Order;
use crate::proved::utf16string::WString;

impl<E: Utf16Order, A: Allocator> WString<E, A> {
    /// Reserves capacity for at least `additional` more bytes.
    ///
    /// # Errors
    ///
    /// `AllocError`, if allocation fails. The string is unchanged.
    ///
    /// # Complexity
    ///
    /// Allocates nothing and leaves the capacity as it is, if it is already enough.
    ///
    /// Proved:
    ///
    /// - ensures bytes: `wstring_bytes self.new ≡ wstring_bytes self.old`
    /// - ensures reserved: `OnOk result (length (wstring_bytes self.new) + additional ≤
    ///   wstring_capacity self.new)`
    /// - ensures err: `OnErr result (IsUnchanged self.old self.new)`
    /// - ensures succeeds: `length (wstring_bytes self.old) + additional ≤ wstring_capacity
    ///   self.old → IsOk result`
    /// - ensures stays: `length (wstring_bytes self.old) + additional ≤ wstring_capacity self.old →
    ///   wstring_capacity self.new ≡ wstring_capacity self.old`
    /// - ensures grows: `wstring_capacity self.old ≤ wstring_capacity self.new`
    #[inline]
    pub fn reserve(&mut self, additional: usize) -> Result<(), AllocError> {
        reserve_bytes(&mut self.raw, additional)
    }

    /// Reserves capacity for exactly `additional` more bytes.
    ///
    /// # Errors
    ///
    /// `AllocError`, if allocation fails. The string is unchanged.
    ///
    /// # Complexity
    ///
    /// Allocates nothing and leaves the capacity as it is, if it is already enough.
    ///
    /// # Source
    ///
    /// `String::reserve_exact` and `String::try_reserve_exact`.
    ///
    /// Proved:
    ///
    /// - ensures bytes: `wstring_bytes self.new ≡ wstring_bytes self.old`
    /// - ensures exact: `OnOk result (wstring_capacity self.new ≡ max (wstring_capacity self.old)
    ///   (length (wstring_bytes self.old) + additional))`
    /// - ensures err: `OnErr result (IsUnchanged self.old self.new)`
    /// - ensures succeeds: `length (wstring_bytes self.old) + additional ≤ wstring_capacity
    ///   self.old → IsOk result`
    pub fn reserve_exact(&mut self, additional: usize) -> Result<(), AllocError> {
        self.raw.reserve_exact(additional)
    }

    /// Shrinks the capacity to the length of the text in bytes.
    ///
    /// # Errors
    ///
    /// `AllocError`, if the smaller block cannot be allocated. The text is unchanged.
    ///
    /// # Complexity
    ///
    /// Allocates nothing if the capacity is already the length, or if the text is empty.
    ///
    /// Proved:
    ///
    /// - ensures bytes: `wstring_bytes self.new ≡ wstring_bytes self.old`
    /// - ensures ok: `IsOk result ↔ (wstring_capacity self.new ≡ length (wstring_bytes self.new))`
    /// - ensures shrinks: `wstring_capacity self.new ≤ wstring_capacity self.old`
    /// - ensures nothing: `wstring_bytes self.old ≡ [] → IsOk result`
    pub fn shrink_to_fit(&mut self) -> Result<(), AllocError> {
        self.raw.shrink_to_fit();
        if self.raw.capacity() > self.raw.len() {
            return Err(AllocError);
        }
        Ok(())
    }

    /// Shrinks the capacity to `min_capacity` or the length of the text, whichever is greater. Does
    /// nothing if the capacity is at most that.
    ///
    /// # Errors
    ///
    /// `AllocError`, if the smaller block cannot be allocated. The text is unchanged.
    ///
    /// # Complexity
    ///
    /// Allocates nothing if the capacity is already small enough, or if it becomes 0.
    ///
    /// # Source
    ///
    /// `String::shrink_to`, which ignores a failed allocation.
    ///
    /// Proved:
    ///
    /// - ensures bytes: `wstring_bytes self.new ≡ wstring_bytes self.old`
    /// - ensures ok: `IsOk result ↔ (wstring_capacity self.new ≤ max min_capacity (length
    ///   (wstring_bytes self.new)))`
    /// - ensures least: `min min_capacity (wstring_capacity self.old) ≤ wstring_capacity self.new`
    /// - ensures shrinks: `wstring_capacity self.new ≤ wstring_capacity self.old`
    /// - ensures nothing: `wstring_bytes self.old ≡ [] → min_capacity ≡ 0 → IsOk result`
    pub fn shrink_to(&mut self, min_capacity: usize) -> Result<(), AllocError> {
        self.raw.shrink_to(min_capacity);
        if self.raw.capacity() > self.raw.len().max(min_capacity) {
            Err(AllocError)
        } else {
            Ok(())
        }
    }
}

// Reserves capacity for more bytes. The capacity stays if it is already enough.
//
// Proved:
//
// - ensures items: `raw.new.items ≡ raw.old.items`
// - ensures reserved: `OnOk result (vec_len raw.new + additional ≤ vec_capacity raw.new)`
// - ensures err: `OnErr result (VecUnchanged raw.old raw.new × (vec_capacity raw.new ≡ vec_capacity
//   raw.old))`
// - ensures succeeds: `vec_len raw.old + additional ≤ vec_capacity raw.old → IsOk result`
// - ensures stays: `vec_len raw.old + additional ≤ vec_capacity raw.old → vec_capacity raw.new ≡
//   vec_capacity raw.old`
// - ensures grows: `vec_capacity raw.old ≤ vec_capacity raw.new`
#[inline]
pub(super) fn reserve_bytes<A: Allocator>(
    raw: &mut Vec<u8, A>,
    additional: usize,
) -> Result<(), AllocError> {
    if raw.capacity() - raw.len() >= additional {
        return Ok(());
    }
    raw.reserve(additional)
}
