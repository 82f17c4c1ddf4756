// packaging/erase wrote this from crates/dethrux/src/boundary.rt: do not edit it.
//! Boundaries between characters.

use crate::proved::dethrux::byte_order::in_order;
use crate::proved::utf16_bytes::{
    floor_char_boundary, floor_char_boundary_around, is_char_boundary, shard_offset,
};

/// Returns whether an offset is a boundary between characters: the end of the bytes, or an offset
/// between two code units that are not a surrogate pair. An unpaired surrogate counts as a
/// character, and so does an incomplete one at the end, of 1 to 3 bytes. In constant time.
///
/// Proved:
///
/// - ensures `IsTrue result ↔ IsCut (is_big byte_order) utf16.now at`
pub fn dethrux_is_char_boundary(byte_order: u32, utf16: &[u8], at: usize) -> bool {
    in_order!(byte_order, is_char_boundary(utf16, at))
}

/// Returns the greatest boundary at or before an offset: at most three bytes before the smaller of
/// the offset and the length. In constant time.
///
/// Proved:
///
/// - ensures last: `IsLastCut (is_big byte_order) utf16.now at result`
/// - ensures near: `(at ≤ result + 3) ⊎ (length utf16.now ≤ result + 3)`
pub fn dethrux_floor_char_boundary(byte_order: u32, utf16: &[u8], at: usize) -> usize {
    in_order!(byte_order, floor_char_boundary(utf16, at))
}

/// Returns the greatest boundary at or before an offset of a file, from only the bytes around it:
/// the four from `(at / 2 * 2).saturating_sub(2)` on, or as many as the file has. If these are the
/// file's and the offset is at most its length, `dethrux_floor_char_boundary` returns the same over
/// the whole file. For any bytes it is at most three bytes before the offset. In constant time.
///
/// Proved:
///
/// - ensures near: `(around_start at ≤ result) × (result ≤ at) × (at ≤ result + 3)`
/// - ensures around: `IsLastCutAround (is_big byte_order) around.now at result`
/// - ensures file: `IsLastCutOfFile (is_big byte_order) around.now at result`
pub fn dethrux_floor_char_boundary_around(byte_order: u32, around: &[u8], at: u64) -> u64 {
    in_order!(byte_order, floor_char_boundary_around(around, at))
}

/// Returns the offset where part `index` of `count` parts begins in a file of `len` bytes: `len`
/// for `index >= count`, else 0 for part 0. Each part has `len / 2 / count` code units or one more,
/// and the last part also has the odd byte at the end, if there is one. In constant time.
///
/// Proved:
///
/// - ensures value: `result ≡ shard_start len count index`
/// - ensures within: `result ≤ len`
pub fn dethrux_shard_offset(len: u64, count: u64, index: u64) -> u64 {
    shard_offset(len, count, index)
}
