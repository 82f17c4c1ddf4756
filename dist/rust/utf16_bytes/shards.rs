// packaging/erase wrote this from crates/utf16_bytes/src/shards.rt: do not edit it.
//! The shards of a file: parts with about equal lengths.

/// Returns the offset where shard `index` of `count` shards begins in a file of `len` bytes: `len`
/// for `index >= count`, else 0 for shard 0. Each shard has `len / 2 / count` code units or one
/// more, and the last shard also has the odd byte at the end, if there is one. The offset is even
/// or the end, but it may be inside a character: move it to a boundary with
/// `floor_char_boundary_around`.
///
/// # Complexity
///
/// Constant time.
///
/// Proved:
///
/// - ensures value: `result ≡ shard_start len count index`
/// - ensures within: `result ≤ len`
/// - ensures even: `index < count → result % 2 ≡ 0`
/// - ensures ascending: `result ≤ shard_start len count (index + 1)`
/// - ensures least: `index < count → 2 * units_each len count ≤ shard_len len count index`
/// - ensures most: `index < count → shard_len len count index ≤ 2 * units_each len count + 2`
pub fn shard_offset(len: u64, count: u64, index: u64) -> u64 {
    if index >= count {
        return len;
    }
    let units = len / 2;
    2 * (index * (units / count) + index.min(units % count))
}
