// packaging/erase wrote this from crates/utf16_transcode/src/joined.rt: do not edit it.
//! Pending bytes and a chunk after them, as if they were contiguous.
//!
//! Only the first bytes are copied, to an array on the stack. Four are enough for a decoder: no
//! character is longer, and no unpaired surrogate with the bytes that decide it. The rest of the
//! chunk is transcoded in place.

/// Returns the parts of the pending bytes and of the chunk that follow offset `at`.
///
/// # Precondition
///
/// `at` is at most the length of both together.
///
/// Proved:
///
/// - requires `at ≤ length pending.now + length piece.now`
/// - ensures left: `result.0.now ≡ drop at pending.now`
/// - ensures piece: `result.1.now ≡ drop (at - length pending.now) piece.now`
pub fn rest_of<'a>(pending: &'a [u8], piece: &'a [u8], at: usize) -> (&'a [u8], &'a [u8]) {
    (
        &pending[at.min(pending.len())..],
        &piece[at.saturating_sub(pending.len())..],
    )
}

/// Returns the first `N` bytes of the pending bytes and the chunk, or all of them if there are
/// fewer, and their number.
///
/// # Precondition
///
/// At most `N` bytes are pending.
///
/// Proved:
///
/// - requires `length pending.now ≤ N`
/// - ensures few: `result.1 ≤ N`
/// - ensures bytes: `take result.1 result.0 ≡ take N (pending.now ++ piece.now)`
pub fn joined_start<const N: usize>(pending: &[u8], piece: &[u8]) -> ([u8; N], usize) {
    let front = &piece[..piece.len().min(N - pending.len())];
    let len = pending.len() + front.len();
    let mut joined = [0; N];
    let bytes = &mut joined[..];
    bytes[..pending.len()].copy_from_slice(pending);
    bytes[pending.len()..len].copy_from_slice(front);
    (joined, len)
}
