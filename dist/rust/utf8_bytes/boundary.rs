// packaging/erase wrote this from crates/utf8_bytes/src/boundary.rt: do not edit it.
//! Boundaries between characters in any bytes of UTF-8.

/// Returns whether a byte is a continuation byte, 0x80 to 0xBF: the second, third or fourth of a
/// character.
///
/// Proved:
///
/// - ensures `result ≡ is_in_range 0x80 0xBF byte`
#[inline(always)]
pub fn is_continuation(byte: u8) -> bool {
    (0x80..=0xBF).contains(&byte)
}

// Whether the three bytes before an offset are continuation bytes.
//
// Proved:
//
// - requires within: `at ≤ length utf8.now`
// - ensures `IsTrue result ↔ FollowsThree utf8.now at`
fn follows_three(utf8: &[u8], at: usize) -> bool {
    at >= 3
        && is_continuation(utf8[at - 3])
        && is_continuation(utf8[at - 2])
        && is_continuation(utf8[at - 1])
}

/// Returns whether an offset is a boundary between characters: the start or the end of the bytes,
/// the offset of a byte that is not a continuation byte, or an offset after three continuation
/// bytes. Any bytes are allowed. In well-formed UTF-8 these are the boundaries of
/// `str::is_char_boundary`, by the law `text_boundaries`.
///
/// # Complexity
///
/// Constant time: reads at most the byte at the offset and three before it.
///
/// Proved:
///
/// - ensures `IsTrue result ↔ IsCut utf8.now at`
pub fn is_char_boundary(utf8: &[u8], at: usize) -> bool {
    if at == 0 || at >= utf8.len() {
        return at <= utf8.len();
    }
    !is_continuation(utf8[at]) || follows_three(utf8, at)
}

/// Returns the greatest boundary at or before an offset, as defined by `is_char_boundary`: the
/// length if the offset is greater, and otherwise at most three bytes before the offset. In
/// well-formed UTF-8 the result is the same as with `str::floor_char_boundary`.
///
/// # Complexity
///
/// Constant time, like `is_char_boundary`.
///
/// Proved:
///
/// - ensures bound: `result ≤ at`
/// - ensures within: `result ≤ length utf8.now`
/// - ensures boundary: `IsCut utf8.now result`
/// - ensures nearest: `(i : ℕ) → result < i → i ≤ at → ¬ (IsCut utf8.now i)`
/// - ensures near: `(at ≤ result + 3) ⊎ (result ≡ length utf8.now)`
pub fn floor_char_boundary(utf8: &[u8], at: usize) -> usize {
    if at >= utf8.len() {
        utf8.len()
    } else if is_char_boundary(utf8, at) {
        at
    } else if is_char_boundary(utf8, at - 1) {
        at - 1
    } else if is_char_boundary(utf8, at - 2) {
        at - 2
    } else {
        at - 3
    }
}
