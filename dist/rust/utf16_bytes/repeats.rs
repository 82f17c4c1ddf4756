// packaging/erase wrote this from crates/utf16_bytes/src/repeats.rt: do not edit it.
//! Bytes that repeat themselves.
//!
//! Bytes of the pattern that are not an occurrence, for example at an odd offset, may be found
//! again and again, as in a run of one byte. If the text repeats itself at an even distance, an
//! offset is an occurrence exactly if it is one that distance before or after. So a search leaves a
//! run of such bytes at once, and stays linear.

/// Returns where a search from the front goes on after `at`, the offset of bytes of the pattern
/// that are not an occurrence, if `last` is the offset of such bytes before it.
///
/// Proved:
///
/// - requires order: `last ≤ at`
/// - requires within: `at + pattern_len ≤ length text.now`
/// - ensures after: `at < result`
/// - ensures within: `result ≤ length text.now + 1`
/// - ensures none: `(big : Bool) (pattern : List ℕ) → length pattern ≡ pattern_len → ((i : ℕ) → i ≤
///   at → ¬ (IsOccurrence big text.now pattern i)) → (i : ℕ) → i < result → ¬ (IsOccurrence big
///   text.now pattern i)`
pub(crate) fn next_start(text: &[u8], pattern_len: usize, last: usize, at: usize) -> usize {
    let period = 2 * (at - last);
    let from = at.saturating_sub(2);
    if period == 0 || from < period {
        return at + 1;
    }
    let end = repeats_until(text, from, period);
    (at + 1).max(end.saturating_sub(pattern_len + 1))
}

/// Returns the offset below which a search from the back goes on after `at`, the offset of bytes of
/// the pattern that are not an occurrence, if `last` is the offset of such bytes after it.
///
/// Proved:
///
/// - requires order: `at ≤ last`
/// - requires within: `at + pattern_len ≤ length text.now`
/// - requires last_within: `last ≤ length text.now`
/// - ensures before: `result ≤ at`
/// - ensures none: `(big : Bool) (pattern : List ℕ) → length pattern ≡ pattern_len → ((i : ℕ) → at
///   ≤ i → ¬ (IsOccurrence big text.now pattern i)) → (i : ℕ) → result ≤ i → ¬ (IsOccurrence big
///   text.now pattern i)`
pub(crate) fn previous_below(text: &[u8], pattern_len: usize, last: usize, at: usize) -> usize {
    let end = at + pattern_len;
    let period = 2 * (last - at);
    if period == 0 || (text.len() - end).saturating_sub(2) < period {
        return at;
    }
    let start = repeats_from(text, end + 2, period);
    at.min(start + 2)
}

// The end of the bytes from `from` on each of which equals the byte `period` before it.
//
// Proved:
//
// - requires from: `period ≤ from`
// - requires within: `from ≤ length text.now`
// - ensures after: `from ≤ result`
// - ensures within: `result ≤ length text.now`
// - ensures same: `(k : ℕ) → from ≤ k → k < result → slice_index text.now k ≡ slice_index text.now
//   (k - period)`
fn repeats_until(text: &[u8], from: usize, period: usize) -> usize {
    let mut end = from;
    while end < text.len() && text[end] == text[end - period] {
        end += 1;
    }
    end
}

// The start of the bytes up to `end` each of which equals the byte `period` after it.
//
// Proved:
//
// - requires within: `end + period ≤ length text.now`
// - ensures before: `result ≤ end`
// - ensures same: `(k : ℕ) → result ≤ k → k < end → slice_index text.now k ≡ slice_index text.now
//   (k + period)`
fn repeats_from(text: &[u8], end: usize, period: usize) -> usize {
    let mut start = end;
    while start > 0 && text[start - 1] == text[start - 1 + period] {
        start -= 1;
    }
    start
}
