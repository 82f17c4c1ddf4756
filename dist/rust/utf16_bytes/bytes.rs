// packaging/erase wrote this from crates/utf16_bytes/src/bytes.rt: do not edit it.
//! The offsets of a pattern's bytes in a text, and the test whether it occurs there.

use crate::proved::memchr::memmem::{Finder, FinderRev};
use crate::proved::utf16_bytes::boundary::is_char_boundary;
use crate::proved::utf16_units::Utf16Order;

/// The number of offsets that are tested one by one before another search for bytes begins, which
/// takes longer than they do.
pub(crate) const NEAR: usize = 32;

/// Returns whether the pattern occurs at an offset.
///
/// Proved:
///
/// - ensures `IsTrue result ↔ IsOccurrence E.BIG text.now pattern.now at`
#[inline]
pub(crate) fn occurs_at<E: Utf16Order>(text: &[u8], pattern: &[u8], at: usize) -> bool {
    if !is_char_boundary::<E>(text, at) {
        return false;
    }
    if !text[at..].starts_with(pattern) {
        return false;
    }
    is_char_boundary::<E>(text, at + pattern.len())
}

/// Returns the least offset from `start` on at which the bytes of the pattern are.
///
/// Proved:
///
/// - requires `start ≤ length text.now`
/// - ensures `FindsNeedle text.now finder.now start result`
#[inline]
pub(crate) fn find_bytes(finder: &Finder<'_>, text: &[u8], start: usize) -> Option<usize> {
    let found = finder.find(&text[start..])?;
    Some(start + found)
}

/// Returns the greatest offset at which the bytes of the pattern are, if they end by `end`.
///
/// Proved:
///
/// - requires `end ≤ length text.now`
/// - ensures `FindsLastNeedleBy text.now finder.now end result`
#[inline]
pub(crate) fn rfind_bytes(finder: &FinderRev<'_>, text: &[u8], end: usize) -> Option<usize> {
    finder.rfind(&text[..end])
}

/// Returns the least of the next few offsets at which the pattern occurs.
///
/// Proved:
///
/// - requires `start ≤ length text.now + 1`
/// - ensures `IsFirst (IsOccurrence E.BIG text.now pattern.now) start (start + 32) result`
#[inline]
pub(crate) fn find_near<E: Utf16Order>(text: &[u8], pattern: &[u8], start: usize) -> Option<usize> {
    for at in start..start + NEAR {
        if occurs_at::<E>(text, pattern, at) {
            return Some(at);
        }
    }
    None
}

/// Returns the greatest of the few offsets before `end` at which the pattern occurs.
///
/// Proved:
///
/// - ensures `IsLast (IsOccurrence E.BIG text.now pattern.now) (end - 32) end result`
#[inline]
pub(crate) fn rfind_near<E: Utf16Order>(text: &[u8], pattern: &[u8], end: usize) -> Option<usize> {
    let mut at = end;
    while at > end.saturating_sub(NEAR) {
        at -= 1;
        if occurs_at::<E>(text, pattern, at) {
            return Some(at);
        }
    }
    None
}
