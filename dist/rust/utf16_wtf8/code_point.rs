// packaging/erase wrote this from crates/utf16_wtf8/src/code_point.rt: do not edit it.
//! A code unit as a code point in WTF-8.

use crate::proved::utf16_transcode::put;

/// Writes a code unit, which may be a surrogate, as one code point in WTF-8 at `at`, and returns
/// where it ends, or `None` if it does not fit. All other bytes of the buffer are unchanged.
///
/// # Precondition
///
/// `at` is at most the length of the buffer.
///
/// Proved:
///
/// - requires `at ≤ length to.old`
/// - ensures within: `IfSome result (λ end. end ≤ length to.new)`
/// - ensures bytes: `IfSome result (λ end. take end to.new ≡ take at to.old ++ generalized_utf8
///   unit)`
/// - ensures rest: `IfSome result (λ end. drop end to.new ≡ drop end to.old)`
/// - ensures none: `result ≡ None → length to.new - at < length (generalized_utf8 unit)`
/// - ensures unchanged: `result ≡ None → to.new ≡ to.old`
pub(crate) fn write_code_point(unit: u16, to: &mut [u8], at: usize) -> Option<usize> {
    let last = (0x80 + unit % 64) as u8;
    if unit < 0x80 {
        return put_fitting(&[unit as u8], to, at);
    }
    if unit < 0x800 {
        return put_fitting(&[(0xC0 + unit / 64) as u8, last], to, at);
    }
    let middle = (0x80 + unit / 64 % 64) as u8;
    put_fitting(&[(0xE0 + unit / 4096) as u8, middle, last], to, at)
}

// Writes bytes at `at`, and returns where they end, or `None` if they do not fit.
//
// Proved:
//
// - requires `at ≤ length to.old`
// - ensures within: `IfSome result (λ end. end ≤ length to.new)`
// - ensures bytes: `IfSome result (λ end. take end to.new ≡ take at to.old ++ bytes.now)`
// - ensures rest: `IfSome result (λ end. drop end to.new ≡ drop end to.old)`
// - ensures none: `result ≡ None → length to.new - at < length bytes.now`
// - ensures unchanged: `result ≡ None → to.new ≡ to.old`
#[inline(always)]
fn put_fitting(bytes: &[u8], to: &mut [u8], at: usize) -> Option<usize> {
    if to.len() - at < bytes.len() {
        return None;
    }
    Some(put(bytes, to, at))
}
