// packaging/erase wrote this from crates/dethrux/src/latin1.rt: do not edit it.
//! Latin-1 and UTF-16.

use crate::proved::dethrux::byte_order::in_order;
use crate::proved::dethrux::results::{progress_of, Progress};
use crate::proved::utf16_fixed::{from_latin1, to_latin1, Latin1Stop};

const NOT_LATIN1: u32 = 4;

/// Converts UTF-16 to Latin-1, up to the first ill-formed sequence or the first character above
/// U+00FF, or as far as the buffer has space. With status 3 the buffer is full: call again with the
/// rest. With status 4 a character above U+00FF follows, whether the buffer is full or not. The
/// bytes after the written ones are unchanged. In time linear in what is read.
///
/// Proved:
///
/// - ensures read: `result.read ≡ 2 * result.written`
/// - ensures within: `result.read ≤ length utf16.now`
/// - ensures fits: `result.written ≤ length to.new`
/// - ensures encoding: `Encodes (is_big byte_order) (take result.written to.new) (take result.read
///   utf16.now)`
/// - ensures rest: `drop result.written to.new ≡ drop result.written to.old`
/// - ensures stop: `StopsLatin1 (is_big byte_order) utf16.now result.read (length to.new -
///   result.written) (latin1_stop_of result)`
/// - ensures succeeds: `length utf16.now / 2 ≤ length to.old → latin1_stop_of result ≢
///   latin1.NoSpace`
/// - ensures numbers: `AreLatin1Numbers result.status result.error_len`
pub fn dethrux_to_latin1(byte_order: u32, utf16: &[u8], to: &mut [u8]) -> Progress {
    latin1_progress(in_order!(byte_order, to_latin1(utf16, to)))
}

// What C gets as the result of a conversion to Latin-1.
//
// Proved:
//
// - ensures read: `result.read ≡ progress.read`
// - ensures written: `result.written ≡ progress.written`
// - ensures stop: `latin1_stop_of result ≡ progress.stop`
// - ensures numbers: `AreLatin1Numbers result.status result.error_len`
#[inline(always)]
fn latin1_progress(progress: crate::proved::utf16_fixed::Progress<Latin1Stop>) -> Progress {
    let (status, error_len) = match progress.stop {
        Latin1Stop::Done => (0, 0),
        Latin1Stop::IllFormed(len) => (1, len as u32),
        Latin1Stop::Incomplete => (2, 0),
        Latin1Stop::NoSpace => (3, 0),
        Latin1Stop::NotLatin1 => (NOT_LATIN1, 0),
    };
    Progress {
        read: progress.read,
        written: progress.written,
        status,
        error_len,
    }
}

/// Converts Latin-1 to UTF-16, as far as it fits. The status is 0, or 3 if fewer than two bytes are
/// left: call again with the rest. The bytes after the written ones are unchanged. In time linear
/// in what is read.
///
/// Proved:
///
/// - ensures read: `result.read ≡ min (length latin1.now) (length to.old / 2)`
/// - ensures written: `result.written ≡ 2 * result.read`
/// - ensures encoding: `Encodes (is_big byte_order) (take result.read latin1.now) (take
///   result.written to.new)`
/// - ensures rest: `drop result.written to.new ≡ drop result.written to.old`
/// - ensures stop: `stop_of result ≡ if nat_le (length latin1.now) (length to.old / 2) then Done
///   else NoSpace`
/// - ensures numbers: `AreNumbers result.status result.error_len`
pub fn dethrux_from_latin1(byte_order: u32, latin1: &[u8], to: &mut [u8]) -> Progress {
    progress_of(in_order!(byte_order, from_latin1(latin1, to)))
}
