// packaging/erase wrote this from crates/dethrux/src/encoder.rt: do not edit it.
//! An encoder of UTF-8 in UTF-16 for C, whose state is in memory that the caller owns.

use crate::proved::dethrux::byte_order::in_order;
use crate::proved::dethrux::results::{progress_of, Progress};
use crate::proved::utf16_transcode::{feed_utf8, finish_utf8, Stream};

/// Encodes the next chunk of a stream of UTF-8 in UTF-16 and writes it, as far as whole characters
/// fit, with U+FFFD for each maximal subpart of an ill-formed subsequence. `read` counts
/// bytes of the chunk: all of them, unless the next character does not fit. Any bytes are allowed
/// in the state; afterwards at most three are pending. The status is 0 with a capacity of two bytes
/// for each byte of the chunk and two more, if the state is one that this call leaves. In time
/// linear in what is read.
///
/// Proved:
///
/// - ensures feeds: `FeedsUtf8 (is_big byte_order) (stream_pending encoder.old) chunk.now
///   (stream_pending encoder.new) to.new result.read result.written`
/// - ensures stop: `StopsFeeding utf8_split (char_bytes (is_big byte_order)) (stream_pending
///   encoder.old) chunk.now (stream_pending encoder.new) result.read (length to.new -
///   result.written) (stop_of result)`
/// - ensures done: `(stop_of result ≡ Done) ↔ (size (decided_text (stream_pending encoder.old ++
///   chunk.now)) ≤ length to.new)`
/// - ensures filled: `stop_of result ≡ NoSpace → length to.new < result.written + 4`
/// - ensures few: `encoder.new.len ≤ 3`
/// - ensures tail: `IsTail (stream_pending encoder.old) → IsTail (stream_pending encoder.new)`
/// - ensures succeeds: `IsTail (stream_pending encoder.old) → 2 * length chunk.now + 2 ≤ length
///   to.new → stop_of result ≡ Done`
/// - ensures succeeds_always: `2 * (length (stream_pending encoder.old) + length chunk.now) ≤
///   length to.new → stop_of result ≡ Done`
/// - ensures numbers: `AreNumbers result.status result.error_len`
pub fn dethrux_encoder_feed(
    encoder: &mut Stream,
    byte_order: u32,
    chunk: &[u8],
    to: &mut [u8],
) -> Progress {
    progress_of(in_order!(byte_order, feed_utf8(encoder, chunk, to)))
}

/// Ends a stream of UTF-8: writes U+FFFD in UTF-16 if bytes are pending, and otherwise nothing. The
/// bytes after it are unchanged. If U+FFFD does not fit, nothing changes.
///
/// Proved:
///
/// - ensures read: `result.read ≡ 0`
/// - ensures done: `(stop_of result ≡ Done) ↔ (size (whole_lossy_chars [] (stream_pending
///   encoder.old)) ≤ length to.new)`
/// - ensures text: `stop_of result ≡ Done → take result.written to.new ≡ encode (is_big byte_order)
///   (whole_lossy_chars [] (stream_pending encoder.old))`
/// - ensures within: `result.written ≤ length to.new`
/// - ensures rest: `drop result.written to.new ≡ drop result.written to.old`
/// - ensures pending: `stop_of result ≡ Done → stream_pending encoder.new ≡ []`
/// - ensures fresh: `stop_of result ≡ Done → IsNewStream encoder.new`
/// - ensures no_space: `stop_of result ≢ Done → (stop_of result ≡ NoSpace) × (result.written ≡ 0)`
/// - ensures unchanged: `stop_of result ≢ Done → (encoder.new ≡ encoder.old) × (to.new ≡ to.old)`
/// - ensures numbers: `AreNumbers result.status result.error_len`
pub fn dethrux_encoder_finish(encoder: &mut Stream, byte_order: u32, to: &mut [u8]) -> Progress {
    progress_of(in_order!(byte_order, finish_utf8(encoder, to)))
}
