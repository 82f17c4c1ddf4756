// packaging/erase wrote this from crates/dethrux/src/decoder.rt: do not edit it.
//! A decoder for C, whose state is in memory that the caller owns.

use crate::proved::dethrux::byte_order::in_order;
use crate::proved::dethrux::results::{progress_of, Progress};
use crate::proved::utf16_transcode::{Stream, ToUtf8};
use crate::proved::utf16_units::{BE, LE};

/// Decodes the next chunk of a stream and writes its text in UTF-8, as far as whole characters fit,
/// with U+FFFD for each unpaired surrogate. `read` counts bytes of the chunk: all of them, unless
/// the next character does not fit. Any bytes are allowed in the state; afterwards at most three
/// are pending. In time linear in what is read.
///
/// Proved:
///
/// - ensures feeds: `Feeds (is_big byte_order) (stream_pending decoder.old) chunk.now
///   (stream_pending decoder.new) to.new result.read result.written`
/// - ensures stop: `StopsFeeding (utf16_split (is_big byte_order)) encode_utf8 (stream_pending
///   decoder.old) chunk.now (stream_pending decoder.new) result.read (length to.new -
///   result.written) (stop_of result)`
/// - ensures done: `(stop_of result ≡ Done) ↔ (length (encode_utf8_all (decided_text (is_big
///   byte_order) (stream_pending decoder.old ++ chunk.now))) ≤ length to.new)`
/// - ensures filled: `stop_of result ≡ NoSpace → length to.new < result.written + 4`
/// - ensures few: `decoder.new.len ≤ 3`
/// - ensures succeeds: `(length chunk.now + 3) / 2 * 3 ≤ length to.new → stop_of result ≡ Done`
/// - ensures numbers: `AreNumbers result.status result.error_len`
pub fn dethrux_decoder_feed(
    decoder: &mut Stream,
    byte_order: u32,
    chunk: &[u8],
    to: &mut [u8],
) -> Progress {
    bytes_law(decoder.pending());
    progress_of(in_order!(byte_order, decoder.feed::<ToUtf8>(chunk, to)))
}

/// Ends a stream: writes U+FFFD in UTF-8 if bytes are pending, and otherwise nothing. The bytes
/// after it are unchanged. If U+FFFD does not fit, nothing changes. U+FFFD in UTF-8 is the same in
/// both byte orders.
///
/// Proved:
///
/// - ensures read: `result.read ≡ 0`
/// - ensures done: `(stop_of result ≡ Done) ↔ (length (encode_utf8_all (whole_lossy_chars []
///   (stream_pending decoder.old))) ≤ length to.new)`
/// - ensures text: `stop_of result ≡ Done → take result.written to.new ≡ encode_utf8_all
///   (whole_lossy_chars [] (stream_pending decoder.old))`
/// - ensures within: `result.written ≤ length to.new`
/// - ensures rest: `drop result.written to.new ≡ drop result.written to.old`
/// - ensures pending: `stop_of result ≡ Done → stream_pending decoder.new ≡ []`
/// - ensures fresh: `stop_of result ≡ Done → IsNewStream decoder.new`
/// - ensures no_space: `stop_of result ≢ Done → (stop_of result ≡ NoSpace) × (result.written ≡ 0)`
/// - ensures unchanged: `stop_of result ≢ Done → (decoder.new ≡ decoder.old) × (to.new ≡ to.old)`
/// - ensures numbers: `AreNumbers result.status result.error_len`
pub fn dethrux_decoder_finish(decoder: &mut Stream, _byte_order: u32, to: &mut [u8]) -> Progress {
    progress_of(decoder.finish::<ToUtf8<LE>>(to))
}

// States what the proofs of the calls that feed a decoder need, and does nothing.
//
// Proved:
//
// - ensures `All (λ b. b < 256) bytes.now`
#[inline(always)]
pub(crate) fn bytes_law(bytes: &[u8]) {}
