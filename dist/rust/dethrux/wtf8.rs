// packaging/erase wrote this from crates/dethrux/src/wtf8.rt: do not edit it.
//! WTF-8 and UTF-16 that may have unpaired surrogates, both ways without loss.

use crate::proved::dethrux::byte_order::in_order;
use crate::proved::dethrux::decoder::bytes_law;
use crate::proved::dethrux::results::{progress_of, Progress};
use crate::proved::utf16_transcode::Stream;
use crate::proved::utf16_wtf8::{
    finish_wtf8, from_wtf8, from_wtf8_len, from_wtf8_partial, to_wtf8, to_wtf8_len,
    to_wtf8_partial, ToWtf8,
};

/// Converts all code units of UTF-16 to WTF-8, with each unpaired surrogate as itself, as far as
/// whole characters fit. Any bytes are allowed. The status is 0, or 2 before an odd byte at the
/// end, which is not a code unit, or 3 if the next character or surrogate does not fit: call again
/// with the rest. The bytes after the written ones may have been overwritten. In time linear in
/// what is read.
///
/// Proved:
///
/// - ensures shown: `WritesWhole (points_of (is_big byte_order)) generalized_utf8 utf16.now to.new
///   result.read result.written`
/// - ensures stop: `StopsToWtf8 (is_big byte_order) (drop result.read utf16.now) (length to.new -
///   result.written) (stop_of result)`
/// - ensures between: `stop_of result ≡ NoSpace → DecodesToWtf8 (is_big byte_order) utf16.now
///   to.new result.read result.written`
/// - ensures succeeds: `length utf16.now / 2 * 3 ≤ length to.new → stop_of result ≢ NoSpace`
/// - ensures numbers: `AreNumbers result.status result.error_len`
pub fn dethrux_to_wtf8(byte_order: u32, utf16: &[u8], to: &mut [u8]) -> Progress {
    progress_of(in_order!(byte_order, to_wtf8(utf16, to)))
}

/// Returns the length in bytes of what `dethrux_to_wtf8` writes for the whole input: at most three
/// for each code unit. Two passes.
///
/// Proved:
///
/// - ensures len: `result ≡ length (flat_map generalized_utf8 (points_of (is_big byte_order)
///   utf16.now))`
/// - ensures most: `result ≤ length utf16.now / 2 * 3`
pub fn dethrux_to_wtf8_len(byte_order: u32, utf16: &[u8]) -> usize {
    in_order!(byte_order, to_wtf8_len(utf16))
}

/// Converts the next chunk of a stream like `dethrux_to_wtf8`, but does not read a leading
/// surrogate at the end, or a leading surrogate and an odd byte: in that case the status is 2.
///
/// Proved:
///
/// - ensures decodes: `DecodesToWtf8 (is_big byte_order) utf16.now to.new result.read
///   result.written`
/// - ensures stop: `StopsPartial (wtf8_split (is_big byte_order)) generalized_utf8 (drop
///   result.read utf16.now) (length to.new - result.written) (stop_of result)`
/// - ensures succeeds: `length utf16.now / 2 * 3 ≤ length to.new → stop_of result ≢ NoSpace`
/// - ensures filled: `stop_of result ≡ NoSpace → length to.new < result.written + 4`
/// - ensures advances: `4 ≤ length to.new → decided (wtf8_split (is_big byte_order)) utf16.now ≢ []
///   → 0 < result.read`
/// - ensures numbers: `AreNumbers result.status result.error_len`
pub fn dethrux_to_wtf8_partial(byte_order: u32, utf16: &[u8], to: &mut [u8]) -> Progress {
    progress_of(in_order!(byte_order, to_wtf8_partial(utf16, to)))
}

/// Decodes the next chunk of a stream like `dethrux_decoder_feed`, and writes each unpaired
/// surrogate as itself, in WTF-8.
///
/// Proved:
///
/// - ensures feeds: `FeedsAs (wtf8_split (is_big byte_order)) generalized_utf8 (stream_pending
///   decoder.old) chunk.now (stream_pending decoder.new) to.new result.read result.written`
/// - ensures stop: `StopsFeeding (wtf8_split (is_big byte_order)) generalized_utf8 (stream_pending
///   decoder.old) chunk.now (stream_pending decoder.new) result.read (length to.new -
///   result.written) (stop_of result)`
/// - ensures done: `(stop_of result ≡ Done) ↔ (length (flat_map generalized_utf8 (decided
///   (wtf8_split (is_big byte_order)) (stream_pending decoder.old ++ chunk.now))) ≤ length to.new)`
/// - ensures filled: `stop_of result ≡ NoSpace → length to.new < result.written + 4`
/// - ensures few: `decoder.new.len ≤ 3`
/// - ensures succeeds: `(length chunk.now + 3) / 2 * 3 ≤ length to.new → stop_of result ≡ Done`
/// - ensures numbers: `AreNumbers result.status result.error_len`
pub fn dethrux_wtf8_decoder_feed(
    decoder: &mut Stream,
    byte_order: u32,
    chunk: &[u8],
    to: &mut [u8],
) -> Progress {
    bytes_law(decoder.pending());
    progress_of(in_order!(byte_order, decoder.feed::<ToWtf8>(chunk, to)))
}

/// Ends a stream of `dethrux_wtf8_decoder_feed`: writes a pending leading surrogate in WTF-8, and
/// otherwise nothing. The bytes after it are unchanged. With status 2 an odd byte at the end, which
/// is not a code unit, was left out. With status 3 the surrogate does not fit, and nothing changes;
/// otherwise a new stream begins.
///
/// Proved:
///
/// - ensures read: `result.read ≡ 0`
/// - ensures no_space: `(stop_of result ≡ NoSpace) ↔ (length to.new < length (flat_map
///   generalized_utf8 (tail_points (is_big byte_order) (stream_pending decoder.old))))`
/// - ensures incomplete: `(stop_of result ≡ Incomplete) ↔ ((stop_of result ≢ NoSpace) × (length
///   (stream_pending decoder.old) % 2 ≡ 1))`
/// - ensures done: `(stop_of result ≡ Done) ↔ ((stop_of result ≢ NoSpace) × (length (stream_pending
///   decoder.old) % 2 ≡ 0))`
/// - ensures text: `stop_of result ≢ NoSpace → take result.written to.new ≡ flat_map
///   generalized_utf8 (tail_points (is_big byte_order) (stream_pending decoder.old))`
/// - ensures within: `result.written ≤ length to.new`
/// - ensures rest: `drop result.written to.new ≡ drop result.written to.old`
/// - ensures pending: `stop_of result ≢ NoSpace → stream_pending decoder.new ≡ []`
/// - ensures fresh: `stop_of result ≢ NoSpace → IsNewStream decoder.new`
/// - ensures unchanged: `stop_of result ≡ NoSpace → (result.written ≡ 0) × (decoder.new ≡
///   decoder.old) × (to.new ≡ to.old)`
/// - ensures numbers: `AreNumbers result.status result.error_len`
pub fn dethrux_wtf8_decoder_finish(
    decoder: &mut Stream,
    byte_order: u32,
    to: &mut [u8],
) -> Progress {
    progress_of(in_order!(byte_order, finish_wtf8(decoder, to)))
}

/// Converts WTF-8 to UTF-16, with each surrogate as one code unit, up to the first ill-formed
/// sequence or as far as whole characters fit. The three bytes of a trailing surrogate directly
/// after those of a leading one are ill-formed. An ill-formed sequence and a truncated code point
/// are not read. With status 3 the next character or surrogate does not fit: call again with the
/// rest. The bytes after the written ones may have been overwritten. In time linear in what is
/// read.
///
/// Proved:
///
/// - ensures wrote: `Writes (TranscodesFromWtf8 (is_big byte_order)) wtf8.now to.new result.read
///   result.written`
/// - ensures stop: `StopsFromWtf8 (is_big byte_order) wtf8.now result.read (length to.new -
///   result.written) (stop_of result)`
/// - ensures succeeds: `2 * length wtf8.now ≤ length to.new → stop_of result ≢ NoSpace`
/// - ensures numbers: `AreNumbers result.status result.error_len`
pub fn dethrux_from_wtf8(byte_order: u32, wtf8: &[u8], to: &mut [u8]) -> Progress {
    progress_of(in_order!(byte_order, from_wtf8(wtf8, to)))
}

/// Returns the length in bytes of what `dethrux_from_wtf8` writes for the longest prefix that is
/// WTF-8, in either byte order: at most two for each byte. Two passes.
///
/// Proved:
///
/// - ensures len: `HasUtf16Len wtf8.now result`
/// - ensures written: `IsWrittenIfItFits wtf8.now result`
/// - ensures most: `result ≤ 2 * length wtf8.now`
pub fn dethrux_from_wtf8_len(wtf8: &[u8]) -> usize {
    from_wtf8_len(wtf8)
}

/// Converts the next chunk of a stream of WTF-8 like `dethrux_from_wtf8`, but at the end it does
/// not read a leading surrogate, the beginning of a code point, or one and then the other, at most
/// six bytes. In that case the status is 2, or 3 if that leading surrogate does not fit.
///
/// Proved:
///
/// - ensures wrote: `Writes (TranscodesFromWtf8 (is_big byte_order)) wtf8.now to.new result.read
///   result.written`
/// - ensures stop: `StopsFromWtf8Partial (is_big byte_order) wtf8.now result.read (length to.new -
///   result.written) (stop_of result)`
/// - ensures few: `stop_of result ≡ Incomplete → length wtf8.now ≤ result.read + 6`
/// - ensures fits: `stop_of result ≡ Incomplete → LeavesLeading wtf8.now result.read → 2 ≤ length
///   to.new - result.written`
/// - ensures succeeds: `2 * length wtf8.now ≤ length to.new → stop_of result ≢ NoSpace`
/// - ensures filled: `stop_of result ≡ NoSpace → length to.new < result.written + 4`
/// - ensures numbers: `AreNumbers result.status result.error_len`
pub fn dethrux_from_wtf8_partial(byte_order: u32, wtf8: &[u8], to: &mut [u8]) -> Progress {
    progress_of(in_order!(byte_order, from_wtf8_partial(wtf8, to)))
}
