// packaging/erase wrote this from crates/utf16_transcode/src/encode_stream.rt: do not edit it.
//! A stream of UTF-8 that comes in chunks, cut anywhere.

use crate::proved::utf16_transcode::encode::FromUtf8;
use crate::proved::utf16_transcode::progress::Progress;
use crate::proved::utf16_transcode::stream::Stream;
use crate::proved::utf16_units::Utf16Order;

/// Transcodes the next chunk and writes the text that is now certain, in UTF-16, to the start of a
/// buffer, as far as whole characters fit: the characters, and U+FFFD for each ill-formed sequence,
/// one for each maximal subpart. `read` counts the bytes of the chunk that were taken. Pass the
/// same byte order for all chunks of a stream.
///
/// With `Done` all of the chunk was taken, and what more bytes could change is pending. With
/// `NoSpace` the next character does not fit: call again with the rest of the chunk and more space.
/// In that case fewer than four bytes of the buffer are left, so something was written into a
/// buffer of four bytes or more. In a stream whose fields only `new` and `feed` set, `2 *
/// piece.len() + 2` bytes of space suffice for `Done`; with any fields, two bytes for each byte
/// that is pending or in the chunk. Bytes of the buffer after the written ones may have been
/// overwritten.
///
/// # Complexity
///
/// Linear time in the number of bytes read.
///
/// Proved:
///
/// - ensures feeds: `FeedsUtf8 E.BIG (stream_pending stream.old) piece.now (stream_pending
///   stream.new) to.new result.read result.written`
/// - ensures stop: `StopsFeeding utf8_split (char_bytes E.BIG) (stream_pending stream.old)
///   piece.now (stream_pending stream.new) result.read (length to.new - result.written)
///   result.stop`
/// - ensures done: `(result.stop ≡ Done) ↔ (size (decided_text (stream_pending stream.old ++
///   piece.now)) ≤ length to.new)`
/// - ensures filled: `result.stop ≡ NoSpace → length to.new < result.written + 4`
/// - ensures few: `stream.new.len ≤ 3`
/// - ensures tail: `IsTail (stream_pending stream.old) → IsTail (stream_pending stream.new)`
/// - ensures succeeds: `IsTail (stream_pending stream.old) → 2 * length piece.now + 2 ≤ length
///   to.new → result.stop ≡ Done`
/// - ensures succeeds_always: `2 * (length (stream_pending stream.old) + length piece.now) ≤ length
///   to.new → result.stop ≡ Done`
pub fn feed_utf8<E: Utf16Order>(stream: &mut Stream, piece: &[u8], to: &mut [u8]) -> Progress {
    stream.feed::<FromUtf8<E>>(piece, to)
}

/// Ends the stream: writes U+FFFD in UTF-16 to the start of a buffer if bytes are pending, and
/// nothing if not. Afterwards the stream is a new one. With `NoSpace` the buffer has fewer than two
/// bytes, and nothing changed. `read` is 0. Bytes of the buffer after the written ones are
/// unchanged.
///
/// Proved:
///
/// - ensures read: `result.read ≡ 0`
/// - ensures done: `(result.stop ≡ Done) ↔ (size (whole_lossy_chars [] (stream_pending stream.old))
///   ≤ length to.new)`
/// - ensures text: `result.stop ≡ Done → take result.written to.new ≡ encode E.BIG
///   (whole_lossy_chars [] (stream_pending stream.old))`
/// - ensures within: `result.written ≤ length to.new`
/// - ensures rest: `drop result.written to.new ≡ drop result.written to.old`
/// - ensures pending: `result.stop ≡ Done → stream_pending stream.new ≡ []`
/// - ensures fresh: `result.stop ≡ Done → IsNewStream stream.new`
/// - ensures no_space: `result.stop ≢ Done → (result.stop ≡ NoSpace) × (result.written ≡ 0)`
/// - ensures unchanged: `result.stop ≢ Done → (stream.new ≡ stream.old) × (to.new ≡ to.old)`
pub fn finish_utf8<E: Utf16Order>(stream: &mut Stream, to: &mut [u8]) -> Progress {
    stream.finish::<FromUtf8<E>>(to)
}
