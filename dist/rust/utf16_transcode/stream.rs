// packaging/erase wrote this from crates/utf16_transcode/src/stream.rt: do not edit it.
//! A stream that comes in chunks, cut anywhere. Its pending bytes are in a value that you own.

use crate::proved::utf16_transcode::joined::{joined_start, rest_of};
use crate::proved::utf16_transcode::lossy_direction::LossyDirection;
use crate::proved::utf16_transcode::lossy_transcoding::transcode_partial;
use crate::proved::utf16_transcode::progress::{Progress, Stop};

/// How many bytes of space in addition to the longest text of a chunk let `Stream::feed` write many
/// bytes at once up to the end of the text, in either direction.
pub const FEED_SLACK: usize = 512;

/// The most bytes of a chunk that pass through a buffer at once.
pub const CHUNK_LEN: usize = 4096;

/// The most bytes of a short chunk, which passes through a smaller buffer, because that buffer
/// takes less time to fill with zeros.
pub const SHORT_CHUNK: usize = 512;

/// The pending bytes of a stream between two chunks: its last bytes, at most three, that only more
/// bytes can decide. Any contents are safe: a `len` above three is read as three, and `feed` never
/// leaves one above three. All zeros are a stream at its beginning.
#[repr(C)]
#[derive(Clone, Copy, Debug)]
pub struct Stream {
    /// The pending bytes, at the start.
    pub bytes: [u8; 3],
    /// How many bytes are pending.
    pub len: u8,
}

impl Stream {
    /// Returns a stream at its beginning. All of its fields are zero.
    ///
    /// Proved:
    ///
    /// - ensures pending: `stream_pending result ≡ []`
    /// - ensures zero: `IsNewStream result`
    pub fn new() -> Self {
        Stream {
            bytes: [0; 3],
            len: 0,
        }
    }

    /// Returns a stream with these bytes pending.
    ///
    /// # Precondition
    ///
    /// There are at most three bytes.
    ///
    /// Proved:
    ///
    /// - requires `length pending.now ≤ 3`
    /// - ensures pending: `stream_pending result ≡ pending.now`
    /// - ensures few: `result.len ≤ 3`
    pub fn holding(pending: &[u8]) -> Self {
        let mut bytes = [0; 3];
        bytes[..pending.len()].copy_from_slice(pending);
        Stream {
            bytes,
            len: pending.len() as u8,
        }
    }

    /// Returns the pending bytes, at most three. After a `feed` that returned `Done` they are the
    /// tail of the stream so far. In UTF-16 that is nothing, one byte, or a leading surrogate and
    /// at most one byte after it. In UTF-8 it is nothing, or the first bytes of a character.
    ///
    /// Proved:
    ///
    /// - ensures bytes: `result.now ≡ stream_pending self.now`
    /// - ensures few: `length result.now ≤ 3`
    pub fn pending(&self) -> &[u8] {
        &self.bytes[..(self.len as usize).min(3)]
    }

    /// Transcodes the next chunk. Writes what is now certain, in the second encoding, to the start
    /// of a buffer, as far as whole characters fit: the characters, and the replacement of each
    /// ill-formed sequence. `read` counts the bytes of the chunk that were taken. Use the same
    /// direction for all chunks of a stream.
    ///
    /// With `Done`, all of the chunk was taken, and what more bytes could change is pending. With
    /// `NoSpace`, the next character does not fit: call again with the rest of the chunk and more
    /// space. In that case fewer than four bytes of the buffer are left, so something was written
    /// if it has four bytes or more. Bytes of the buffer after the written ones may have been
    /// overwritten.
    ///
    /// # Complexity
    ///
    /// Linear time in the number of bytes read.
    ///
    /// Proved:
    ///
    /// - ensures feeds: `FeedsAs D.split D.into (stream_pending self.old) piece.now (stream_pending
    ///   self.new) to.new result.read result.written`
    /// - ensures stop: `StopsFeeding D.split D.into (stream_pending self.old) piece.now
    ///   (stream_pending self.new) result.read (length to.new - result.written) result.stop`
    /// - ensures done: `(result.stop ≡ Done) ↔ (length (flat_map D.into (decided D.split
    ///   (stream_pending self.old ++ piece.now))) ≤ length to.new)`
    /// - ensures text: `result.stop ≡ Done → take result.written to.new ≡ flat_map D.into (decided
    ///   D.split (stream_pending self.old ++ piece.now))`
    /// - ensures pending: `result.stop ≡ Done → stream_pending self.new ≡ D.split.tail
    ///   (stream_pending self.old ++ piece.now)`
    /// - ensures undecided: `result.stop ≡ Done → D.split.tail (stream_pending self.new) ≡
    ///   stream_pending self.new`
    /// - ensures filled: `result.stop ≡ NoSpace → length to.new < result.written + 4`
    /// - ensures few: `self.new.len ≤ 3`
    pub fn feed<D: LossyDirection>(&mut self, piece: &[u8], to: &mut [u8]) -> Progress {
        D::lossy_laws();
        let held = *self;
        let pending = held.pending();
        let front = transcode_joined::<D>(pending, piece, to);
        let (left, rest) = rest_of(pending, piece, front.read);
        if let Stop::NoSpace = front.stop {
            *self = Stream::holding(left);
            return Progress {
                read: piece.len() - rest.len(),
                written: front.written,
                stop: Stop::NoSpace,
            };
        }
        let (tail, len) = joined_start::<4>(left, rest);
        *self = Stream::holding(&tail[..len]);
        Progress {
            read: piece.len(),
            written: front.written,
            stop: Stop::Done,
        }
    }

    /// Ends the stream: writes the replacement of the pending bytes, if there are any, to the start
    /// of a buffer. Afterwards the stream is a new one. With `NoSpace`, the replacement does not
    /// fit, and nothing changed. `read` is 0. Bytes of the buffer after the written ones are
    /// unchanged.
    ///
    /// Proved:
    ///
    /// - ensures read: `result.read ≡ 0`
    /// - ensures done: `(result.stop ≡ Done) ↔ (length (flat_map D.into (D.split.at_end
    ///   (stream_pending self.old))) ≤ length to.new)`
    /// - ensures text: `result.stop ≡ Done → take result.written to.new ≡ flat_map D.into
    ///   (D.split.at_end (stream_pending self.old))`
    /// - ensures within: `result.written ≤ length to.new`
    /// - ensures rest: `drop result.written to.new ≡ drop result.written to.old`
    /// - ensures pending: `result.stop ≡ Done → stream_pending self.new ≡ []`
    /// - ensures fresh: `result.stop ≡ Done → IsNewStream self.new`
    /// - ensures no_space: `result.stop ≢ Done → (result.stop ≡ NoSpace) × (result.written ≡ 0)`
    /// - ensures unchanged: `result.stop ≢ Done → (self.new ≡ self.old) × (to.new ≡ to.old)`
    pub fn finish<D: LossyDirection>(&mut self, to: &mut [u8]) -> Progress {
        let Some(written) = D::write_end(self.pending(), to, 0) else {
            return Progress {
                read: 0,
                written: 0,
                stop: Stop::NoSpace,
            };
        };
        *self = Stream::new();
        Progress {
            read: 0,
            written,
            stop: Stop::Done,
        }
    }
}

// Transcodes pending bytes and a chunk after them like `transcode_partial`, as if they were
// contiguous. Four bytes at the chunk boundary pass through a buffer on the stack.
//
// Proved:
//
// - requires `length pending.now ≤ 3`
// - ensures decodes: `DecodesAsTo D.split D.into (pending.now ++ piece.now) to.new result.read
//   result.written`
// - ensures stop: `StopsPartial D.split D.into (drop result.read (pending.now ++ piece.now))
//   (length to.new - result.written) result.stop`
fn transcode_joined<D: LossyDirection>(pending: &[u8], piece: &[u8], to: &mut [u8]) -> Progress {
    D::lossy_laws();
    let mut read = 0;
    let mut written = 0;
    while read < pending.len() {
        let (joined, len) = joined_start::<4>(&pending[read..], piece);
        let front = transcode_partial::<D>(&joined[..len], &mut to[written..]);
        read += front.read;
        written += front.written;
        if front.read == 0 || front.stop == Stop::NoSpace {
            return Progress {
                read,
                written,
                stop: front.stop,
            };
        }
    }
    let rest = transcode_partial::<D>(&piece[read - pending.len()..], &mut to[written..]);
    Progress {
        read: read + rest.read,
        written: written + rest.written,
        stop: rest.stop,
    }
}
