// packaging/erase wrote this from crates/utf16_wtf8/src/stream.rt: do not edit it.
//! A stream of WTF-8 that comes in chunks, cut anywhere. Its pending bytes are in a value that you
//! own.

use crate::proved::utf16_transcode::joined::{joined_start, rest_of};
use crate::proved::utf16_transcode::{Progress, Stop};
use crate::proved::utf16_units::Utf16Order;
use crate::proved::utf16_wtf8::encode::{from_wtf8, from_wtf8_partial};

// The most bytes that are copied: as many as can be pending before a call, and as many as it can
// leave pending.
const JOINED_LEN: usize = 12;

/// The pending bytes of a stream of WTF-8 between two chunks, at most six: a leading surrogate, or
/// the beginning of a code point, or one and then the other. Any contents are safe: a `len` above
/// six is read as six, and no call leaves one above six. All zeros are a stream at its beginning.
#[repr(C)]
#[derive(Clone, Copy, Debug)]
pub struct Wtf8Stream {
    /// The pending bytes, at the start.
    pub bytes: [u8; 6],
    /// How many bytes are pending.
    pub len: u8,
}

impl Wtf8Stream {
    /// Returns a stream at its beginning. All of its fields are zero.
    ///
    /// Proved:
    ///
    /// - ensures pending: `wtf8_pending result ≡ []`
    /// - ensures tail: `IsWtf8Tail (wtf8_pending result)`
    /// - ensures zero: `(result.bytes ≡ 0 ∷ 0 ∷ 0 ∷ 0 ∷ 0 ∷ 0 ∷ []) × (result.len ≡ 0)`
    pub fn new() -> Self {
        Wtf8Stream {
            bytes: [0; 6],
            len: 0,
        }
    }

    /// Returns the pending bytes, at most six.
    ///
    /// Proved:
    ///
    /// - ensures bytes: `result.now ≡ wtf8_pending self.now`
    /// - ensures few: `length result.now ≤ 6`
    pub fn pending(&self) -> &[u8] {
        &self.bytes[..(self.len as usize).min(6)]
    }

    /// Writes the next chunk in UTF-16 to the start of a buffer, with each surrogate as one code
    /// unit, as far as whole characters fit and up to the first ill-formed sequence. `read` counts
    /// the bytes of the chunk that were taken. Pass the same byte order for all chunks of a stream.
    ///
    /// With `Done`, the whole chunk was taken, and what `from_wtf8_partial` leaves is pending. With
    /// `NoSpace`, the next character does not fit, or the leading surrogate that would be pending:
    /// call again with the rest of the chunk and more space. In that case fewer than four bytes of
    /// the buffer are left. With `IllFormed`, the ill-formed sequence begins with the bytes that
    /// are still pending, and continues in the rest of the chunk. It never returns `Incomplete`.
    /// Bytes of the buffer after the written ones may have been overwritten.
    ///
    /// In a stream whose fields only `new`, `feed` and `finish` set, `2 * chunk.len() + 4` bytes of
    /// space suffice, and an ill-formed sequence has all bytes that are still pending. With any
    /// fields, two bytes of space suffice for each byte that is pending or in the chunk.
    ///
    /// # Complexity
    ///
    /// Linear time in the number of bytes read.
    ///
    /// Proved:
    ///
    /// - ensures feeds: `FeedsWtf8 E.BIG (wtf8_pending self.old) chunk.now (wtf8_pending self.new)
    ///   to.new result.read result.written`
    /// - ensures stop: `StopsFeedingWtf8 E.BIG (wtf8_pending self.old) chunk.now (wtf8_pending
    ///   self.new) result.read (length to.new - result.written) result.stop`
    /// - ensures fits: `result.stop ≡ Done → LeavesLeading (wtf8_pending self.old ++ chunk.now)
    ///   (encoded_len (wtf8_pending self.old) (wtf8_pending self.new) result.read) → 2 ≤ length
    ///   to.new - result.written`
    /// - ensures few: `self.new.len ≤ 6`
    /// - ensures filled: `result.stop ≡ NoSpace → length to.new < result.written + 4`
    /// - ensures tail: `IsWtf8Tail (wtf8_pending self.old) → IsWtf8Tail (wtf8_pending self.new)`
    /// - ensures succeeds: `IsWtf8Tail (wtf8_pending self.old) → 2 * length chunk.now + 4 ≤ length
    ///   to.new → result.stop ≢ NoSpace`
    /// - ensures succeeds_always: `2 * (length (wtf8_pending self.old) + length chunk.now) ≤ length
    ///   to.new → result.stop ≢ NoSpace`
    /// - ensures resumes: `IsWtf8Tail (wtf8_pending self.old) → (len : ℕ) → result.stop ≡ IllFormed
    ///   len → (length (wtf8_pending self.new) ≤ len) × (len ≤ length (wtf8_pending self.new) +
    ///   (length chunk.now - result.read))`
    pub fn feed<E: Utf16Order>(&mut self, chunk: &[u8], to: &mut [u8]) -> Progress {
        let held = *self;
        let pending = held.pending();
        let front = from_joined::<E>(pending, chunk, to);
        let (left, rest) = rest_of(pending, chunk, front.read);
        match front.stop {
            Stop::IllFormed(_) | Stop::NoSpace => {
                *self = Wtf8Stream::holding(left);
                Progress {
                    read: chunk.len() - rest.len(),
                    written: front.written,
                    stop: front.stop,
                }
            }
            Stop::Done | Stop::Incomplete => {
                let (last, len) = joined_start::<JOINED_LEN>(left, rest);
                *self = Wtf8Stream::holding(&last[..len]);
                Progress {
                    read: chunk.len(),
                    written: front.written,
                    stop: Stop::Done,
                }
            }
        }
    }

    /// Ends the stream: writes the pending bytes in UTF-16 to the start of a buffer, like
    /// `from_wtf8`. `read` counts the pending bytes that were written. With `NoSpace`, a character
    /// does not fit, and only the bytes before it are no longer pending. Otherwise a new stream
    /// begins, and all of its fields are zero.
    ///
    /// In a stream whose fields only `new`, `feed` and `finish` set, this writes the leading
    /// surrogate that is pending, if there is one, and two bytes of space suffice. It returns
    /// `Incomplete` if the stream ends inside a code point, which was left out, and never
    /// `IllFormed`.
    ///
    /// Proved:
    ///
    /// - ensures wrote: `Writes (TranscodesFromWtf8 E.BIG) (wtf8_pending self.old) to.new
    ///   result.read result.written`
    /// - ensures stop: `StopsFromWtf8 E.BIG (wtf8_pending self.old) result.read (length to.new -
    ///   result.written) result.stop`
    /// - ensures ended: `result.stop ≢ NoSpace → wtf8_pending self.new ≡ []`
    /// - ensures left: `result.stop ≡ NoSpace → wtf8_pending self.new ≡ drop result.read
    ///   (wtf8_pending self.old)`
    /// - ensures few: `self.new.len ≤ 6`
    /// - ensures fresh: `result.stop ≢ NoSpace → (self.new.bytes ≡ 0 ∷ 0 ∷ 0 ∷ 0 ∷ 0 ∷ 0 ∷ []) ×
    ///   (self.new.len ≡ 0)`
    /// - ensures tail: `IsWtf8Tail (wtf8_pending self.old) → IsWtf8Tail (wtf8_pending self.new)`
    /// - ensures leading: `(tail : IsWtf8Tail (wtf8_pending self.old)) → result.stop ≢ NoSpace →
    ///   take result.written to.new ≡ flat_map (char_bytes E.BIG) tail.leads`
    /// - ensures truncated: `(tail : IsWtf8Tail (wtf8_pending self.old)) → result.stop ≢ NoSpace →
    ///   result.stop ≡ end_stop tail.part`
    /// - ensures succeeds: `IsWtf8Tail (wtf8_pending self.old) → 2 ≤ length to.new → result.stop ≢
    ///   NoSpace`
    /// - ensures succeeds_always: `2 * length (wtf8_pending self.old) ≤ length to.new → result.stop
    ///   ≢ NoSpace`
    pub fn finish<E: Utf16Order>(&mut self, to: &mut [u8]) -> Progress {
        let held = *self;
        let pending = held.pending();
        let end = from_wtf8::<E>(pending, to);
        *self = if let Stop::NoSpace = end.stop {
            Wtf8Stream::holding(&pending[end.read..])
        } else {
            Wtf8Stream::new()
        };
        end
    }

    // Returns a stream with these bytes pending.
    //
    // Proved:
    //
    // - requires `length pending.now ≤ 6`
    // - ensures pending: `wtf8_pending result ≡ pending.now`
    // - ensures few: `result.len ≤ 6`
    fn holding(pending: &[u8]) -> Self {
        let mut bytes = [0; 6];
        bytes[..pending.len()].copy_from_slice(pending);
        Wtf8Stream {
            bytes,
            len: pending.len() as u8,
        }
    }
}

// Writes pending bytes and a chunk after them like `from_wtf8_partial`, as if they were contiguous.
// Twelve bytes at the chunk boundary pass through a buffer on the stack: the call leaves at most
// six of them, so it reads all that are pending, unless it stops for a reason that stays.
//
// Proved:
//
// - requires `length pending.now ≤ 6`
// - ensures wrote: `Writes (TranscodesFromWtf8 E.BIG) (pending.now ++ chunk.now) to.new result.read
//   result.written`
// - ensures stop: `StopsFromWtf8Partial E.BIG (pending.now ++ chunk.now) result.read (length
//   to.new - result.written) result.stop`
// - ensures fits: `result.stop ≡ Incomplete → LeavesLeading (pending.now ++ chunk.now) result.read
//   → 2 ≤ length to.new - result.written`
fn from_joined<E: Utf16Order>(pending: &[u8], chunk: &[u8], to: &mut [u8]) -> Progress {
    let (joined, len) = joined_start::<JOINED_LEN>(pending, chunk);
    let front = from_wtf8_partial::<E>(&joined[..len], to);
    if len < JOINED_LEN {
        return front;
    }
    match front.stop {
        Stop::IllFormed(_) | Stop::NoSpace => front,
        Stop::Done | Stop::Incomplete => {
            let behind = &chunk[front.read - pending.len()..];
            let rest = from_wtf8_partial::<E>(behind, &mut to[front.written..]);
            Progress {
                read: front.read + rest.read,
                written: front.written + rest.written,
                stop: rest.stop,
            }
        }
    }
}
