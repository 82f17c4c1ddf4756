// packaging/erase wrote this from crates/utf16_transcode/src/transcoding.rt: do not edit it.
//! Transcoding from one encoding to the other, up to the first ill-formed sequence or as far as
//! whole characters fit.
//!
//! The writers with SIMD need more space than the text takes. Near the end, one or two blocks go
//! through a buffer on the stack, and whole characters that fit are copied. The last boundary is at
//! most three bytes back, so the cut takes a few steps.
//!
//! Few bytes go character by character, and so does text that begins near an ill-formed sequence:
//! otherwise strict calls into 32 to 256 bytes take up to 3.6 times as long.

use crate::proved::utf16_to_utf8::put;
use crate::proved::utf16_transcode::direction::{Direction, BLOCK_LEN, BLOCK_ROOM};
use crate::proved::utf16_transcode::progress::{Progress, Stop};
use crate::proved::utf16_units::strategy::FEW_TEXT;
use crate::proved::utf16_units::Moved;

/// Writes the longest valid prefix in the second encoding to the start of a buffer, as far as whole
/// characters fit.
///
/// Proved:
///
/// - ensures wrote: `Writes (SameText D.IsValid D.other) input.now to.new result.read
///   result.written`
/// - ensures stop: `Stops D.from D.into D.IsIllFormed input.now result.read (length to.new -
///   result.written) result.stop`
#[inline(always)]
pub fn transcode<D: Direction>(input: &[u8], to: &mut [u8]) -> Progress {
    let begun = D::begin(input, to);
    if begun.read == input.len() {
        return Progress {
            read: begun.read,
            written: begun.written,
            stop: Stop::Done,
        };
    }
    transcode_many::<D>(input, to, begun)
}

// Goes on from what was begun, and transcodes as much at once as surely fits. Not inlined, so that
// what `begin` writes stays cheap.
//
// Proved:
//
// - requires some: `begun.read < length input.now`
// - requires begun: `Writes (SameText D.IsValid D.other) input.now to.old begun.read begun.written`
// - ensures wrote: `Writes (SameText D.IsValid D.other) input.now to.new result.read
//   result.written`
// - ensures stop: `Stops D.from D.into D.IsIllFormed input.now result.read (length to.new -
//   result.written) result.stop`
#[inline(never)]
fn transcode_many<D: Direction>(input: &[u8], to: &mut [u8], begun: Moved) -> Progress {
    D::laws();
    let Moved {
        mut read,
        mut written,
    } = begun;
    // Tested first, because an ill-formed sequence often follows another.
    if let Err(stop) = first_char_or_stop::<D>(&input[read..]) {
        return Progress {
            read,
            written,
            stop,
        };
    }
    while read < input.len() {
        let piece = write_piece::<D>(&input[read..], to, written);
        read += piece.read;
        written = piece.written;
        if read == input.len() {
            break;
        }
        match write_next_char::<D>(&input[read..], to, written) {
            Ok(next) => {
                read += next.read;
                written = next.written;
            }
            Err(stop) => {
                return Progress {
                    read,
                    written,
                    stop,
                };
            }
        }
    }
    Progress {
        read,
        written,
        stop: Stop::Done,
    }
}

// Writes a valid prefix of the bytes, which may be empty, at `at`. It first writes bytes that it
// validates at the same time, as far as possible, and then a few that it validates before it writes
// them.
//
// Proved:
//
// - requires `at ≤ length to.old`
// - ensures `WritesAt (SameText D.IsValid D.other) rest.now to.old to.new at result.read
//   result.written`
fn write_piece<D: Direction>(rest: &[u8], to: &mut [u8], at: usize) -> Moved {
    D::laws();
    let mut read = 0;
    let mut end = at;
    if rest.len() >= D::FRONT_LEN {
        let front = D::write_front(rest, &mut to[at..]);
        read = front.read;
        end += front.written;
    }
    if read == rest.len() {
        return Moved { read, written: end };
    }
    let tail = write_validated_tail::<D>(&rest[read..], to, end);
    Moved {
        read: read + tail.read,
        written: tail.written,
    }
}

// Writes a valid prefix of a few bytes, and validates it first. It writes directly to the buffer if
// all bytes surely fit.
//
// Proved:
//
// - requires `at ≤ length to.old`
// - ensures `WritesAt (SameText D.IsValid D.other) rest.now to.old to.new at result.read
//   result.written`
fn write_validated_tail<D: Direction>(rest: &[u8], to: &mut [u8], at: usize) -> Moved {
    D::laws();
    if rest.len() < FEW_TEXT {
        return write_chars::<D>(rest, to, at);
    }
    let len = rest.len().min(2 * BLOCK_LEN);
    if len <= D::surely_fit(to.len() - at) {
        return write_valid::<D>(&rest[..len], to, at);
    }
    write_near_end::<D>(rest, to, at)
}

// Writes a valid prefix of bytes that surely fit.
//
// Proved:
//
// - requires `at + D.room_for (length rest.now) ≤ length to.old`
// - ensures `WritesAt (SameText D.IsValid D.other) rest.now to.old to.new at result.read
//   result.written`
#[inline(always)]
fn write_valid<D: Direction>(rest: &[u8], to: &mut [u8], at: usize) -> Moved {
    D::laws();
    let len = D::valid_len(rest);
    if len == 0 {
        return Moved {
            read: 0,
            written: at,
        };
    }
    let written = D::write(&rest[..len], &mut to[at..]);
    Moved {
        read: len,
        written: at + written,
    }
}

// Writes a valid prefix of bytes that may not all fit. It goes character by character if there is
// little space, or if an ill-formed sequence is near, since a block would stop there.
//
// Proved:
//
// - requires some: `0 < length rest.now`
// - requires within: `at ≤ length to.old`
// - ensures `WritesAt (SameText D.IsValid D.other) rest.now to.old to.new at result.read
//   result.written`
fn write_near_end<D: Direction>(rest: &[u8], to: &mut [u8], at: usize) -> Moved {
    D::laws();
    if to.len() - at < 3 * FEW_TEXT {
        return write_chars::<D>(rest, to, at);
    }
    let mut buf = [0; BLOCK_ROOM];
    if rest.len() < D::FRONT_LEN {
        return write_buffered_text::<D>(rest, &mut buf, to, at);
    }
    if is_near_ill_formed::<D>(rest) {
        return write_chars::<D>(rest, to, at);
    }
    let block = write_buffered_block::<D>(rest, &mut buf, to, at);
    if block.read > 0 {
        return block;
    }
    let few = write_buffered_text::<D>(&rest[block.read..], &mut buf, to, block.written);
    Moved {
        read: block.read + few.read,
        written: few.written,
    }
}

// Whether the first or the second character is missing or ill formed. Only speed depends on the
// answer.
//
// Proved:
//
// - requires `0 < length rest.now`
#[inline(always)]
fn is_near_ill_formed<D: Direction>(rest: &[u8]) -> bool {
    match D::first_char(rest) {
        Ok((_, len)) => len < rest.len() && D::first_char(&rest[len..]).is_err(),
        Err(_) => true,
    }
}

// Writes a valid prefix through `buf`, and validates it at the same time: a block, or two blocks if
// more space than a block takes is left. A block of UTF-16 needs the code unit after it.
//
// Proved:
//
// - requires `at ≤ length to.old`
// - ensures `WritesAt (SameText D.IsValid D.other) rest.now to.old to.new at result.read
//   result.written`
#[inline(always)]
fn write_buffered_block<D: Direction>(
    rest: &[u8],
    buf: &mut [u8],
    to: &mut [u8],
    at: usize,
) -> Moved {
    let most = if to.len() - at <= BLOCK_LEN {
        BLOCK_LEN
    } else {
        2 * BLOCK_LEN
    };
    let front = D::write_front(&rest[..rest.len().min(most + 2)], buf);
    write_fitting::<D>(&rest[..front.read], &buf[..front.written], to, at)
}

// Writes a valid prefix of a few bytes through `buf`, and validates it first.
//
// Proved:
//
// - requires space: `BLOCK_ROOM ≤ length buf.old`
// - requires within: `at ≤ length to.old`
// - ensures `WritesAt (SameText D.IsValid D.other) rest.now to.old to.new at result.read
//   result.written`
fn write_buffered_text<D: Direction>(
    rest: &[u8],
    buf: &mut [u8],
    to: &mut [u8],
    at: usize,
) -> Moved {
    D::laws();
    let len = D::valid_len(&rest[..rest.len().min(BLOCK_LEN)]);
    let end = D::write(&rest[..len], buf);
    write_fitting::<D>(&rest[..len], &buf[..end], to, at)
}

// Copies a text in the second encoding to `at`, as far as it fits.
//
// Proved:
//
// - requires text: `SameText D.IsValid D.other text.now written.now`
// - requires within: `at ≤ length to.old`
// - ensures bytes: `WritesAt (SameText D.IsValid D.other) text.now to.old to.new at result.read
//   result.written`
// - ensures most: `(result.read ≡ length text.now) ⊎ (length to.new - result.written < 4)`
#[inline(always)]
fn write_fitting<D: Direction>(text: &[u8], written: &[u8], to: &mut [u8], at: usize) -> Moved {
    let front = prefix_for::<D>(text, written, to.len() - at);
    Moved {
        read: front.read,
        written: put(&written[..front.written], to, at),
    }
}

// Returns how much of a text fits in `room` bytes in the second encoding.
//
// Proved:
//
// - requires `SameText D.IsValid D.other text.now written.now`
// - ensures prefix: `Writes (SameText D.IsValid D.other) text.now written.now result.read
//   result.written`
// - ensures fits: `result.written ≤ room`
// - ensures most: `(result.read ≡ length text.now) ⊎ (room < result.written + 4)`
#[inline(always)]
fn prefix_for<D: Direction>(text: &[u8], written: &[u8], room: usize) -> Moved {
    if written.len() <= room {
        Moved {
            read: text.len(),
            written: written.len(),
        }
    } else {
        D::fitting_prefix(text, written, room)
    }
}

// Writes the valid characters at the start of the bytes, as far as they fit. After what `begin`
// writes, it goes character by character.
//
// Proved:
//
// - requires `at ≤ length to.old`
// - ensures `WritesAt (SameText D.IsValid D.other) rest.now to.old to.new at result.read
//   result.written`
fn write_chars<D: Direction>(rest: &[u8], to: &mut [u8], at: usize) -> Moved {
    D::laws();
    let begun = D::begin(rest, &mut to[at..]);
    let mut read = begun.read;
    let mut written = at + begun.written;
    while read < rest.len() {
        let Ok(next) = write_next_char::<D>(&rest[read..], to, written) else {
            break;
        };
        read += next.read;
        written = next.written;
    }
    Moved { read, written }
}

// Writes the first character at `at`, or returns why it does not.
//
// Proved:
//
// - requires not_empty: `0 < length rest.now`
// - requires within: `at ≤ length to.old`
// - ensures wrote: `IfOk result (λ r. WritesAt (SameText D.IsValid D.other) rest.now to.old to.new
//   at r.read r.written)`
// - ensures advances: `IfOk result (λ r. 0 < r.read)`
// - ensures stop: `IfErr result (StopsHere D.from D.into D.IsIllFormedAt rest.now (length to.new -
//   at))`
// - ensures unchanged: `IfErr result (λ _. to.new ≡ to.old)`
#[inline(always)]
fn write_next_char<D: Direction>(rest: &[u8], to: &mut [u8], at: usize) -> Result<Moved, Stop> {
    D::laws();
    let (c, len) = first_char_or_stop::<D>(rest)?;
    match D::write_char(c, to, at) {
        Some(end) => Ok(Moved {
            read: len,
            written: end,
        }),
        None => Err(Stop::NoSpace),
    }
}

// Returns the first character and its length in bytes, or why a call stops before it.
//
// Proved:
//
// - requires `0 < length rest.now`
// - ensures char: `IfOk result (λ first. BeginsWith D.from rest.now first.0 first.1)`
// - ensures stop: `IfErr result (λ stop. (left : ℕ) → StopsHere D.from D.into D.IsIllFormedAt
//   rest.now left stop)`
#[inline(always)]
fn first_char_or_stop<D: Direction>(rest: &[u8]) -> Result<(char, usize), Stop> {
    match D::first_char(rest) {
        Ok(first) => Ok(first),
        Err(Some(len)) => Err(Stop::IllFormed(len)),
        Err(None) => Err(Stop::Incomplete),
    }
}
