// packaging/erase wrote this from crates/utf16_from_utf8/src/blocks.rt: do not edit it.
//! Writes the blocks at the start of bytes, by the kind of their characters.
//!
//! The greatest byte of a block decides how it is written. Characters of three and of four bytes
//! have loops, which are tried only if a block begins with one: on mixed text this saves a sixth of
//! the time. In parts of 8 KiB, first validated and then written, ASCII takes a fifth longer.

use crate::proved::utf16_from_utf8::ascii::{write_ascii, write_front};
use crate::proved::utf16_from_utf8::block::write_block;
use crate::proved::utf16_from_utf8::limits::{are_below, greatest};
use crate::proved::utf16_from_utf8::threes::write_threes;
use crate::proved::utf16_units::{Moved, Utf16Order};

// The length of a block in bytes.
const BLOCK_LEN: usize = 64;

/// Writes the blocks at the start of the bytes in UTF-16 to the start of `out`, and validates them
/// at the same time. Returns the number of bytes read, which are well formed, and the number of
/// bytes written. The bytes after those written may be overwritten.
///
/// It stops only if the next sixty-four bytes do not begin a well-formed text, there are fewer
/// bytes, or `out` has space for fewer than 128 more bytes.
///
/// # Complexity
///
/// One pass over the bytes that it reads.
///
/// Proved:
///
/// - ensures written: `IsWritten E.BIG bytes.now out.new result.read result.written`
/// - ensures stop: `IsBlock bytes.now result.read → length out.new < result.written + 128`
#[inline(always)]
pub fn write_blocks<E: Utf16Order>(bytes: &[u8], out: &mut [u8]) -> Moved {
    let ascii = write_ascii_start::<E>(bytes, out);
    if bytes.len() - ascii.read < BLOCK_LEN || out.len() - ascii.written < 2 * BLOCK_LEN {
        return ascii;
    }
    write_mixed_blocks::<E>(bytes, out, ascii)
}

// Writes the ASCII at the start of the bytes, as far as it fits.
//
// Proved:
//
// - ensures `IsWritten E.BIG bytes.now out.new result.read result.written`
#[inline(always)]
pub(crate) fn write_ascii_start<E: Utf16Order>(bytes: &[u8], out: &mut [u8]) -> Moved {
    let most = bytes.len().min(out.len() / 2);
    let len = write_ascii::<E>(&bytes[..most], out);
    Moved {
        read: len,
        written: 2 * len,
    }
}

// Writes blocks of all kinds after some ASCII. Kept out of line so that short texts do not pay for
// its registers.
//
// Proved:
//
// - requires `IsWritten E.BIG bytes.now out.old from.read from.written`
// - ensures written: `IsWritten E.BIG bytes.now out.new result.read result.written`
// - ensures stop: `IsBlock bytes.now result.read → length out.new < result.written + 128`
#[inline(never)]
pub(crate) fn write_mixed_blocks<E: Utf16Order>(
    bytes: &[u8],
    out: &mut [u8],
    from: Moved,
) -> Moved {
    let mut cursor = from;
    while bytes.len() - cursor.read >= BLOCK_LEN {
        if out.len() - cursor.written < 2 * BLOCK_LEN {
            break;
        }
        let next = write_next::<E>(bytes, out, cursor);
        let stays = next.read == cursor.read;
        cursor = next;
        if stays {
            break;
        }
    }
    cursor
}

// Writes at least the next block, or nothing if it is ill formed. Returns the new numbers of bytes
// read and written.
//
// Proved:
//
// - requires space: `from.written + 128 ≤ length out.old`
// - requires more: `from.read + 64 ≤ length bytes.now`
// - requires written: `IsWritten E.BIG bytes.now out.old from.read from.written`
// - ensures written: `IsWritten E.BIG bytes.now out.new result.read result.written`
// - ensures advances: `from.read ≤ result.read`
// - ensures stop: `result.read ≡ from.read → ¬ (IsBlock bytes.now from.read)`
#[inline(always)]
fn write_next<E: Utf16Order>(bytes: &[u8], out: &mut [u8], from: Moved) -> Moved {
    let greatest = greatest(bytes, from.read);
    if are_below(greatest, 0x80) {
        return write_ascii_run::<E>(bytes, out, from);
    }
    if are_below(greatest, 0xE0) {
        return write_block::<E, 2>(bytes, out, from);
    }
    let next = write_run::<E>(bytes, out, from);
    if next.read > from.read {
        return next;
    }
    if are_below(greatest, 0xF0) {
        return write_block::<E, 3>(bytes, out, next);
    }
    write_block::<E, 4>(bytes, out, next)
}

// Writes the next characters of three bytes, several at a time.
//
// Proved:
//
// - requires space: `from.written + 128 ≤ length out.old`
// - requires more: `from.read + 64 ≤ length bytes.now`
// - requires written: `IsWritten E.BIG bytes.now out.old from.read from.written`
// - ensures written: `IsWritten E.BIG bytes.now out.new result.read result.written`
// - ensures advances: `from.read ≤ result.read`
// - ensures stays: `result.read ≡ from.read → result.written ≡ from.written`
#[inline(always)]
fn write_run<E: Utf16Order>(bytes: &[u8], out: &mut [u8], from: Moved) -> Moved {
    if !(0xE0..0xF0).contains(&bytes[from.read]) {
        return from;
    }
    write_threes::<E>(bytes, out, from)
}

// Writes the next blocks of ASCII.
//
// Proved:
//
// - requires space: `from.written + 128 ≤ length out.old`
// - requires more: `from.read + 64 ≤ length bytes.now`
// - requires ascii: `AreBelow 64 bytes.now from.read 0x80`
// - requires written: `IsWritten E.BIG bytes.now out.old from.read from.written`
// - ensures written: `IsWritten E.BIG bytes.now out.new result.read result.written`
// - ensures advances: `from.read < result.read`
#[inline(always)]
fn write_ascii_run<E: Utf16Order>(bytes: &[u8], out: &mut [u8], from: Moved) -> Moved {
    let rest = &bytes[from.read..];
    let most = rest.len().min((out.len() - from.written) / 2);
    let len = write_front::<E>(&rest[..most], &mut out[from.written..]);
    Moved {
        read: from.read + len,
        written: from.written + 2 * len,
    }
}
