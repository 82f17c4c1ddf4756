// packaging/erase wrote this from crates/utf16_from_utf8/src/text.rt: do not edit it.
//! Writes a text, or the text at the start of any bytes.
//!
//! Valid text goes through the blocks that validate. Blocks without the tests would take 1,600
//! lines of code and proof, and serve only strings. They would be up to 1.23 times as fast on
//! emoji, and no faster on ASCII and CJK.

use crate::proved::utf16_from_utf8::blocks::{write_ascii_start, write_mixed_blocks};
use crate::proved::utf16_from_utf8::chars::write_chars;
use crate::proved::utf16_from_utf8::rest::write_rest;
use crate::proved::utf16_from_utf8::short::{is_short_text, write_short};
use crate::proved::utf16_units::strategy::{FEW_TEXT, SHORT_TEXT};
use crate::proved::utf16_units::{Moved, Utf16Order};

/// How many bytes `write_text` needs in addition to two for each byte of a text.
pub const SLACK: usize = 16;

/// Writes a text in UTF-16 to the start of `out`, and returns the number of bytes written. The
/// bytes after those written and before `2 * text.len() + SLACK` may be overwritten.
///
/// # Precondition
///
/// `text` is well formed, and `out` has at least `2 * text.len() + SLACK` bytes.
///
/// # Complexity
///
/// One pass.
///
/// Proved:
///
/// - requires well_formed: `IsUtf8 text.now`
/// - requires space: `2 * length text.now + SLACK ≤ length out.old`
/// - ensures bytes: `take result out.new ≡ encode E.BIG (chars text.now)`
/// - ensures written_to: `result ≤ 2 * length text.now`
/// - ensures rest: `drop (2 * length text.now + SLACK) out.new ≡ drop (2 * length text.now + SLACK)
///   out.old`
#[inline(always)]
pub fn write_text<E: Utf16Order>(text: &[u8], out: &mut [u8]) -> usize {
    let room = 2 * text.len() + SLACK;
    write_whole::<E>(text, &mut out[..room])
}

// Writes a text. All bytes after those written may be overwritten.
//
// Proved:
//
// - requires well_formed: `IsUtf8 text.now`
// - requires space: `2 * length text.now + SLACK ≤ length out.old`
// - ensures bytes: `take result out.new ≡ encode E.BIG (chars text.now)`
// - ensures written_to: `result ≤ 2 * length text.now`
#[inline(always)]
fn write_whole<E: Utf16Order>(text: &[u8], out: &mut [u8]) -> usize {
    if text.len() < FEW_TEXT {
        return write_chars::<E>(unsafe { core::str::from_utf8_unchecked(text) }, out);
    }
    if text.len() <= 16 {
        return write_short::<E>(text, out);
    }
    write_many::<E>(text, out).written
}

/// Writes a text at the start of the bytes in UTF-16 to the start of `out`, and validates it: more
/// than sixteen bytes while it writes them. It writes all bytes if they are a text of at least
/// `FEW_TEXT` bytes, and `out` has `2 * bytes.len() + SLACK` bytes. Returns the number of bytes
/// read, which are well formed, and of bytes written. Those after them may be overwritten.
///
/// # Complexity
///
/// Linear time in the number of bytes read, and two passes over at most 192 more.
///
/// Proved:
///
/// - ensures written: `IsWritten E.BIG bytes.now out.new result.read result.written`
/// - ensures whole: `IsUtf8 bytes.now → FEW_TEXT ≤ length bytes.now → 2 * length bytes.now + SLACK
///   ≤ length out.old → result.read ≡ length bytes.now`
#[inline(always)]
pub fn write_prefix<E: Utf16Order>(bytes: &[u8], out: &mut [u8]) -> Moved {
    if bytes.len() <= 16 {
        return write_short_prefix::<E>(bytes, out);
    }
    write_many::<E>(bytes, out)
}

// Writes a text at the start of more than sixteen bytes: its ASCII, blocks of a long text, and the
// rest.
//
// Proved:
//
// - requires `16 < length bytes.now`
// - ensures written: `IsWritten E.BIG bytes.now out.new result.read result.written`
// - ensures whole: `IsUtf8 bytes.now → 2 * length bytes.now + SLACK ≤ length out.old → result.read
//   ≡ length bytes.now`
#[inline(always)]
fn write_many<E: Utf16Order>(bytes: &[u8], out: &mut [u8]) -> Moved {
    let ascii = write_ascii_start::<E>(bytes, out);
    if ascii.read == bytes.len() {
        return ascii;
    }
    if bytes.len() - ascii.read < SHORT_TEXT {
        return write_rest::<E>(bytes, out, ascii);
    }
    let blocks = write_mixed_blocks::<E>(bytes, out, ascii);
    if bytes.len() - blocks.read >= SHORT_TEXT {
        return blocks;
    }
    write_rest::<E>(bytes, out, blocks)
}

// Writes at most sixteen bytes, if they are a text of at least eight.
//
// Proved:
//
// - requires `length bytes.now ≤ 16`
// - ensures written: `IsWritten E.BIG bytes.now out.new result.read result.written`
// - ensures whole: `IsUtf8 bytes.now → FEW_TEXT ≤ length bytes.now → 32 ≤ length out.old →
//   result.read ≡ length bytes.now`
#[inline(always)]
fn write_short_prefix<E: Utf16Order>(bytes: &[u8], out: &mut [u8]) -> Moved {
    if bytes.len() < FEW_TEXT || out.len() < 32 || !is_short_text(bytes) {
        return Moved {
            read: 0,
            written: 0,
        };
    }
    Moved {
        read: bytes.len(),
        written: write_short::<E>(bytes, out),
    }
}
