// packaging/erase wrote this from crates/utf16_from_utf8/src/rest.rt: do not edit it.
//! Writes the rest of bytes after their first blocks, sixteen bytes at a time, wherever characters
//! begin, and validates it at the same time.
//!
//! The greatest byte of the rest decides how it is written, once. A byte needs only those before
//! it, so nothing branches on the end of a character. The last bytes are read with those before
//! them, and the bits of units that were written are cleared.

use crate::proved::simd::*;
use crate::proved::utf16_from_utf8::lanes::{each, greater};
use crate::proved::utf16_from_utf8::limits::are_below;
use crate::proved::utf16_from_utf8::read::{read_sixteen, whole_len};
use crate::proved::utf16_from_utf8::sixteen::write_units;
use crate::proved::utf16_from_utf8::text::SLACK;
use crate::proved::utf16_from_utf8::threes::write_threes;
use crate::proved::utf16_units::{Moved, Utf16Order};

// The number of bytes written. Lane i of `faults` is not zero if byte i of a vector that was read
// may not follow the three before it.
#[derive(Clone, Copy)]
struct Tried {
    written: usize,
    faults: u8x16,
}

// Writes the rest of bytes after others, if it is well formed except for an incomplete character
// at its end, and surely fits. Otherwise it writes less, or nothing.
//
// Proved:
//
// - requires some: `16 < length bytes.now`
// - requires written: `IsWritten E.BIG bytes.now out.old from.read from.written`
// - ensures written: `IsWritten E.BIG bytes.now out.new result.read result.written`
// - ensures whole: `IsUtf8 bytes.now → 2 * length bytes.now + SLACK ≤ length out.old → result.read
//   ≡ length bytes.now`
#[inline(never)]
pub(crate) fn write_rest<E: Utf16Order>(bytes: &[u8], out: &mut [u8], from: Moved) -> Moved {
    let begun = write_next_threes::<E>(bytes, out, from);
    let len = whole_len(bytes);
    if len <= 16 || len <= begun.read {
        return begun;
    }
    let most_left = (out.len() - begun.written).saturating_sub(SLACK) / 2;
    if most_left < len - begun.read {
        return begun;
    }
    let rest = write_rest_by::<E>(&bytes[..len], begun.read, &mut out[begun.written..]);
    match rest {
        Some(end) => Moved {
            read: len,
            written: begun.written + end,
        },
        None => begun,
    }
}

// Writes the next characters of three bytes, or nothing if another character is next.
//
// Proved:
//
// - requires `IsWritten E.BIG bytes.now out.old from.read from.written`
// - ensures `IsWritten E.BIG bytes.now out.new result.read result.written`
#[inline(always)]
fn write_next_threes<E: Utf16Order>(bytes: &[u8], out: &mut [u8], from: Moved) -> Moved {
    if from.read == bytes.len() || !(0xE0..0xF0).contains(&bytes[from.read]) {
        return from;
    }
    write_threes::<E>(bytes, out, from)
}

// The most bytes of a character among the bytes from `at` on and the eighteen before them: 2, 3 or
// 4. The last sixteen bytes and the three before them may begin there.
//
// Proved:
//
// - requires some: `16 < length bytes.now`
// - requires within: `at ≤ length bytes.now`
// - ensures `AreBelowFrom bytes.now (at - 18) (limit_of result)`
#[inline(always)]
fn most_bytes(bytes: &[u8], at: usize) -> usize {
    let mut all = u8x16::from_slice(&bytes[bytes.len() - 16..]);
    let mut k = at.saturating_sub(18);
    while bytes.len() - k > 16 {
        all = greater(all, u8x16::from_slice(&bytes[k..]));
        k += 16;
    }
    if are_below(all, 0xE0) {
        return 2;
    }
    if are_below(all, 0xF0) {
        return 3;
    }
    4
}

// Writes the rest of bytes, by the most bytes of its characters, if all bytes are a text.
//
// Proved:
//
// - requires some: `16 < length bytes.now`
// - requires within: `from < length bytes.now`
// - requires begun: `IsUtf8 (take from bytes.now)`
// - requires space: `2 * (length bytes.now - from) + SLACK ≤ length out.old`
// - ensures written: `IfSome result (IsRestWritten E.BIG bytes.now out.new from)`
// - ensures none: `result ≡ None → ¬ (IsUtf8 bytes.now)`
#[inline(always)]
fn write_rest_by<E: Utf16Order>(bytes: &[u8], from: usize, out: &mut [u8]) -> Option<usize> {
    let most = most_bytes(bytes, from);
    if most == 2 {
        return write_rest_of::<E, 2>(bytes, from, out);
    }
    if most == 3 {
        return write_rest_of::<E, 3>(bytes, from, out);
    }
    write_rest_of::<E, 4>(bytes, from, out)
}

// Writes the rest of bytes whose characters there have at most `MOST` bytes, if all bytes are a
// text.
//
// Proved:
//
// - requires some: `16 < length bytes.now`
// - requires within: `from < length bytes.now`
// - requires below: `AreBelowFrom bytes.now (from - 18) (limit_of MOST)`
// - requires begun: `IsUtf8 (take from bytes.now)`
// - requires space: `2 * (length bytes.now - from) + SLACK ≤ length out.old`
// - ensures written: `IfSome result (IsRestWritten E.BIG bytes.now out.new from)`
// - ensures none: `result ≡ None → ¬ (IsUtf8 bytes.now)`
#[inline(never)]
fn write_rest_of<E: Utf16Order, const MOST: usize>(
    bytes: &[u8],
    from: usize,
    out: &mut [u8],
) -> Option<usize> {
    let mut tried = Tried {
        written: 0,
        faults: each(0),
    };
    let mut read = from;
    while bytes.len() - read >= 16 {
        tried = write_next::<E, MOST>(bytes, read, read, out, tried);
        read += 16;
    }
    let tried = write_last::<E, MOST>(bytes, read, out, tried);
    if !are_below(tried.faults, 1) || whole_len(bytes) < bytes.len() {
        return None;
    }
    Some(tried.written)
}

// Writes the last bytes, fewer than sixteen. It reads the last sixteen bytes.
//
// Proved:
//
// - requires some: `16 < length bytes.now`
// - requires within: `from ≤ length bytes.now`
// - requires few: `length bytes.now < from + 16`
// - requires below: `AreBelowFrom bytes.now (length bytes.now - 19) (limit_of MOST)`
// - requires space: `tried.written + 2 * (length bytes.now - from) + SLACK ≤ length out.old`
// - ensures `(start : ℕ) → IsTried E.BIG bytes.now out.old start from tried.written tried.faults →
//   IsTried E.BIG bytes.now out.new start (length bytes.now) result.written result.faults`
#[inline(always)]
fn write_last<E: Utf16Order, const MOST: usize>(
    bytes: &[u8],
    from: usize,
    out: &mut [u8],
    tried: Tried,
) -> Tried {
    if from == bytes.len() {
        return tried;
    }
    write_next::<E, MOST>(bytes, bytes.len() - 16, from, out, tried)
}

// Writes the bytes from the one at `from` on, of the sixteen at `at`, and adds the faults of the
// sixteen to others.
//
// Proved:
//
// - requires more: `at + 16 ≤ length bytes.now`
// - requires after: `at ≤ from`
// - requires before: `from ≤ at + 16`
// - requires below: `AreBelowFrom bytes.now (at - 3) (limit_of MOST)`
// - requires space: `tried.written + 2 * (at + 16 - from) + SLACK ≤ length out.old`
// - ensures `(start : ℕ) → IsTried E.BIG bytes.now out.old start from tried.written tried.faults →
//   IsTried E.BIG bytes.now out.new start (at + 16) result.written result.faults`
#[inline(always)]
fn write_next<E: Utf16Order, const MOST: usize>(
    bytes: &[u8],
    at: usize,
    from: usize,
    out: &mut [u8],
    tried: Tried,
) -> Tried {
    let next = read_sixteen::<MOST>(bytes, at);
    Tried {
        written: write_units::<E>(out, tried.written, next.units, from - at),
        faults: greater(tried.faults, next.faults),
    }
}
