// packaging/erase wrote this from crates/utf16_from_utf8/src/ascii.rt: do not edit it.
//! Writes the ASCII at the start of bytes, sixteen or sixty-four at a time.

use crate::proved::simd::*;
use crate::proved::utf16_from_utf8::lanes::{halves, masked, set_bits};
use crate::proved::utf16_from_utf8::limits::{are_below, greatest};
use crate::proved::utf16_units::blocks::bytes16;
use crate::proved::utf16_units::Utf16Order;

// Writes the ASCII at the start of the bytes in UTF-16 to the start of `out`, and returns how many
// bytes it read. It wrote two bytes for each of them.
//
// It writes all bytes if they are ASCII and at least sixteen. Otherwise it writes whole blocks of
// sixteen bytes, and stops before the first block that has a byte of another character. The other
// bytes of `out` are unchanged.
//
// Proved:
//
// - requires `2 * length bytes.now ≤ length out.old`
// - ensures within: `result ≤ length bytes.now`
// - ensures ascii: `IsAscii (take result bytes.now)`
// - ensures bytes: `take (2 * result) out.new ≡ encode E.BIG (chars (take result bytes.now))`
// - ensures rest: `drop (2 * result) out.new ≡ drop (2 * result) out.old`
// - ensures whole: `16 ≤ length bytes.now → IsAscii bytes.now → result ≡ length bytes.now`
// - ensures blocks: `result < length bytes.now → result % 16 ≡ 0`
// - ensures stop: `result + 16 ≤ length bytes.now → ¬ (IsAscii (take (result + 16) bytes.now))`
#[inline(always)]
pub(crate) fn write_ascii<E: Utf16Order>(bytes: &[u8], out: &mut [u8]) -> usize {
    if bytes.len() < 16 || !is_ascii(u8x16::from_slice(bytes)) {
        return 0;
    }
    if bytes.len() < 32 {
        let at = write_narrow_block::<E>(bytes, out, 0);
        return write_last_block::<E>(bytes, out, at);
    }
    write_front::<E>(bytes, out)
}

// Writes the ASCII at the start of sixteen bytes or more. Kept out of line so that other texts do
// not pay for a call.
//
// Proved:
//
// - requires space: `2 * length bytes.now ≤ length out.old`
// - requires some: `16 ≤ length bytes.now`
// - ensures written: `IsAsciiWritten E.BIG bytes.now out.old out.new result`
// - ensures whole: `IsAscii bytes.now → result ≡ length bytes.now`
// - ensures blocks: `result < length bytes.now → result % 16 ≡ 0`
// - ensures stop: `result + 16 ≤ length bytes.now → ¬ (IsAscii (take (result + 16) bytes.now))`
#[inline(never)]
pub(crate) fn write_front<E: Utf16Order>(bytes: &[u8], out: &mut [u8]) -> usize {
    let at = write_wide_blocks::<E>(bytes, out);
    let at = write_narrow_blocks::<E>(bytes, out, at);
    if bytes.len() - at >= 16 {
        return at;
    }
    write_last_block::<E>(bytes, out, at)
}

// Writes the last bytes, fewer than a block, if they are ASCII. It writes them as a block, together
// with the bytes before them, which are written again.
//
// Proved:
//
// - requires space: `2 * length bytes.now ≤ length out.old`
// - requires some: `16 ≤ length bytes.now`
// - requires few: `length bytes.now < at + 16`
// - requires within: `at ≤ length bytes.now`
// - ensures written: `(before : List ℕ) → IsAsciiWritten E.BIG bytes.now before out.old at →
//   IsAsciiWritten E.BIG bytes.now before out.new result`
// - ensures whole: `IsAscii bytes.now → result ≡ length bytes.now`
// - ensures either: `(result ≡ at) ⊎ (result ≡ length bytes.now)`
#[inline(always)]
fn write_last_block<E: Utf16Order>(bytes: &[u8], out: &mut [u8], at: usize) -> usize {
    let last = bytes.len() - 16;
    if !is_ascii(u8x16::from_slice(&bytes[last..])) {
        return at;
    }
    write_narrow_block::<E>(bytes, out, last)
}

// Writes blocks of sixty-four characters of one byte.
//
// Proved:
//
// - requires `2 * length bytes.now ≤ length out.old`
// - ensures written: `IsAsciiWritten E.BIG bytes.now out.old out.new result`
// - ensures blocks: `result % 16 ≡ 0`
#[inline(always)]
fn write_wide_blocks<E: Utf16Order>(bytes: &[u8], out: &mut [u8]) -> usize {
    let mut at = 0;
    while bytes.len() - at >= 64 {
        if !are_below(greatest(bytes, at), 0x80) {
            break;
        }
        at = write_wide_block::<E>(bytes, out, at);
    }
    at
}

// Writes blocks of sixteen characters of one byte, after the blocks that were written.
//
// Proved:
//
// - requires space: `2 * length bytes.now ≤ length out.old`
// - requires within: `from ≤ length bytes.now`
// - requires blocks: `from % 16 ≡ 0`
// - ensures written: `(before : List ℕ) → IsAsciiWritten E.BIG bytes.now before out.old from →
//   IsAsciiWritten E.BIG bytes.now before out.new result`
// - ensures within: `result ≤ length bytes.now`
// - ensures blocks: `result % 16 ≡ 0`
// - ensures stop: `result + 16 ≤ length bytes.now → ¬ (IsAscii (take (result + 16) bytes.now))`
#[inline(always)]
fn write_narrow_blocks<E: Utf16Order>(bytes: &[u8], out: &mut [u8], from: usize) -> usize {
    let mut at = from;
    while bytes.len() - at >= 16 {
        if !is_ascii(u8x16::from_slice(&bytes[at..])) {
            break;
        }
        at = write_narrow_block::<E>(bytes, out, at);
    }
    at
}

// Writes the next sixty-four bytes, and returns where the bytes after them begin.
//
// Proved:
//
// - requires space: `2 * length bytes.now ≤ length out.old`
// - requires more: `at + 64 ≤ length bytes.now`
// - requires ascii: `(i : ℕ) → i < 64 → slice_index bytes.now (at + i) < 0x80`
// - ensures written: `(before : List ℕ) → IsAsciiWritten E.BIG bytes.now before out.old at →
//   IsAsciiWritten E.BIG bytes.now before out.new result`
// - ensures at: `result ≡ at + 64`
#[inline(always)]
fn write_wide_block<E: Utf16Order>(bytes: &[u8], out: &mut [u8], at: usize) -> usize {
    // All are read before the first is written, which may overwrite what was not read yet as far as
    // the compiler knows.
    let a = u8x16::from_slice(&bytes[at..]);
    let b = u8x16::from_slice(&bytes[at + 16..]);
    let c = u8x16::from_slice(&bytes[at + 32..]);
    let d = u8x16::from_slice(&bytes[at + 48..]);
    let second = write_read_block::<E>(bytes, out, at, a);
    let third = write_read_block::<E>(bytes, out, second, b);
    let fourth = write_read_block::<E>(bytes, out, third, c);
    write_read_block::<E>(bytes, out, fourth, d)
}

// Writes the next sixteen bytes, and returns where the bytes after them begin.
//
// Proved:
//
// - requires space: `2 * length bytes.now ≤ length out.old`
// - requires more: `at + 16 ≤ length bytes.now`
// - requires ascii: `(i : ℕ) → i < 16 → slice_index bytes.now (at + i) < 0x80`
// - ensures written: `(before : List ℕ) → IsAsciiWritten E.BIG bytes.now before out.old at →
//   IsAsciiWritten E.BIG bytes.now before out.new result`
// - ensures at: `result ≡ at + 16`
#[inline(always)]
fn write_narrow_block<E: Utf16Order>(bytes: &[u8], out: &mut [u8], at: usize) -> usize {
    write_read_block::<E>(bytes, out, at, u8x16::from_slice(&bytes[at..]))
}

// Writes the next sixteen bytes, which were read, and returns where the bytes after them begin.
//
// Proved:
//
// - requires space: `2 * length bytes.now ≤ length out.old`
// - requires more: `at + 16 ≤ length bytes.now`
// - requires read: `block ≡ take 16 (drop at bytes.now)`
// - requires ascii: `(i : ℕ) → i < 16 → slice_index bytes.now (at + i) < 0x80`
// - ensures written: `(before : List ℕ) → IsAsciiWritten E.BIG bytes.now before out.old at →
//   IsAsciiWritten E.BIG bytes.now before out.new result`
// - ensures at: `result ≡ at + 16`
#[inline(always)]
fn write_read_block<E: Utf16Order>(bytes: &[u8], out: &mut [u8], at: usize, block: u8x16) -> usize {
    write_ascii_block::<E>(out, 2 * at, block);
    at + 16
}

/// Writes sixteen characters of ASCII at `at`, and returns where they end. The other bytes of `out`
/// are unchanged.
///
/// # Precondition
///
/// The bytes are ASCII, and `out` has 32 bytes at `at`.
///
/// # Complexity
///
/// Constant time.
///
/// Proved:
///
/// - requires space: `at + 32 ≤ length out.old`
/// - requires ascii: `(i : ℕ) → i < 16 → slice_index block i < 0x80`
/// - ensures bytes: `take result out.new ≡ take at out.old ++ encode E.BIG (chars block)`
/// - ensures rest: `drop result out.new ≡ drop result out.old`
/// - ensures written_to: `result ≡ at + 32`
#[inline(always)]
pub fn write_ascii_block<E: Utf16Order>(out: &mut [u8], at: usize, block: u8x16) -> usize {
    let units = bytes16::<E>(block.cast::<u16>());
    // Two stores: on x86-64-v3 they become one, and on x86-64-v2 the first stays first.
    let (first, second) = halves(units);
    first.copy_to_slice(&mut out[at..]);
    second.copy_to_slice(&mut out[at + 16..]);
    at + 32
}

// Whether all bytes are ASCII.
//
// Proved:
//
// - ensures `IsTrue result ↔ ((i : ℕ) → i < 16 → slice_index block i < 0x80)`
#[inline(always)]
pub(crate) fn is_ascii(block: u8x16) -> bool {
    set_bits(masked(block, 0x80)) == 0
}
