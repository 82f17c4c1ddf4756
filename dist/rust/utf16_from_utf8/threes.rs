// packaging/erase wrote this from crates/utf16_from_utf8/src/threes.rt: do not edit it.
//! Characters of three bytes, sixteen at a time. 3 and 16 have no common divisor, so the first
//! bytes of the characters have different places in their vectors of sixteen, and so have the
//! second and the third bytes.
//!
//! So two choices by lane and one shuffle collect each of the three. They are tested after that,
//! sixteen characters in each test. The high byte of the unit says whether it is below U+0800 or a
//! surrogate.

use crate::proved::simd::*;
use crate::proved::utf16_from_utf8::lanes::{each, greater, masked, sum, where_below};
use crate::proved::utf16_from_utf8::limits::are_below;
use crate::proved::utf16_from_utf8::pack::paired;
use crate::proved::utf16_from_utf8::units::{three_highs, three_lows};
use crate::proved::utf16_units::{Moved, Utf16Order};

// Writes the next characters of three bytes, sixteen at a time.
//
// Proved:
//
// - requires `IsWritten E.BIG bytes.now out.old from.read from.written`
// - ensures written: `IsWritten E.BIG bytes.now out.new result.read result.written`
// - ensures advances: `from.read ≤ result.read`
// - ensures stays: `result.read ≡ from.read → result.written ≡ from.written`
#[inline(always)]
pub(crate) fn write_threes<E: Utf16Order>(bytes: &[u8], out: &mut [u8], from: Moved) -> Moved {
    let mut read = from.read;
    let mut written = from.written;
    while bytes.len() - read >= 48 {
        if out.len() - written < 32 {
            break;
        }
        let (firsts, seconds, thirds) = in_threes(bytes, read);
        if !are_characters(firsts, seconds, thirds) {
            break;
        }
        written = write_sixteen_threes::<E>(out, written, firsts, seconds, thirds);
        read += 48;
    }
    Moved { read, written }
}

// Whether the bytes are sixteen characters of three bytes.
//
// Proved:
//
// - ensures well_formed: `IsTrue result → IsUtf8 (woven firsts seconds thirds)`
// - ensures threes: `IsTrue result → (i : ℕ) → i < 16 → IsThree (slice_index firsts i) (slice_index
//   seconds i) (slice_index thirds i)`
#[inline(always)]
fn are_characters(firsts: u8x16, seconds: u8x16, thirds: u8x16) -> bool {
    are_sixteen(firsts, seconds, thirds) && are_scalars(three_highs(firsts, seconds))
}

// Whether no unit with these high bytes is below U+0800 or a surrogate.
//
// Proved:
//
// - ensures `IsTrue result → (i : ℕ) → i < 16 → (8 ≤ slice_index highs i) × ((slice_index highs i <
//   0xD8) ⊎ (0xE0 ≤ slice_index highs i))`
#[inline(always)]
fn are_scalars(highs: u8x16) -> bool {
    let short = where_below(highs, 8, each(0xFF), each(0));
    let surrogate = where_below(sum(highs, each(0x28)), 8, each(0xFF), each(0));
    are_below(greater(short, surrogate), 1)
}

// The first, the second and the third bytes of the characters in the next forty-eight bytes.
//
// Proved:
//
// - requires `at + 48 ≤ length piece.now`
// - ensures `take 48 (drop at piece.now) ≡ woven result.0 result.1 result.2`
#[inline(always)]
fn in_threes(piece: &[u8], at: usize) -> (u8x16, u8x16, u8x16) {
    let a = u8x16::from_slice(&piece[at..]);
    let b = u8x16::from_slice(&piece[at + 16..]);
    let c = u8x16::from_slice(&piece[at + 32..]);
    (firsts(a, b, c), seconds(a, b, c), thirds(a, b, c))
}

// Proved:
//
// - ensures `result ≡ pick_l 0 (a ++ (b ++ c)) (every_third 0 16)`
#[inline(always)]
fn firsts(a: u8x16, b: u8x16, c: u8x16) -> u8x16 {
    let others = shuffle!(
        b,
        c,
        [16, 17, 2, 19, 20, 5, 22, 23, 8, 25, 26, 11, 28, 29, 14, 31],
    );
    let all = shuffle!(
        a,
        others,
        [0, 17, 18, 3, 20, 21, 6, 23, 24, 9, 26, 27, 12, 29, 30, 15],
    );
    swizzle!(all, [0, 3, 6, 9, 12, 15, 2, 5, 8, 11, 14, 1, 4, 7, 10, 13])
}

// Proved:
//
// - ensures `result ≡ pick_l 0 (a ++ (b ++ c)) (every_third 1 16)`
#[inline(always)]
fn seconds(a: u8x16, b: u8x16, c: u8x16) -> u8x16 {
    let others = shuffle!(
        b,
        c,
        [0, 17, 18, 3, 20, 21, 6, 23, 24, 9, 26, 27, 12, 29, 30, 15],
    );
    let all = shuffle!(
        a,
        others,
        [16, 1, 18, 19, 4, 21, 22, 7, 24, 25, 10, 27, 28, 13, 30, 31],
    );
    swizzle!(all, [1, 4, 7, 10, 13, 0, 3, 6, 9, 12, 15, 2, 5, 8, 11, 14])
}

// Proved:
//
// - ensures `result ≡ pick_l 0 (a ++ (b ++ c)) (every_third 2 16)`
#[inline(always)]
fn thirds(a: u8x16, b: u8x16, c: u8x16) -> u8x16 {
    let others = shuffle!(
        b,
        c,
        [16, 1, 18, 19, 4, 21, 22, 7, 24, 25, 10, 27, 28, 13, 30, 31],
    );
    let all = shuffle!(
        a,
        others,
        [16, 17, 2, 19, 20, 5, 22, 23, 8, 25, 26, 11, 28, 29, 14, 31],
    );
    swizzle!(all, [2, 5, 8, 11, 14, 1, 4, 7, 10, 13, 0, 3, 6, 9, 12, 15])
}

// Whether the upper bits of the bytes are the upper bits of sixteen characters.
//
// Proved:
//
// - ensures `IsTrue result → (i : ℕ) → i < 16 → IsThree (slice_index firsts i) (slice_index seconds
//   i) (slice_index thirds i)`
#[inline(always)]
fn are_sixteen(firsts: u8x16, seconds: u8x16, thirds: u8x16) -> bool {
    // Each is zero exactly if its upper bits are right.
    let first = sum(masked(firsts, 0xF0), each(0x20));
    let second = sum(masked(seconds, 0xC0), each(0x80));
    let third = sum(masked(thirds, 0xC0), each(0x80));
    are_below(greater(greater(first, second), third), 1)
}

// Writes sixteen characters of three bytes.
//
// Proved:
//
// - requires space: `at + 32 ≤ length out.old`
// - requires threes: `(i : ℕ) → i < 16 → IsThree (slice_index firsts i) (slice_index seconds i)
//   (slice_index thirds i)`
// - ensures bytes: `(b2 b1 : ℕ) → take result out.new ≡ take at out.old ++ added_bytes E.BIG b2 b1
//   (woven firsts seconds thirds)`
// - ensures written_to: `result ≡ at + 32`
#[inline(always)]
fn write_sixteen_threes<E: Utf16Order>(
    out: &mut [u8],
    at: usize,
    firsts: u8x16,
    seconds: u8x16,
    thirds: u8x16,
) -> usize {
    let highs = three_highs(firsts, seconds);
    let (first, second) = paired::<E>(highs, three_lows(seconds, thirds));
    first.copy_to_slice(&mut out[at..]);
    second.copy_to_slice(&mut out[at + 16..]);
    at + 32
}
