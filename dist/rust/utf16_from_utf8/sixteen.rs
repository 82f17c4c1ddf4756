// packaging/erase wrote this from crates/utf16_from_utf8/src/sixteen.rt: do not edit it.
//! The UTF-16 that sixteen bytes add, each of which may follow the bytes before it.
//!
//! Each byte ends one unit or none. So every lane computes a unit from its byte and the two before
//! it, and a table of 256 rows packs those that end. No lane needs to know where a character
//! begins.

use crate::proved::simd::*;
use crate::proved::utf16_from_utf8::lanes::{
    down, each, greater, masked, set_bits, sum, up, where_below,
};
use crate::proved::utf16_from_utf8::pack::{paired, write_eight};
use crate::proved::utf16_from_utf8::units::{
    ended_bits, four_bytes, high_bytes, low_bytes, previous_bytes,
};
use crate::proved::utf16_units::Utf16Order;

// The units that end at sixteen bytes. If one ends at byte i, bit i of `ended` is set, and lane i
// of `highs` and `lows` has its two bytes.
#[derive(Clone, Copy)]
pub(crate) struct Units {
    pub(crate) highs: u8x16,
    pub(crate) lows: u8x16,
    pub(crate) ended: u64,
}

// Writes sixteen bytes whose characters have at most `MOST` bytes. Each may follow the byte before
// it, in `b1`, and the byte two before it, in `b2`.
//
// Proved:
//
// - requires space: `at + 32 ≤ length out.old`
// - requires follow: `(i : ℕ) → i < 16 → FollowsAtMost MOST (slice_index b2 i) (slice_index b1 i)
//   (slice_index block i)`
// - ensures bytes: `(before2 before1 : ℕ) → AreBefore before2 before1 block b2 b1 → take result
//   out.new ≡ take at out.old ++ added_bytes E.BIG before2 before1 block`
// - ensures written_to: `result ≤ at + 32`
#[inline(always)]
pub(crate) fn write_sixteen<E: Utf16Order, const MOST: usize>(
    out: &mut [u8],
    at: usize,
    b2: u8x16,
    b1: u8x16,
    block: u8x16,
) -> usize {
    write_units::<E>(out, at, units_of::<MOST>(b2, b1, block), 0)
}

// Writes the units that end at the bytes from the one at `from` on, and returns their end.
//
// Proved:
//
// - requires within: `from ≤ 16`
// - requires bound: `units.ended < 2 ^ 16`
// - requires space: `at + 2 * (8 - from) + 16 ≤ length out.old`
// - ensures pairs: `take result out.new ≡ take at out.old ++ kept_pairs (units.ended / 2 ^ from * 2
//   ^ from) (pairs_of E.BIG units.highs units.lows)`
// - ensures written_to: `result ≤ at + 2 * (16 - from)`
#[inline(always)]
pub(crate) fn write_units<E: Utf16Order>(
    out: &mut [u8],
    at: usize,
    units: Units,
    from: usize,
) -> usize {
    let (first, second) = paired::<E>(units.highs, units.lows);
    let bits = units.ended >> from << from;
    let middle = write_eight(out, at, first, (bits % 256) as usize);
    write_eight(out, middle, second, (bits / 256) as usize)
}

// The units of sixteen bytes whose characters have at most `MOST` bytes.
//
// Proved:
//
// - ensures `HoldUnits MOST b2 b1 block result.highs result.lows result.ended`
#[inline(always)]
pub(crate) fn units_of<const MOST: usize>(b2: u8x16, b1: u8x16, block: u8x16) -> Units {
    if MOST == 2 {
        return units_of_two(b1, block);
    }
    if MOST == 3 {
        return units_of_three(b2, b1, block);
    }
    units_of_four(b2, b1, block)
}

// The units of sixteen bytes of ASCII.
//
// Proved:
//
// - requires `(i : ℕ) → i < 16 → slice_index block i < 0x80`
// - ensures `(most : ℕ) (b2 b1 : List ℕ) → HoldUnits most b2 b1 block result.highs result.lows
//   result.ended`
#[inline(always)]
pub(crate) fn units_of_ascii(block: u8x16) -> Units {
    Units {
        highs: each(0),
        lows: block,
        ended: 0xFFFF,
    }
}

// Proved:
//
// - ensures `(b2 : List ℕ) → HoldUnits 2 b2 b1 block result.highs result.lows result.ended`
#[inline(always)]
fn units_of_two(b1: u8x16, block: u8x16) -> Units {
    // The bits of the first byte of two, and zero after any other.
    let lead = sum(greater(b1, each(0xC0)), each(0x40));
    let ended = where_below(block, 0xC0, each(0xFF), each(0));
    Units {
        highs: down(lead, 2),
        lows: sum(masked(block, 0x7F), up(lead, 6)),
        ended: set_bits(ended),
    }
}

// Proved:
//
// - ensures `HoldUnits 3 b2 b1 block result.highs result.lows result.ended`
#[inline(always)]
fn units_of_three(b2: u8x16, b1: u8x16, block: u8x16) -> Units {
    let previous = previous_bytes(b1, block);
    Units {
        highs: high_bytes(b2, previous),
        lows: low_bytes(previous, block),
        ended: ended_bits(b1, block),
    }
}

// Proved:
//
// - ensures `(most : ℕ) → HoldUnits most b2 b1 block result.highs result.lows result.ended`
#[inline(always)]
fn units_of_four(b2: u8x16, b1: u8x16, block: u8x16) -> Units {
    let (highs, lows) = four_bytes(b2, b1, block);
    Units {
        highs,
        lows,
        ended: ended_bits(b1, block),
    }
}
