// packaging/erase wrote this from crates/utf16_from_utf8/src/short.rt: do not edit it.
//! Texts of eight to sixteen bytes.
//!
//! Such a text is one vector: its first and its last eight bytes, put in order by a table with a
//! row for each length. No unit ends at 0xFF, which fills the rest.

use crate::proved::simd::*;
use crate::proved::utf16_from_utf8::ascii::{is_ascii, write_ascii_block};
use crate::proved::utf16_from_utf8::block::before;
use crate::proved::utf16_from_utf8::faults::faults;
use crate::proved::utf16_from_utf8::lanes::{each, greater, previous_lanes, where_below};
use crate::proved::utf16_from_utf8::limits::are_below;
use crate::proved::utf16_from_utf8::pack::{paired, write_kept};
use crate::proved::utf16_from_utf8::read::whole_len;
use crate::proved::utf16_from_utf8::units::{ended_bits, four_bytes};
use crate::proved::utf16_units::Utf16Order;

// Writes a text of eight to sixteen bytes to the start of `out`, and returns where it ends.
//
// Proved:
//
// - requires well_formed: `IsUtf8 text.now`
// - requires some: `8 ≤ length text.now`
// - requires few: `length text.now ≤ 16`
// - requires space: `32 ≤ length out.old`
// - ensures bytes: `take result out.new ≡ encode E.BIG (chars text.now)`
// - ensures written_to: `result ≤ 2 * length text.now`
#[inline(always)]
pub(crate) fn write_short<E: Utf16Order>(text: &[u8], out: &mut [u8]) -> usize {
    let block = spread(text);
    if is_ascii(block) {
        write_ascii_block::<E>(out, 0, block);
        return 2 * text.len();
    }
    let block = filled(block, text.len());
    let (b2, b1) = before(block, 0, 0);
    let (highs, lows) = four_bytes(b2, b1, block);
    let (first, second) = paired::<E>(highs, lows);
    write_kept(out, 0, first, second, ended_bits(b1, block))
}

// Whether eight to sixteen bytes are a text.
//
// Proved:
//
// - requires some: `8 ≤ length bytes.now`
// - requires few: `length bytes.now ≤ 16`
// - ensures `IsTrue result ↔ IsUtf8 bytes.now`
#[inline(always)]
pub(crate) fn is_short_text(bytes: &[u8]) -> bool {
    is_ascii(spread(bytes)) || (whole_len(bytes) == bytes.len() && follow(bytes))
}

// Whether each of eight to sixteen bytes may follow the three before it.
//
// Proved:
//
// - requires some: `8 ≤ length bytes.now`
// - requires few: `length bytes.now ≤ 16`
// - ensures `IsTrue result ↔ FollowTo (length bytes.now) bytes.now 0`
#[inline(always)]
fn follow(bytes: &[u8]) -> bool {
    let block = filled(spread(bytes), bytes.len());
    let (b2, b1) = before(block, 0, 0);
    let all = faults::<4>(previous_lanes(b2, 0), b2, b1, block);
    are_below(first_lanes(all, bytes.len()), 1)
}

// The first `len` lanes, and zeros after them.
//
// Proved:
//
// - requires `len ≤ 16`
// - ensures `HasLanes 16 result (λ i. if nat_lt i len then slice_index v i else 0)`
#[inline(always)]
fn first_lanes(v: u8x16, len: usize) -> u8x16 {
    where_below(u8x16::from_array(LANES), len as u8, v, each(0))
}

static LANES: [u8; 16] = [0, 1, 2, 3, 4, 5, 6, 7, 8, 9, 10, 11, 12, 13, 14, 15];

// A block that begins with the bytes of the text. It is made of the first and the last eight bytes,
// which may overlap.
//
// Proved:
//
// - requires some: `8 ≤ length text.now`
// - requires few: `length text.now ≤ 16`
// - ensures len: `length result ≡ 16`
// - ensures text: `take (length text.now) result ≡ text.now`
#[inline(always)]
fn spread(text: &[u8]) -> u8x16 {
    let first = u8x8::from_slice(text);
    let last = u8x8::from_slice(&text[text.len() - 8..]);
    shuffle!(
        first,
        last,
        [0, 1, 2, 3, 4, 5, 6, 7, 8, 9, 10, 11, 12, 13, 14, 15]
    )
    .swizzle_dyn(order(text.len()))
}

// For each byte of a text of `len` bytes, its place in the first and the last eight bytes.
//
// Proved:
//
// - requires some: `8 ≤ len`
// - requires few: `len ≤ 16`
// - ensures `IsOrder len result`
#[inline(always)]
fn order(len: usize) -> u8x16 {
    u8x16::from_array(ORDER[len - 8])
}

static ORDER: [[u8; 16]; 9] = [
    [0, 1, 2, 3, 4, 5, 6, 7, 0, 0, 0, 0, 0, 0, 0, 0],
    [0, 1, 2, 3, 4, 5, 6, 7, 15, 0, 0, 0, 0, 0, 0, 0],
    [0, 1, 2, 3, 4, 5, 6, 7, 14, 15, 0, 0, 0, 0, 0, 0],
    [0, 1, 2, 3, 4, 5, 6, 7, 13, 14, 15, 0, 0, 0, 0, 0],
    [0, 1, 2, 3, 4, 5, 6, 7, 12, 13, 14, 15, 0, 0, 0, 0],
    [0, 1, 2, 3, 4, 5, 6, 7, 11, 12, 13, 14, 15, 0, 0, 0],
    [0, 1, 2, 3, 4, 5, 6, 7, 10, 11, 12, 13, 14, 15, 0, 0],
    [0, 1, 2, 3, 4, 5, 6, 7, 9, 10, 11, 12, 13, 14, 15, 0],
    [0, 1, 2, 3, 4, 5, 6, 7, 8, 9, 10, 11, 12, 13, 14, 15],
];

// The block with bytes that add nothing from `len` on.
//
// Proved:
//
// - requires `len ≤ 16`
// - ensures `HasLanes 16 result (λ i. if nat_lt i len then slice_index block i else 0xFF)`
#[inline(always)]
fn filled(block: u8x16, len: usize) -> u8x16 {
    greater(block, u8x16::from_slice(&FILL[16 - len..]))
}

static FILL: [u8; 32] = [
    0, 0, 0, 0, 0, 0, 0, 0, 0, 0, 0, 0, 0, 0, 0, 0, 0xFF, 0xFF, 0xFF, 0xFF, 0xFF, 0xFF, 0xFF, 0xFF,
    0xFF, 0xFF, 0xFF, 0xFF, 0xFF, 0xFF, 0xFF, 0xFF,
];
