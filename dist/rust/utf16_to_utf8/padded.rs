// packaging/erase wrote this from crates/utf16_to_utf8/src/padded.rt: do not edit it.
//! At most sixteen bytes of a text, padded with zeros, and their units.

use crate::proved::simd::*;

// The last bytes of sixteen, moved to the front, and zeros after them.
//
// Proved:
//
// - requires `len ≤ 16`
// - ensures len: `length result ≡ 16`
// - ensures front: `take len result ≡ drop (16 - len) bytes`
// - ensures zeros: `drop len result ≡ replicate (16 - len) 0`
#[inline(always)]
pub(crate) fn moved_front(bytes: u8x16, len: usize) -> u8x16 {
    bytes.swizzle_dyn(last_places(len))
}

// The indices of the last `len` of sixteen bytes, and then 128, which gives a zero.
//
// Proved:
//
// - requires `len ≤ 16`
// - ensures `result ≡ range_with_len (16 - len) len ++ replicate (16 - len) 128`
#[inline(always)]
fn last_places(len: usize) -> u8x16 {
    u8x16::from_array(LAST_PLACES[len])
}

// The bytes of a text of eight to sixteen bytes, padded with zeros.
//
// Proved:
//
// - requires some: `8 ≤ length raw.now`
// - requires few: `length raw.now ≤ 16`
// - ensures `result ≡ raw.now ++ replicate (16 - length raw.now) 0`
#[inline(always)]
pub(crate) fn few_bytes(raw: &[u8]) -> u8x16 {
    let first = u8x8::from_slice(raw);
    let last = u8x8::from_slice(&raw[raw.len() - 8..]);
    let both = shuffle!(
        first,
        last,
        [0, 1, 2, 3, 4, 5, 6, 7, 8, 9, 10, 11, 12, 13, 14, 15]
    );
    let moved = moved_front(both, raw.len() - 8);
    shuffle!(
        both,
        moved,
        [0, 1, 2, 3, 4, 5, 6, 7, 16, 17, 18, 19, 20, 21, 22, 23],
    )
}

// The last bytes of a text of eight bytes or more, padded with zeros: all of them, if there are
// fewer than sixteen.
//
// Proved:
//
// - requires some: `8 ≤ length raw.now`
// - requires few: `len ≤ 16`
// - requires within: `len ≤ length raw.now`
// - requires all: `length raw.now < 16 → len ≡ length raw.now`
// - ensures len: `length result ≡ 16`
// - ensures last: `take len result ≡ drop (length raw.now - len) raw.now`
// - ensures zeros: `drop len result ≡ replicate (16 - len) 0`
#[inline(always)]
pub(crate) fn last_bytes(raw: &[u8], len: usize) -> u8x16 {
    if raw.len() < 16 {
        return few_bytes(raw);
    }
    moved_front(u8x16::from_slice(&raw[raw.len() - 16..]), len)
}

static LAST_PLACES: [[u8; 16]; 17] = [
    [
        128, 128, 128, 128, 128, 128, 128, 128, 128, 128, 128, 128, 128, 128, 128, 128,
    ],
    [
        15, 128, 128, 128, 128, 128, 128, 128, 128, 128, 128, 128, 128, 128, 128, 128,
    ],
    [
        14, 15, 128, 128, 128, 128, 128, 128, 128, 128, 128, 128, 128, 128, 128, 128,
    ],
    [
        13, 14, 15, 128, 128, 128, 128, 128, 128, 128, 128, 128, 128, 128, 128, 128,
    ],
    [
        12, 13, 14, 15, 128, 128, 128, 128, 128, 128, 128, 128, 128, 128, 128, 128,
    ],
    [
        11, 12, 13, 14, 15, 128, 128, 128, 128, 128, 128, 128, 128, 128, 128, 128,
    ],
    [
        10, 11, 12, 13, 14, 15, 128, 128, 128, 128, 128, 128, 128, 128, 128, 128,
    ],
    [
        9, 10, 11, 12, 13, 14, 15, 128, 128, 128, 128, 128, 128, 128, 128, 128,
    ],
    [
        8, 9, 10, 11, 12, 13, 14, 15, 128, 128, 128, 128, 128, 128, 128, 128,
    ],
    [
        7, 8, 9, 10, 11, 12, 13, 14, 15, 128, 128, 128, 128, 128, 128, 128,
    ],
    [
        6, 7, 8, 9, 10, 11, 12, 13, 14, 15, 128, 128, 128, 128, 128, 128,
    ],
    [
        5, 6, 7, 8, 9, 10, 11, 12, 13, 14, 15, 128, 128, 128, 128, 128,
    ],
    [4, 5, 6, 7, 8, 9, 10, 11, 12, 13, 14, 15, 128, 128, 128, 128],
    [3, 4, 5, 6, 7, 8, 9, 10, 11, 12, 13, 14, 15, 128, 128, 128],
    [2, 3, 4, 5, 6, 7, 8, 9, 10, 11, 12, 13, 14, 15, 128, 128],
    [1, 2, 3, 4, 5, 6, 7, 8, 9, 10, 11, 12, 13, 14, 15, 128],
    [0, 1, 2, 3, 4, 5, 6, 7, 8, 9, 10, 11, 12, 13, 14, 15],
];
