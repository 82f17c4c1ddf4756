// packaging/erase wrote this from crates/utf16_from_utf8/src/read.rt: do not edit it.
//! Reads sixteen bytes, which may begin inside a character. It finds the units that end there, and
//! the bytes that may not follow those before them.

use crate::proved::simd::*;
use crate::proved::utf16_from_utf8::ascii::is_ascii;
use crate::proved::utf16_from_utf8::faults::faults;
use crate::proved::utf16_from_utf8::lanes::{each, greater, previous_lanes};
use crate::proved::utf16_from_utf8::sixteen::{units_of, units_of_ascii, Units};

// The units that end at sixteen bytes. Lane i of `faults` is not zero if byte i may not follow the
// three before it.
#[derive(Clone, Copy)]
pub(crate) struct Sixteen {
    pub(crate) units: Units,
    pub(crate) faults: u8x16,
}

// Reads the sixteen bytes at `at`. Before the first byte there are zeros. Text with characters of
// four bytes is often ASCII except for them.
//
// Proved:
//
// - requires more: `at + 16 ≤ length bytes.now`
// - requires below: `AreBelowFrom bytes.now (at - 3) (limit_of MOST)`
// - ensures units: `HoldUnits MOST (drop at (behind 2 bytes.now)) (drop at (behind 1 bytes.now))
//   (drop at bytes.now) result.units.highs result.units.lows result.units.ended`
// - ensures faults: `((i : ℕ) → i < 16 → slice_index result.faults i < 1) ↔ FollowFrom bytes.now
//   at`
#[inline(always)]
pub(crate) fn read_sixteen<const MOST: usize>(bytes: &[u8], at: usize) -> Sixteen {
    let block = u8x16::from_slice(&bytes[at..]);
    let (b3, b2, b1) = before_three(bytes, at);
    if MOST == 4 && is_ascii(greater(b3, block)) {
        return Sixteen {
            units: units_of_ascii(block),
            faults: each(0),
        };
    }
    Sixteen {
        units: units_of::<MOST>(b2, b1, block),
        faults: faults::<MOST>(b3, b2, b1, block),
    }
}

// For each of the sixteen bytes at `at`, the bytes three, two and one before it.
//
// Proved:
//
// - requires `at + 16 ≤ length bytes.now`
// - ensures three: `LanesBehind 3 bytes.now at result.0`
// - ensures two: `LanesBehind 2 bytes.now at result.1`
// - ensures one: `LanesBehind 1 bytes.now at result.2`
#[inline(always)]
fn before_three(bytes: &[u8], at: usize) -> (u8x16, u8x16, u8x16) {
    if at >= 3 {
        return (
            u8x16::from_slice(&bytes[at - 3..]),
            u8x16::from_slice(&bytes[at - 2..]),
            u8x16::from_slice(&bytes[at - 1..]),
        );
    }
    let b1 = previous_lanes(u8x16::from_slice(&bytes[at..]), byte_before(bytes, at, 1));
    let b2 = previous_lanes(b1, byte_before(bytes, at, 2));
    (previous_lanes(b2, 0), b2, b1)
}

// The byte `by` places before the one at `at`, or zero if there is none.
//
// Proved:
//
// - requires some: `0 < by`
// - requires more: `at < length bytes.now`
// - ensures `result ≡ slice_index (behind by bytes.now) at`
#[inline(always)]
fn byte_before(bytes: &[u8], at: usize, by: usize) -> u8 {
    if at < by {
        0
    } else {
        bytes[at - by]
    }
}

// The length without an incomplete character at the end, if all before it is well formed.
//
// Proved:
//
// - requires `3 ≤ length bytes.now`
// - ensures within: `result ≤ length bytes.now`
// - ensures whole: `result ≡ length bytes.now → EndsCharacter bytes.now`
// - ensures text: `IsUtf8 bytes.now → result ≡ length bytes.now`
#[inline(always)]
pub(crate) fn whole_len(bytes: &[u8]) -> usize {
    let len = bytes.len();
    if bytes[len - 1] >= 0xC0 {
        return len - 1;
    }
    if bytes[len - 2] >= 0xE0 {
        return len - 2;
    }
    if bytes[len - 3] >= 0xF0 {
        return len - 3;
    }
    len
}
