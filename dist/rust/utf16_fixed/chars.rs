// packaging/erase wrote this from crates/utf16_fixed/src/chars.rt: do not edit it.
//! Characters of one or two UTF-16 code units each, written from UTF-32 without a branch for each.
//!
//! Which of emoji and letters comes next is as good as random, so a branch on it is mispredicted.
//! So each character becomes two units, and the second one is dropped if the first is all of it.

use crate::proved::simd::*;
use crate::proved::utf16_fixed::lanes::are_scalars;
use crate::proved::utf16_fixed::pairs::{halved, pairs_of};
use crate::proved::utf16_from_utf8::write_kept;
use crate::proved::utf16_units::blocks::bytes16;
use crate::proved::utf16_units::{Moved, Utf16Order};

// How many blocks without a character of two code units end a run.
const PLAIN_BLOCKS: usize = 4;

// Writes blocks of eight characters, up to an ill-formed one, or until several in turn have no
// character of two code units.
//
// Proved:
//
// - requires `Writes (TranscodesFromUtf32 E.BIG) utf32.now to.old from.read from.written`
// - ensures wrote: `Writes (TranscodesFromUtf32 E.BIG) utf32.now to.new result.read result.written`
// - ensures after: `from.read ≤ result.read`
#[inline(always)]
pub(crate) fn write_char_blocks<E: Utf16Order>(utf32: &[u32], to: &mut [u8], from: Moved) -> Moved {
    let mut done = from;
    let mut plain = 0;
    while utf32.len() - done.read >= 8 && to.len() - done.written >= 32 {
        let chars = u32x8::from_slice(&utf32[done.read..]);
        if plain == PLAIN_BLOCKS || !are_scalars(chars) {
            break;
        }
        let end = write_eight::<E>(chars, to, done.written);
        plain = if end == done.written + 16 {
            plain + 1
        } else {
            0
        };
        done = Moved {
            read: done.read + 8,
            written: end,
        };
    }
    done
}

// Writes eight characters at `at`, and returns where they end. Overwrites 32 bytes at `at`.
//
// Proved:
//
// - requires scalars: `All IsScalar chars`
// - requires space: `at + 32 ≤ length to.old`
// - ensures bytes: `take result to.new ≡ take at to.old ++ encode E.BIG chars`
// - ensures written_to: `result ≤ at + 32`
#[inline(always)]
fn write_eight<E: Utf16Order>(chars: u32x8, to: &mut [u8], at: usize) -> usize {
    let (first, second) = parts(bytes16::<E>(halved(lanes_of(chars))));
    write_kept(to, at, first, second, kept_bits(chars))
}

// The first and the last sixteen bytes.
//
// Proved:
//
// - ensures first: `result.0 ≡ chunk 0 16 bytes`
// - ensures second: `result.1 ≡ chunk 16 16 bytes`
#[inline(always)]
fn parts(bytes: u8x32) -> (u8x16, u8x16) {
    (bytes.extract::<0, 16>(), bytes.extract::<16, 16>())
}

// The code units of each character in the halves of its lane. The second is zero if it has one.
//
// Proved:
//
// - ensures len: `length result ≡ 8`
// - ensures lanes: `result ≡ map char_lane chars`
#[inline(always)]
fn lanes_of(chars: u32x8) -> u32x8 {
    let pairs = pairs_of(chars);
    chars.simd_gt(u32x8::splat(0xFFFF)).select(pairs, chars)
}

// A bit for each of their halves that is a code unit of the character.
//
// Proved:
//
// - ensures bits: `result ≡ mask_l (map (above 0) (halved (map kept_lane chars)))`
// - ensures bound: `result < 2 ^ 16`
#[inline(always)]
fn kept_bits(chars: u32x8) -> u64 {
    halved(kept_lanes(chars))
        .simd_gt(u16x16::splat(0))
        .to_bitmask()
}

// For each character, a lane whose halves are not zero where they are code units of it.
//
// Proved:
//
// - ensures len: `length result ≡ 8`
// - ensures lanes: `result ≡ map kept_lane chars`
#[inline(always)]
fn kept_lanes(chars: u32x8) -> u32x8 {
    chars
        .simd_gt(u32x8::splat(0xFFFF))
        .select(u32x8::splat(0x1_0001), u32x8::splat(1))
}
