// packaging/erase wrote this from crates/utf16_to_utf8/src/blocks.rt: do not edit it.
//! A block of thirty-two code units: its kind, and the UTF-8 that it adds.

use crate::proved::simd::*;
use crate::proved::utf16_to_utf8::lanes::{
    doubled, each, eights, have_none, sixteens, smaller, sum,
};
use crate::proved::utf16_to_utf8::pack::{write_any, write_ascii, write_narrow, write_wide};
use crate::proved::utf16_units::blocks::units32;
use crate::proved::utf16_units::Utf16Order;

// What the units of a block have in common.
#[derive(Clone, Copy)]
pub(crate) enum Kind {
    // All are ASCII.
    Ascii,
    // All are below U+0800.
    Letters,
    // Some are surrogates, and the others are below U+0800.
    Pairs,
    // Each adds three bytes.
    Wide,
    // None is a surrogate.
    Basic,
    // Nothing.
    Mixed,
}

// The units of at most 64 bytes, padded to a block with zeros.
//
// Proved:
//
// - requires few: `length raw.now ≤ 64`
// - requires even: `length raw.now % 2 ≡ 0`
// - ensures len: `length result ≡ 32`
// - ensures units: `result ≡ units_of E.BIG raw.now ++ replicate (32 - length raw.now / 2) 0`
#[inline(always)]
pub(crate) fn filled_units<E: Utf16Order>(raw: &[u8]) -> u16x32 {
    let mut block = [0; 64];
    block[..raw.len()].copy_from_slice(raw);
    units32::<E>(u8x64::from_array(block))
}

// Whether all units are below a limit. It tests the bits of the limit and those above, which takes
// fewer instructions than a comparison.
//
// Proved:
//
// - requires limit: `(limit ≡ 0x80) ⊎ (limit ≡ 0x800)`
// - ensures `IsTrue result → All (λ unit. unit < limit) units`
#[inline(always)]
pub(crate) fn are_below(units: u16x32, limit: u16) -> bool {
    have_none(units, !(limit - 1))
}

// Whether eight lanes are below a limit.
//
// Proved:
//
// - ensures `IsTrue result ↔ All (λ lane. lane < limit) lanes`
#[inline(always)]
pub(crate) fn lanes_below(lanes: u16x8, limit: u16) -> bool {
    lanes.simd_lt(u16x8::splat(limit)).to_bitmask() == 0xFF
}

// Whether no unit is below a limit.
//
// Proved:
//
// - ensures `IsTrue result → All (λ unit. limit ≤ unit) units`
#[inline(always)]
fn are_from(units: u16x32, limit: u16) -> bool {
    lanes_from(least(units), limit)
}

// Whether none of eight lanes is below a limit.
//
// Proved:
//
// - ensures `IsTrue result → All (λ lane. limit ≤ lane) lanes`
#[inline(always)]
pub(crate) fn lanes_from(lanes: u16x8, limit: u16) -> bool {
    lanes.simd_lt(u16x8::splat(limit)).to_bitmask() == 0
}

// The least of the units at the same place in each group of eight.
//
// Proved:
//
// - ensures len: `length result ≡ 8`
// - ensures bound: `(limit : ℕ) → All (λ unit. limit ≤ unit) result → All (λ unit. limit ≤ unit)
//   units`
#[inline(always)]
fn least(units: u16x32) -> u16x8 {
    let (first, second) = sixteens(units);
    let (low, high) = eights(smaller(first, second));
    smaller(low, high)
}

// Units raised so that a unit is below 0x800 exactly if it is a surrogate.
//
// Proved:
//
// - ensures `HasLanes N result (λ i. plus (slice_index units.entry i) 0x2800)`
#[inline(always)]
fn raised<const N: usize>(units: Simd<u16, N>) -> Simd<u16, N> {
    sum(units, each(0x2800))
}

// Units folded so that a unit is below 0x800 exactly if it is below U+0800 or a surrogate.
//
// Proved:
//
// - ensures `HasLanes N result (λ i. folded (slice_index units.entry i))`
#[inline(always)]
pub(crate) fn folded<const N: usize>(units: Simd<u16, N>) -> Simd<u16, N> {
    smaller(units, raised(units))
}

// The kind of the units of a block that is not ASCII, which is of letters too. A kind is tested
// before the kinds that include it, because it is written faster: letters and wide units are basic.
//
// Proved:
//
// - ensures `AreOfKind result units`
#[inline(always)]
pub(crate) fn kind_of(units: u16x32) -> Kind {
    if are_of(units, Kind::Letters) {
        Kind::Letters
    } else if are_of(units, Kind::Wide) {
        Kind::Wide
    } else if are_of(units, Kind::Basic) {
        Kind::Basic
    } else if are_of(units, Kind::Pairs) {
        Kind::Pairs
    } else {
        Kind::Mixed
    }
}

// Whether none of eight units is a surrogate. Units below U+0800 are tested for first, because they
// are written in other ways.
//
// Proved:
//
// - ensures `IsTrue result → AreOfKind Basic units`
#[inline(always)]
pub(crate) fn eight_are_basic(units: u16x8) -> bool {
    lanes_below(units, 0x800) || lanes_from(raised(units), 0x800)
}

// Whether the units of a block have this kind.
//
// Proved:
//
// - ensures `IsTrue result → AreOfKind kind units`
#[inline(always)]
pub(crate) fn are_of(units: u16x32, kind: Kind) -> bool {
    match kind {
        Kind::Ascii => are_below(units, 0x80),
        Kind::Letters => are_below(units, 0x800),
        Kind::Wide => are_from(folded(units), 0x800),
        Kind::Pairs => {
            // A block with no surrogate ends a run of pairs.
            if are_below(units, 0x800) {
                return false;
            }
            are_below(folded(units), 0x800)
        }
        Kind::Basic => {
            // A block of letters ends a run of basic units.
            if are_below(units, 0x800) {
                return false;
            }
            are_from(raised(units), 0x800)
        }
        Kind::Mixed => true,
    }
}

// Writes the UTF-8 that a block of this kind adds.
//
// Proved:
//
// - requires space: `at + 104 ≤ length out.old`
// - requires kind: `AreOfKind kind units`
// - ensures bytes: `take result out.new ≡ take at out.old ++ units_utf8 (slice_index previous 7)
//   units`
// - ensures written_to: `result ≤ at + 96`
// - ensures ascii: `kind ≡ Ascii → result ≤ at + 32`
#[inline(always)]
pub(crate) fn write_units(
    out: &mut [u8],
    at: usize,
    previous: u16x8,
    units: u16x32,
    kind: Kind,
) -> usize {
    if let Kind::Ascii = kind {
        return write_ascii(out, at, units);
    }
    let (first, second) = sixteens(units);
    let end = write_group(out, at, doubled(previous), first, kind);
    write_group(out, end, first, second, kind)
}

// Writes the UTF-8 that sixteen units of this kind add.
//
// Proved:
//
// - requires space: `at + 56 ≤ length out.old`
// - requires kind: `AreOfKind kind units`
// - ensures bytes: `take result out.new ≡ take at out.old ++ units_utf8 (slice_index previous 15)
//   units`
// - ensures written_to: `result ≤ at + 48`
#[inline(always)]
fn write_group(out: &mut [u8], at: usize, previous: u16x16, units: u16x16, kind: Kind) -> usize {
    match kind {
        Kind::Ascii => write_ascii(out, at, units),
        Kind::Letters => write_narrow(out, at, previous, units, false),
        Kind::Pairs => write_narrow(out, at, previous, units, true),
        Kind::Wide => write_wide(out, at, units),
        Kind::Basic => write_any(out, at, previous, units, false),
        Kind::Mixed => write_any(out, at, previous, units, true),
    }
}
