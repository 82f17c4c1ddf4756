// packaging/erase wrote this from crates/utf16_to_utf8/src/short.rt: do not edit it.
//! Writes eight units at once, in short texts and after the last block of a text.

use crate::proved::simd::*;
use crate::proved::utf16_to_utf8::blocks::{eight_are_basic, folded, lanes_below, lanes_from};
use crate::proved::utf16_to_utf8::groups::{absences, endings, narrow, outers, thirds, wide};
use crate::proved::utf16_to_utf8::lanes::previous_eight;
use crate::proved::utf16_to_utf8::pack::{
    ascii_bits, write_ascii, write_kept, write_pairs, write_threes,
};
use crate::proved::utf16_to_utf8::runs::Cursor;
use crate::proved::utf16_units::blocks::units8;
use crate::proved::utf16_units::Utf16Order;

/// Writes the first eight code units in UTF-8 to the start of `to` if they are ASCII, and returns
/// whether they are.
///
/// The bytes of `to` after the first eight are unchanged, and all are if it returns `false`.
///
/// # Precondition
///
/// `raw` has at least sixteen bytes, and `to` at least eight.
///
/// # Complexity
///
/// Constant time.
///
/// Proved:
///
/// - requires many: `16 ≤ length raw.now`
/// - requires space: `8 ≤ length to.old`
/// - ensures ascii: `IsTrue result ↔ All (λ unit. unit < 0x80) (units_of E.BIG (take 16 raw.now))`
/// - ensures well_formed: `IsTrue result → IsUtf16 E.BIG (take 16 raw.now)`
/// - ensures utf8: `IsTrue result → take 8 to.new ≡ utf8_of E.BIG (take 16 raw.now)`
/// - ensures rest: `drop 8 to.new ≡ drop 8 to.old`
/// - ensures unchanged: `result ≡ false → to.new ≡ to.old`
#[inline(always)]
pub fn write_eight_ascii<E: Utf16Order>(raw: &[u8], to: &mut [u8]) -> bool {
    let units = units8::<E>(u8x16::from_slice(raw));
    if !lanes_below(units, 0x80) {
        return false;
    }
    write_ascii(&mut to[..8], 0, units);
    true
}

// Writes the UTF-8 of eight units, of which some are surrogates or none.
//
// Proved:
//
// - requires space: `at + 32 ≤ length out.old`
// - requires none: `surrogates ≡ false → AreOfKind Basic units`
// - ensures bytes: `take result out.new ≡ take at out.old ++ units_utf8 (slice_index previous 7)
//   units`
// - ensures written_to: `result ≤ at + 24`
#[inline(always)]
fn write_eight_units(
    out: &mut [u8],
    at: usize,
    previous: u16x8,
    units: u16x8,
    surrogates: bool,
) -> usize {
    if surrogates {
        if lanes_below(folded(units), 0x800) {
            write_two_at_most(out, at, previous, units, true)
        } else {
            write_any_eight(out, at, previous, units, true)
        }
    } else if lanes_below(units, 0x800) {
        if lanes_below(units, 0x80) {
            write_ascii(out, at, units)
        } else {
            write_two_at_most(out, at, previous, units, false)
        }
    } else if lanes_from(units, 0x800) {
        write_threes(out, at, wide(units), thirds(units))
    } else {
        write_any_eight(out, at, previous, units, false)
    }
}

// Writes the UTF-8 of eight units that add at most two bytes each.
//
// Proved:
//
// - requires space: `at + 16 ≤ length out.old`
// - requires none: `surrogates ≡ false → AreOfKind Basic units`
// - requires narrow: `AreOfKind Pairs units`
// - ensures bytes: `take result out.new ≡ take at out.old ++ units_utf8 (slice_index previous 7)
//   units`
// - ensures written_to: `result ≤ at + 16`
#[inline(always)]
fn write_two_at_most(
    out: &mut [u8],
    at: usize,
    previous: u16x8,
    units: u16x8,
    surrogates: bool,
) -> usize {
    let pairs = narrow(previous_eight(previous, units), units, surrogates);
    write_pairs(out, at, pairs, ascii_bits(units))
}

// Writes the UTF-8 of any eight units.
//
// Proved:
//
// - requires space: `at + 32 ≤ length out.old`
// - requires none: `surrogates ≡ false → AreOfKind Basic units`
// - ensures bytes: `take result out.new ≡ take at out.old ++ units_utf8 (slice_index previous 7)
//   units`
// - ensures written_to: `result ≤ at + 24`
#[inline(always)]
fn write_any_eight(
    out: &mut [u8],
    at: usize,
    previous: u16x8,
    units: u16x8,
    surrogates: bool,
) -> usize {
    let endings = endings(previous_eight(previous, units), units, surrogates);
    write_kept(out, at, outers(units), endings, absences(units, surrogates))
}

// Writes the next eight units, of which some are surrogates or none.
//
// Proved:
//
// - requires space: `from.end + 32 ≤ length out.old`
// - requires more: `from.at + 16 ≤ length raw.now`
// - requires next: `units ≡ units_of E.BIG (take 16 (drop from.at raw.now))`
// - requires none: `surrogates ≡ false → AreOfKind Basic units`
// - requires reached: `Reached E.BIG raw.now out.old from`
// - ensures reached: `Reached E.BIG raw.now out.new result`
// - ensures at: `result.at ≡ from.at + 16`
// - ensures plain: `surrogates ≡ false → PairedTo E.BIG raw.now from.at false → PairedTo E.BIG
//   raw.now result.at false`
// - ensures pairs: `(before after : Bool) → PairedTo E.BIG raw.now from.at before → Paired before
//   units after → PairedTo E.BIG raw.now result.at after`
#[inline(always)]
pub(crate) fn write_known_eight<E: Utf16Order>(
    raw: &[u8],
    out: &mut [u8],
    from: Cursor,
    units: u16x8,
    surrogates: bool,
) -> Cursor {
    let end = write_eight_units(out, from.end, from.previous, units, surrogates);
    Cursor {
        at: from.at + 16,
        end,
        previous: units,
    }
}

// Writes the UTF-8 of at most eight units, whose bytes are padded with zeros. Each zero unit adds a
// byte, which the result does not count.
//
// Proved:
//
// - requires few: `len ≤ 16`
// - requires even: `len % 2 ≡ 0`
// - requires zeros: `drop len padded ≡ replicate (16 - len) 0`
// - requires space: `at + 32 ≤ length out.old`
// - ensures bytes: `take result out.new ≡ take at out.old ++ units_utf8 (slice_index previous 7)
//   (units_of E.BIG (take len padded))`
// - ensures written_to: `result ≤ at + 24`
#[inline(always)]
pub(crate) fn write_padded<E: Utf16Order>(
    padded: u8x16,
    len: usize,
    out: &mut [u8],
    at: usize,
    previous: u16x8,
) -> usize {
    let units = units8::<E>(padded);
    let end = write_eight_units(out, at, previous, units, !eight_are_basic(units));
    end - (8 - len / 2)
}
