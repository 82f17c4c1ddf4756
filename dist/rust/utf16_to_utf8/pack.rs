// packaging/erase wrote this from crates/utf16_to_utf8/src/pack.rt: do not edit it.
//! Writes the UTF-8 that sixteen or eight units add, one after another.
//!
//! Each unit gets every byte that its kind may add, and a shuffle drops the others. Its table
//! has 256 rows: by a bit for each of eight units of at most two bytes, or by two bits for each of
//! four units of any kind. One computed test of all rows proves each table.

use crate::proved::simd::*;
use crate::proved::utf16_to_utf8::groups::{absences, endings, narrow, outers, thirds, wide};
use crate::proved::utf16_to_utf8::lanes::{eights, low_bytes, previous_lanes};
use crate::proved::utf16_to_utf8::places::places;
use crate::proved::utf16_to_utf8::word_places::word_places;

// The bytes of the lanes, low byte first.
//
// Proved:
//
// - ensures len: `length result ≡ 16`
// - ensures bytes: `HasBytes result lanes`
#[inline(always)]
fn lane_bytes(lanes: u16x8) -> u8x16 {
    lanes.to_le_bytes()
}

// A bit for each ASCII unit.
//
// Proved:
//
// - requires `N ≤ 32`
// - ensures bits: `result ≡ mask_l (map (λ unit. nat_lt unit 0x80) units.entry)`
// - ensures below: `result < 2 ^ N`
#[inline(always)]
pub(crate) fn ascii_bits<const N: usize>(units: Simd<u16, N>) -> usize {
    units.simd_lt(Simd::splat(0x80)).to_bitmask() as usize
}

// Writes the UTF-8 of ASCII units.
//
// Proved:
//
// - requires space: `at + N ≤ length out.old`
// - requires ascii: `AreOfKind Ascii units`
// - ensures bytes: `(before : ℕ) → take result out.new ≡ take at out.old ++ units_utf8 before
//   units.entry`
// - ensures written_to: `result ≡ at + N`
#[inline(always)]
pub(crate) fn write_ascii<const N: usize>(out: &mut [u8], at: usize, units: Simd<u16, N>) -> usize {
    low_bytes(units).copy_to_slice(&mut out[at..]);
    at + N
}

// Writes the UTF-8 of eight units that add at most two bytes each, with a bit in `one` for each
// that adds one.
//
// Proved:
//
// - requires space: `at + 16 ≤ length out.old`
// - requires bound: `one < 256`
// - ensures bytes: `(before : ℕ) (units : List ℕ) → length units ≡ 8 → one ≡ mask_l (map (λ unit.
//   nat_lt unit 0x80) units) → ((i : ℕ) → i < 8 → IsPair (slice_index (before ∷ units) i)
//   (slice_index units i) (slice_index pairs i)) → take result out.new ≡ take at out.old ++
//   units_utf8 before units`
// - ensures written_to: `result ≤ at + 16`
#[inline(always)]
pub(crate) fn write_pairs(out: &mut [u8], at: usize, pairs: u16x8, one: usize) -> usize {
    let standing = lane_bytes(pairs).swizzle_dyn(places(one));
    standing.copy_to_slice(&mut out[at..]);
    at + (16 - one.count_ones() as usize)
}

// Writes the UTF-8 of sixteen units that add at most two bytes each.
//
// Proved:
//
// - requires space: `at + 56 ≤ length out.old`
// - requires none: `surrogates ≡ false → (i : ℕ) → i < 16 → is_surrogate (slice_index units i) ≡
//   false`
// - requires narrow: `(i : ℕ) → i < 16 → added_len (slice_index units i) ≤ 2`
// - ensures bytes: `take result out.new ≡ take at out.old ++ units_utf8 (slice_index previous 15)
//   units`
// - ensures written_to: `result ≤ at + 32`
#[inline(always)]
pub(crate) fn write_narrow(
    out: &mut [u8],
    at: usize,
    previous: u16x16,
    units: u16x16,
    surrogates: bool,
) -> usize {
    let (low, high) = eights(narrow(previous_lanes(previous, units), units, surrogates));
    let one = ascii_bits(units);
    let end = write_pairs(out, at, low, one % 256);
    write_pairs(out, end, high, one / 256)
}

// The first sixteen bytes of eight units that add three bytes each, from the first two bytes of
// each unit and its third.
//
// Proved:
//
// - ensures `result ≡ take 16 (pick_l 0 (fronts ++ thirds) (threes 0 8))`
#[inline(always)]
fn first_threes(fronts: u8x16, thirds: u8x16) -> u8x16 {
    shuffle!(
        fronts,
        thirds,
        [0, 1, 16, 2, 3, 18, 4, 5, 20, 6, 7, 22, 8, 9, 24, 10],
    )
}

// The last eight bytes of the same twenty-four.
//
// Proved:
//
// - ensures `result ≡ drop 16 (pick_l 0 (fronts ++ thirds) (threes 0 8))`
#[inline(always)]
fn last_threes(fronts: u8x16, thirds: u8x16) -> u8x8 {
    shuffle!(fronts, thirds, [11, 26, 12, 13, 28, 14, 15, 30])
}

// Writes the UTF-8 of eight units that add three bytes each.
//
// Proved:
//
// - requires space: `at + 24 ≤ length out.old`
// - ensures bytes: `(before : ℕ) (units : List ℕ) → length units ≡ 8 → ((i : ℕ) → i < 8 → IsThree
//   (slice_index units i) (slice_index fronts i) (slice_index thirds i)) → take result out.new ≡
//   take at out.old ++ units_utf8 before units`
// - ensures written_to: `result ≡ at + 24`
#[inline(always)]
pub(crate) fn write_threes(out: &mut [u8], at: usize, fronts: u16x8, thirds: u16x8) -> usize {
    let fronts = lane_bytes(fronts);
    let thirds = lane_bytes(thirds);
    first_threes(fronts, thirds).copy_to_slice(&mut out[at..]);
    last_threes(fronts, thirds).copy_to_slice(&mut out[at + 16..]);
    at + 24
}

// Writes the UTF-8 of sixteen units that add three bytes each.
//
// Proved:
//
// - requires space: `at + 56 ≤ length out.old`
// - requires wide: `(i : ℕ) → i < 16 → added_len (slice_index units i) ≡ 3`
// - ensures bytes: `(before : ℕ) → take result out.new ≡ take at out.old ++ units_utf8 before
//   units`
// - ensures written_to: `result ≡ at + 48`
#[inline(always)]
pub(crate) fn write_wide(out: &mut [u8], at: usize, units: u16x16) -> usize {
    let fronts = eights(wide(units));
    let thirds = eights(thirds(units));
    let end = write_threes(out, at, fronts.0, thirds.0);
    write_threes(out, end, fronts.1, thirds.1)
}

// Four words of four bytes: for each of the first four lanes, two bytes of `outers` and two of
// `endings`.
//
// Proved:
//
// - ensures `result ≡ pick_l 0 (outers ++ endings) (fours 0 4)`
#[inline(always)]
fn low_words(outers: u8x16, endings: u8x16) -> u8x16 {
    shuffle!(
        outers,
        endings,
        [0, 1, 16, 17, 2, 3, 18, 19, 4, 5, 20, 21, 6, 7, 22, 23],
    )
}

// Four words of four bytes, for the last four lanes.
//
// Proved:
//
// - ensures `result ≡ pick_l 0 (outers ++ endings) (fours 4 4)`
#[inline(always)]
fn high_words(outers: u8x16, endings: u8x16) -> u8x16 {
    shuffle!(
        outers,
        endings,
        [8, 9, 24, 25, 10, 11, 26, 27, 12, 13, 28, 29, 14, 15, 30, 31],
    )
}

// A bit for each byte with the upper bit set.
//
// Proved:
//
// - ensures bits: `result ≡ mask_l (map (λ byte. nat_lt 0x7F byte) bytes)`
// - ensures below: `result < 65536`
#[inline(always)]
fn upper_bits(bytes: u8x16) -> usize {
    bytes.simd_gt(u8x16::splat(0x7F)).to_bitmask() as usize
}

// Writes the bytes of four words that `flags` chooses. It has two bits for each word: whether its
// unit adds one byte, and whether it adds at most two.
//
// Proved:
//
// - requires space: `at + 16 ≤ length out.old`
// - requires bound: `flags < 256`
// - ensures bytes: `(bits : List Bool) → length bits ≡ 8 → flags ≡ mask_l bits → take result
//   out.new ≡ take at out.old ++ packed_words bits words`
// - ensures written_to: `result ≤ at + 12`
#[inline(always)]
fn write_words(out: &mut [u8], at: usize, words: u8x16, flags: usize) -> usize {
    let standing = words.swizzle_dyn(word_places(flags));
    standing.copy_to_slice(&mut out[at..]);
    at + (12 - flags.count_ones() as usize)
}

// Writes the UTF-8 of any eight units.
//
// Proved:
//
// - requires space: `at + 32 ≤ length out.old`
// - ensures bytes: `(before : ℕ) (units : List ℕ) → length units ≡ 8 → ((i : ℕ) → i < 8 → IsKept
//   (slice_index (before ∷ units) i) (slice_index units i) (slice_index outers i) (slice_index
//   endings i) (slice_index absences i)) → take result out.new ≡ take at out.old ++ units_utf8
//   before units`
// - ensures written_to: `result ≤ at + 24`
#[inline(always)]
pub(crate) fn write_kept(
    out: &mut [u8],
    at: usize,
    outers: u16x8,
    endings: u16x8,
    absences: u16x8,
) -> usize {
    let outers = lane_bytes(outers);
    let endings = lane_bytes(endings);
    let flags = upper_bits(lane_bytes(absences));
    let end = write_words(out, at, low_words(outers, endings), flags % 256);
    write_words(out, end, high_words(outers, endings), flags / 256)
}

// Writes the UTF-8 of any sixteen units.
//
// Proved:
//
// - requires space: `at + 56 ≤ length out.old`
// - requires none: `surrogates ≡ false → (i : ℕ) → i < 16 → is_surrogate (slice_index units i) ≡
//   false`
// - ensures bytes: `take result out.new ≡ take at out.old ++ units_utf8 (slice_index previous 15)
//   units`
// - ensures written_to: `result ≤ at + 48`
#[inline(always)]
pub(crate) fn write_any(
    out: &mut [u8],
    at: usize,
    previous: u16x16,
    units: u16x16,
    surrogates: bool,
) -> usize {
    let outers = eights(outers(units));
    let endings = eights(endings(previous_lanes(previous, units), units, surrogates));
    let absences = eights(absences(units, surrogates));
    let end = write_kept(out, at, outers.0, endings.0, absences.0);
    write_kept(out, end, outers.1, endings.1, absences.1)
}
