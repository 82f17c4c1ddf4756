// packaging/erase wrote this from crates/utf16string/src/retain_blocks.rt: do not edit it.
//! Blocks of sixteen characters of one unit each, of which a predicate keeps some.

use crate::proved::simd::*;
use crate::proved::utf16_units::blocks::units16;
use crate::proved::utf16_units::surrogates::has_no_surrogate;
use crate::proved::utf16_units::Utf16Order;

/// The number of units in a block.
const UNITS: usize = 16;

/// The number of bytes in a block.
pub(crate) const BLOCK_BYTES: usize = 2 * UNITS;

// The units of the next block, if there are enough bytes for one and none of the units is a
// surrogate: each unit is a character.
//
// Proved:
//
// - requires `at ≤ length bytes.now`
// - ensures within: `IfSome result (λ _. at + BLOCK_BYTES ≤ length bytes.now)`
// - ensures here: `IfSome result (λ units. Encodes E.BIG units (take BLOCK_BYTES (drop at
//   bytes.now)))`
#[inline]
pub(crate) fn plain_block<E: Utf16Order>(bytes: &[u8], at: usize) -> Option<[u16; UNITS]> {
    if bytes.len() - at < BLOCK_BYTES {
        return None;
    }
    let units = units16::<E>(u8x32::from_slice(&bytes[at..]));
    if !has_no_surrogate(units) {
        return None;
    }
    Some(units.to_array())
}

// Calls the predicate on each character of a block, in turn, and moves the kept ones down. Returns
// the end of the kept characters.
//
// Proved:
//
// - requires down: `kept ≤ read`
// - requires within: `read + BLOCK_BYTES ≤ length bytes.old`
// - requires here: `Encodes E.BIG units.now (take BLOCK_BYTES (drop read bytes.old))`
// - requires askable: `MayBeAsked F.FnMut keep.old units.now`
// - ensures retained: `KeepsNext F.FnMut E.BIG keep.old bytes.old kept read keep.new bytes.new
//   result (read + BLOCK_BYTES)`
// - ensures down: `result ≤ read + BLOCK_BYTES`
#[inline(always)]
pub(crate) fn keep_block<E: Utf16Order, F: FnMut(char) -> bool>(
    bytes: &mut [u8],
    keep: &mut F,
    kept: usize,
    read: usize,
    units: &[u16; UNITS],
) -> usize {
    let (answers, many) = ask_each(keep, units);
    move_block::<E>(bytes, kept, read, units, &answers, many)
}

// Calls the predicate on each character of a block, in turn, and counts the kept ones.
//
// Proved:
//
// - requires scalars: `All IsScalar units.now`
// - requires askable: `MayBeAsked F.FnMut keep.old units.now`
// - ensures asked: `RetainsTo F.FnMut keep.old units.now (items_where_true result.0 units.now)
//   keep.new`
// - ensures many: `result.1 ≡ length (items_where_true result.0 units.now)`
#[inline]
fn ask_each<F: FnMut(char) -> bool>(keep: &mut F, units: &[u16; UNITS]) -> ([bool; UNITS], usize) {
    let mut answers = [false; UNITS];
    let mut many = 0;
    for i in 0..UNITS {
        let stays = keep(unsafe { char::from_u32_unchecked(units[i] as u32) });
        answers[i] = stays;
        many += stays as usize;
    }
    (answers, many)
}

// Moves the kept characters of a block down, in one move if all are kept. Returns their end.
//
// Proved:
//
// - requires down: `to ≤ start`
// - requires within: `start + BLOCK_BYTES ≤ length bytes.old`
// - requires here: `Encodes E.BIG units.now (take BLOCK_BYTES (drop start bytes.old))`
// - requires many: `many ≡ length (items_where_true answers.now units.now)`
// - ensures moved: `take result bytes.new ≡ take to bytes.old ++ encode E.BIG (items_where_true
//   answers.now units.now)`
// - ensures rest: `drop (start + BLOCK_BYTES) bytes.new ≡ drop (start + BLOCK_BYTES) bytes.old`
// - ensures down: `result ≤ start + BLOCK_BYTES`
#[inline(always)]
fn move_block<E: Utf16Order>(
    bytes: &mut [u8],
    to: usize,
    start: usize,
    units: &[u16; UNITS],
    answers: &[bool; UNITS],
    many: usize,
) -> usize {
    if many == UNITS {
        move_all(bytes, to, start);
        return to + BLOCK_BYTES;
    }
    if many == 0 {
        return to;
    }
    write_some::<E>(bytes, to, start, units, answers)
}

// Moves a whole block down, if it is not in place.
//
// Proved:
//
// - requires down: `to ≤ start`
// - requires within: `start + BLOCK_BYTES ≤ length bytes.old`
// - ensures moved: `take (to + BLOCK_BYTES) bytes.new ≡ take to bytes.old ++ take BLOCK_BYTES (drop
//   start bytes.old)`
// - ensures rest: `drop (start + BLOCK_BYTES) bytes.new ≡ drop (start + BLOCK_BYTES) bytes.old`
#[inline]
fn move_all(bytes: &mut [u8], to: usize, start: usize) {
    if to < start {
        let block = u8x32::from_slice(&bytes[start..]);
        block.copy_to_slice(&mut bytes[to..]);
    }
}

// Writes the kept units one after another. Each unit is written after the kept ones, and the next
// is written over it if it is not kept: no branch waits for what the predicate returned. The bytes
// after the block do not change.
//
// Proved:
//
// - requires down: `to ≤ start`
// - requires within: `start + BLOCK_BYTES ≤ length bytes.old`
// - ensures moved: `take result bytes.new ≡ take to bytes.old ++ encode E.BIG (items_where_true
//   answers.now units.now)`
// - ensures rest: `drop (start + BLOCK_BYTES) bytes.new ≡ drop (start + BLOCK_BYTES) bytes.old`
// - ensures down: `result ≤ start + BLOCK_BYTES`
#[inline]
fn write_some<E: Utf16Order>(
    bytes: &mut [u8],
    to: usize,
    start: usize,
    units: &[u16; UNITS],
    answers: &[bool; UNITS],
) -> usize {
    let mut end = to;
    for i in 0..UNITS {
        write_unit::<E>(bytes, end, units[i]);
        end += 2 * answers[i] as usize;
    }
    end
}

// Writes a character of one unit at an index.
//
// Proved:
//
// - requires `at + 2 ≤ length bytes.old`
// - ensures bytes: `take (at + 2) bytes.new ≡ take at bytes.old ++ encode E.BIG (unit ∷ [])`
// - ensures rest: `drop (at + 2) bytes.new ≡ drop (at + 2) bytes.old`
#[inline]
pub(crate) fn write_unit<E: Utf16Order>(bytes: &mut [u8], at: usize, unit: u16) {
    let two = E::write_unit(unit);
    crate::proved::kit::put_two(bytes, at, two);
}
