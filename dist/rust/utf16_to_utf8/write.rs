// packaging/erase wrote this from crates/utf16_to_utf8/src/write.rt: do not edit it.
//! Writes a text into a buffer, in UTF-8.
//!
//! A text that is known to be well formed goes through the writers that validate. Writers without
//! the tests would take four hundred lines of code and proof.

use crate::proved::utf16_to_utf8::chars::write_chars;
use crate::proved::utf16_to_utf8::runs::{write_paired, Tested};
use crate::proved::utf16_to_utf8::vectors::write_vectors;
use crate::proved::utf16_units::strategy::{strategy_for, Strategy, FEW_TEXT};
use crate::proved::utf16_units::{Moved, Utf16Order};

/// The number of bytes that `write_utf8` needs beyond three per code unit.
pub const SLACK: usize = 128;

/// Writes UTF-16 in UTF-8 to the start of `to`, and returns the number of bytes written.
///
/// The bytes after these and before `raw.len() / 2 * 3 + SLACK` may have changed; those from there
/// on are unchanged.
///
/// # Precondition
///
/// `raw` is well-formed UTF-16 in the byte order `E` (check with
/// `utf16_units::validate_raw_utf16`), and `to` has at least `raw.len() / 2 * 3 + SLACK` bytes.
///
/// # Complexity
///
/// One pass, by blocks of thirty-two code units.
///
/// Proved:
///
/// - requires well_formed: `IsUtf16 E.BIG raw.now`
/// - requires space: `length raw.now / 2 * 3 + SLACK ≤ length to.old`
/// - ensures utf8: `take result to.new ≡ utf8_of E.BIG raw.now`
/// - ensures len: `result ≡ length (utf8_of E.BIG raw.now)`
/// - ensures rest: `drop (length raw.now / 2 * 3 + SLACK) to.new ≡ drop (length raw.now / 2 * 3 +
///   SLACK) to.old`
pub fn write_utf8<E: Utf16Order>(raw: &[u8], to: &mut [u8]) -> usize {
    let room = raw.len() / 2 * 3 + SLACK;
    let out = &mut to[..room];
    let Strategy::Blocks = strategy_for(raw.len()) else {
        return write_short::<E>(raw, out);
    };
    let blocks = write_blocks::<E>(raw, out);
    blocks.written + write_short::<E>(&raw[blocks.read..], &mut out[blocks.written..])
}

// Writes a short text, or what blocks leave of a longer one.
//
// Proved:
//
// - requires well_formed: `IsUtf16 E.BIG raw.now`
// - requires space: `length raw.now / 2 * 3 + SLACK ≤ length out.old`
// - ensures utf8: `take result out.new ≡ utf8_of E.BIG raw.now`
// - ensures fits: `result ≤ length out.new`
#[inline(always)]
fn write_short<E: Utf16Order>(raw: &[u8], out: &mut [u8]) -> usize {
    if raw.len() < FEW_TEXT {
        return write_chars::<E>(raw, out);
    }
    write_vectors::<E>(raw, out).written
}

/// Writes the blocks of thirty-two code units at the start of `raw` to the start of `to`, in UTF-8,
/// as long as their surrogates are paired and they fit. It validates them at the same time. Returns
/// the number of bytes read, which are well formed, and the number of bytes written.
///
/// It stops only if the surrogates of the next thirty-three code units are not paired, there are
/// fewer code units, or `to` has space for fewer than 130 more bytes. The bytes of `to` after the
/// written ones and before `raw.len() / 2 * 3 + SLACK` may have changed; those from there on are
/// unchanged.
///
/// # Complexity
///
/// One pass over the bytes read.
///
/// Proved:
///
/// - ensures within: `result.read ≤ length raw.now`
/// - ensures well_formed: `IsUtf16 E.BIG (take result.read raw.now)`
/// - ensures utf8: `take result.written to.new ≡ utf8_of E.BIG (take result.read raw.now)`
/// - ensures len: `result.written ≡ length (utf8_of E.BIG (take result.read raw.now))`
/// - ensures stop: `BlocksStopAt 66 E.BIG raw.now result.read false ⊎ (length to.new <
///   result.written + 130)`
/// - ensures rest: `drop (length raw.now / 2 * 3 + SLACK) to.new ≡ drop (length raw.now / 2 * 3 +
///   SLACK) to.old`
#[inline(always)]
pub fn write_blocks<E: Utf16Order>(raw: &[u8], to: &mut [u8]) -> Moved {
    let room = to.len().min(raw.len() / 2 * 3 + SLACK);
    let out = &mut to[..room];
    let done = write_paired::<E>(raw, out);
    whole_chars::<E>(raw, out, done)
}

// Returns how far whole characters are read and written. If blocks stop after the last unit, blocks
// of one more unit stop there.
//
// Proved:
//
// - requires reached: `Reached E.BIG raw.now out.now done.cursor`
// - requires paired: `PairedTo E.BIG raw.now done.cursor.at done.leading`
// - ensures within: `result.read ≤ length raw.now`
// - ensures fits: `result.written ≤ length out.now`
// - ensures well_formed: `IsUtf16 E.BIG (take result.read raw.now)`
// - ensures utf8: `take result.written out.now ≡ utf8_of E.BIG (take result.read raw.now)`
// - ensures stop: `(size : ℕ) → size % 2 ≡ 0 → BlocksStopAt size E.BIG raw.now done.cursor.at
//   done.leading → BlocksStopAt (size + 2) E.BIG raw.now result.read false`
// - ensures all: `done.leading ≡ false → result.read ≡ done.cursor.at`
// - ensures near: `done.cursor.end ≤ result.written + 2`
#[inline(always)]
pub(crate) fn whole_chars<E: Utf16Order>(raw: &[u8], out: &[u8], done: Tested) -> Moved {
    let cursor = done.cursor;
    if done.leading {
        return Moved {
            read: cursor.at - 2,
            written: cursor.end - 2,
        };
    }
    Moved {
        read: cursor.at,
        written: cursor.end,
    }
}
