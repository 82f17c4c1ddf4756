// packaging/erase wrote this from crates/utf16_to_utf8/src/vectors.rt: do not edit it.
//! Writes a text eight units at a time, and validates it at the same time.
//!
//! It leaves no rest that takes other steps, so short texts take less time than in blocks of
//! thirty-two units.

use crate::proved::simd::*;
use crate::proved::utf16_to_utf8::blocks::eight_are_basic;
use crate::proved::utf16_to_utf8::padded::last_bytes;
use crate::proved::utf16_to_utf8::runs::{Cursor, Tested};
use crate::proved::utf16_to_utf8::short::{write_known_eight, write_padded};
use crate::proved::utf16_to_utf8::write::{whole_chars, SLACK};
use crate::proved::utf16_units::blocks::units8;
use crate::proved::utf16_units::surrogates::paired;
use crate::proved::utf16_units::{Moved, Utf16Order};

/// Writes the text at the start of `raw` to the start of `to`, in UTF-8, eight code units at a
/// time, as long as their surrogates are paired and they fit. It validates them at the same time.
/// Returns the number of bytes read, which are well formed, and the number of bytes written.
///
/// It stops before the end of a well-formed text only if `to` has space for fewer than 34 more
/// bytes. The bytes of `to` after the written ones and before `raw.len() / 2 * 3 + SLACK` may have
/// changed; those from there on are unchanged.
///
/// # Precondition
///
/// `raw` has at least eight bytes.
///
/// # Complexity
///
/// One pass over the bytes read.
// Not inlined, so that a caller's ASCII does not pay for its registers.
///
/// Proved:
///
/// - requires some: `8 ≤ length raw.now`
/// - ensures within: `result.read ≤ length raw.now`
/// - ensures well_formed: `IsUtf16 E.BIG (take result.read raw.now)`
/// - ensures utf8: `take result.written to.new ≡ utf8_of E.BIG (take result.read raw.now)`
/// - ensures len: `result.written ≡ length (utf8_of E.BIG (take result.read raw.now))`
/// - ensures stop: `BlocksStopAt 18 E.BIG raw.now result.read false ⊎ (length to.new <
///   result.written + 34)`
/// - ensures whole: `IsUtf16 E.BIG raw.now → (result.read ≡ length raw.now) ⊎ (length to.new <
///   result.written + 34)`
/// - ensures rest: `drop (length raw.now / 2 * 3 + SLACK) to.new ≡ drop (length raw.now / 2 * 3 +
///   SLACK) to.old`
#[inline(never)]
pub fn write_vectors<E: Utf16Order>(raw: &[u8], to: &mut [u8]) -> Moved {
    let room = to.len().min(raw.len() / 2 * 3 + SLACK);
    let out = &mut to[..room];
    let done = write_paired_vectors::<E>(raw, out);
    match write_paired_last::<E>(raw, out, done) {
        Some(end) => Moved {
            read: raw.len(),
            written: end,
        },
        None => whole_chars::<E>(raw, out, done),
    }
}

// Writes the groups of eight units at the start whose surrogates are paired, as far as they fit.
//
// Proved:
//
// - ensures reached: `Reached E.BIG raw.now out.new result.cursor`
// - ensures paired: `PairedTo E.BIG raw.now result.cursor.at result.leading`
// - ensures stop: `BlocksStopAt 16 E.BIG raw.now result.cursor.at result.leading ⊎ (length out.new
//   < result.cursor.end + 32)`
// - ensures few: `length raw.now < 16 → result.cursor.at ≡ 0`
#[inline(always)]
fn write_paired_vectors<E: Utf16Order>(raw: &[u8], out: &mut [u8]) -> Tested {
    let cursor = Cursor {
        at: 0,
        end: 0,
        previous: u16x8::splat(0),
    };
    let mut done = Tested {
        cursor,
        leading: false,
    };
    while raw.len() - done.cursor.at >= 16 {
        if out.len() - done.cursor.end < 32 {
            break;
        }
        let Some(next) = write_paired_eight::<E>(raw, out, done) else {
            break;
        };
        done = next;
    }
    done
}

// Writes the next eight units if their surrogates are paired.
//
// Proved:
//
// - requires space: `from.cursor.end + 32 ≤ length out.old`
// - requires more: `from.cursor.at + 16 ≤ length raw.now`
// - requires reached: `Reached E.BIG raw.now out.old from.cursor`
// - requires paired: `PairedTo E.BIG raw.now from.cursor.at from.leading`
// - ensures reached: `IfSome result (λ done. Reached E.BIG raw.now out.new done.cursor)`
// - ensures paired: `IfSome result (λ done. PairedTo E.BIG raw.now done.cursor.at done.leading)`
// - ensures at: `IfSome result (λ done. done.cursor.at ≡ from.cursor.at + 16)`
// - ensures none: `result ≡ None → BlocksStopAt 16 E.BIG raw.now from.cursor.at from.leading`
// - ensures unchanged: `result ≡ None → out.new ≡ out.old`
#[inline(always)]
fn write_paired_eight<E: Utf16Order>(raw: &[u8], out: &mut [u8], from: Tested) -> Option<Tested> {
    let units = units8::<E>(u8x16::from_slice(&raw[from.cursor.at..]));
    if !from.leading && eight_are_basic(units) {
        let cursor = write_known_eight::<E>(raw, out, from.cursor, units, false);
        return Some(Tested {
            cursor,
            leading: false,
        });
    }
    let leading = paired(units, from.leading)?;
    let cursor = write_known_eight::<E>(raw, out, from.cursor, units, true);
    Some(Tested { cursor, leading })
}

// Writes the last units of a text, which are fewer than eight, if their surrogates are paired and
// they fit. Returns where they end.
//
// Proved:
//
// - requires some: `8 ≤ length raw.now`
// - requires few: `length raw.now < 16 → from.cursor.at ≡ 0`
// - requires reached: `Reached E.BIG raw.now out.old from.cursor`
// - requires paired: `PairedTo E.BIG raw.now from.cursor.at from.leading`
// - ensures fits: `IfSome result (λ end. end ≤ length out.new)`
// - ensures text: `IfSome result (λ _. IsUtf16 E.BIG raw.now)`
// - ensures utf8: `IfSome result (λ end. take end out.new ≡ utf8_of E.BIG raw.now)`
// - ensures none: `result ≡ None → IsUtf16 E.BIG raw.now → from.cursor.at < length raw.now →
//   (from.cursor.at + 16 ≤ length raw.now) ⊎ (length out.new < from.cursor.end + 32)`
// - ensures unchanged: `result ≡ None → out.new ≡ out.old`
#[inline(always)]
fn write_paired_last<E: Utf16Order>(raw: &[u8], out: &mut [u8], from: Tested) -> Option<usize> {
    let len = raw.len() - from.cursor.at;
    if len % 2 != 0 || len == 0 || len >= 16 || out.len() - from.cursor.end < 32 {
        return None;
    }
    let padded = last_bytes(raw, len);
    paired(units8::<E>(padded), from.leading)?;
    Some(write_padded::<E>(
        padded,
        len,
        out,
        from.cursor.end,
        from.cursor.previous,
    ))
}
