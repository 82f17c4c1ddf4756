// packaging/erase wrote this from crates/utf16_to_utf8/src/runs.rt: do not edit it.
//! Writes the blocks of a text, with a separate loop for blocks of the same kind that follow each
//! other.
//!
//! The text is read once: the test that decides how a block is written also validates it. If the
//! writer stops after a leading surrogate, `write.rt` takes its two bytes back.
//!
//! Real text is ASCII with other letters between, so a run of ASCII comes before each other block.
//! The block that ends a run is not tested for ASCII again: a processor predicts where runs end no
//! better than chance, and would be wrong twice.
//!
//! The loops differ in a test that is fixed at compile time; a test chosen at run time would slow
//! them down.

use crate::proved::simd::*;
use crate::proved::utf16_to_utf8::blocks::{are_of, kind_of, write_units, Kind};
use crate::proved::utf16_to_utf8::lanes::{eights, sixteens};
use crate::proved::utf16_to_utf8::write::SLACK;
use crate::proved::utf16_units::blocks::units32;
use crate::proved::utf16_units::surrogates::paired;
use crate::proved::utf16_units::Utf16Order;

// How far a text is written: the number of bytes read, the number of bytes written, and the last
// eight units read.
#[derive(Clone, Copy)]
pub(crate) struct Cursor {
    pub(crate) at: usize,
    pub(crate) end: usize,
    pub(crate) previous: u16x8,
}

// The units of the next block.
//
// Proved:
//
// - requires `at + 64 ≤ length raw.now`
// - ensures len: `length result ≡ 32`
// - ensures units: `result ≡ units_of E.BIG (take 64 (drop at raw.now))`
#[inline(always)]
fn next_units<E: Utf16Order>(raw: &[u8], at: usize) -> u16x32 {
    units32::<E>(u8x64::from_slice(&raw[at..]))
}

// How far a text is validated and written, and whether the last unit is a leading surrogate. In
// that case two bytes of its character are written.
#[derive(Clone, Copy)]
pub(crate) struct Tested {
    pub(crate) cursor: Cursor,
    pub(crate) leading: bool,
}

// Writes the blocks at the start whose surrogates are paired, as far as they fit.
//
// Proved:
//
// - ensures reached: `Reached E.BIG raw.now out.new result.cursor`
// - ensures paired: `PairedTo E.BIG raw.now result.cursor.at result.leading`
// - ensures stop: `BlocksStopAt 64 E.BIG raw.now result.cursor.at result.leading ⊎ (length out.new
//   < result.cursor.end + SLACK)`
#[inline(never)]
pub(crate) fn write_paired<E: Utf16Order>(raw: &[u8], out: &mut [u8]) -> Tested {
    let mut cursor = Cursor {
        at: 0,
        end: 0,
        previous: u16x8::splat(0),
    };
    let mut leading = false;
    if raw.len() < 64 || out.len() < SLACK {
        return Tested { cursor, leading };
    }
    while cursor.at <= raw.len() - 64 {
        if !leading {
            cursor = write_plain::<E>(raw, out, cursor);
        }
        if cursor.at > raw.len() - 64 || cursor.end > out.len() - SLACK {
            break;
        }
        let units = next_units::<E>(raw, cursor.at);
        let Some(next) = write_surrogates::<E>(raw, out, Tested { cursor, leading }, units) else {
            break;
        };
        cursor = next.cursor;
        leading = next.leading;
    }
    Tested { cursor, leading }
}

// Writes the next blocks that have no surrogate, as far as they fit.
//
// Proved:
//
// - requires many: `64 ≤ length raw.now`
// - requires space: `SLACK ≤ length out.old`
// - requires reached: `Reached E.BIG raw.now out.old from`
// - ensures advanced: `Advanced E.BIG Basic raw.now out.new from result`
#[inline(always)]
fn write_plain<E: Utf16Order>(raw: &[u8], out: &mut [u8], from: Cursor) -> Cursor {
    let mut run = write_ascii_run::<E>(raw, out, from);
    while !run.ended {
        let Run { cursor, units, .. } = run;
        let next = match kind_of(units) {
            Kind::Letters => write_block::<E>(raw, out, cursor, units, Kind::Letters),
            // Wide and basic blocks often follow others of their kind.
            Kind::Wide => write_run::<E>(raw, out, cursor, units, Kind::Wide),
            Kind::Basic => write_run::<E>(raw, out, cursor, units, Kind::Basic),
            Kind::Ascii | Kind::Pairs | Kind::Mixed => break,
        };
        run = write_ascii_run::<E>(raw, out, next);
    }
    run.cursor
}

// Writes the next block if its surrogates are paired. If it has only pairs and units below U+0800,
// also writes such blocks that follow it, as far as they fit.
//
// Proved:
//
// - requires space: `from.cursor.end + SLACK ≤ length out.old`
// - requires more: `from.cursor.at + 64 ≤ length raw.now`
// - requires next: `units ≡ units_of E.BIG (take 64 (drop from.cursor.at raw.now))`
// - requires reached: `Reached E.BIG raw.now out.old from.cursor`
// - requires paired: `PairedTo E.BIG raw.now from.cursor.at from.leading`
// - ensures reached: `IfSome result (λ done. Reached E.BIG raw.now out.new done.cursor)`
// - ensures paired: `IfSome result (λ done. PairedTo E.BIG raw.now done.cursor.at done.leading)`
// - ensures advances: `IfSome result (λ done. from.cursor.at < done.cursor.at)`
// - ensures none: `result ≡ None → BlocksStopAt 64 E.BIG raw.now from.cursor.at from.leading`
// - ensures unchanged: `result ≡ None → out.new ≡ out.old`
#[inline(always)]
fn write_surrogates<E: Utf16Order>(
    raw: &[u8],
    out: &mut [u8],
    from: Tested,
    units: u16x32,
) -> Option<Tested> {
    let leading = paired(units, from.leading)?;
    if !are_of(units, Kind::Pairs) {
        let cursor = write_block::<E>(raw, out, from.cursor, units, Kind::Mixed);
        return Some(Tested { cursor, leading });
    }
    let cursor = write_block::<E>(raw, out, from.cursor, units, Kind::Pairs);
    let mut done = Tested { cursor, leading };
    while done.cursor.at <= raw.len() - 64 {
        if done.cursor.end > out.len() - SLACK {
            break;
        }
        let units = next_units::<E>(raw, done.cursor.at);
        if !are_of(units, Kind::Pairs) {
            break;
        }
        let Some(leading) = paired(units, done.leading) else {
            break;
        };
        let cursor = write_block::<E>(raw, out, done.cursor, units, Kind::Pairs);
        done = Tested { cursor, leading };
    }
    Some(done)
}

// How far blocks of ASCII are written, and whether they ended because no block is left or the next
// one may not fit. If not, `units` has the units of the next block.
#[derive(Clone, Copy)]
struct Run {
    cursor: Cursor,
    units: u16x32,
    ended: bool,
}

// Writes the blocks of ASCII from the cursor on that fit.
//
// Proved:
//
// - requires many: `64 ≤ length raw.now`
// - requires space: `SLACK ≤ length out.old`
// - requires reached: `Reached E.BIG raw.now out.old from`
// - ensures advanced: `Advanced E.BIG Ascii raw.now out.new from result.cursor`
// - ensures more: `result.ended ≡ false → result.cursor.at + 64 ≤ length raw.now`
// - ensures space: `result.ended ≡ false → result.cursor.end + SLACK ≤ length out.new`
// - ensures next: `result.ended ≡ false → result.units ≡ units_of E.BIG (take 64 (drop
//   result.cursor.at raw.now))`
// - ensures ended: `result.ended ≡ true → (length raw.now < result.cursor.at + 64) ⊎ (length
//   out.new < result.cursor.end + SLACK)`
#[inline(always)]
fn write_ascii_run<E: Utf16Order>(raw: &[u8], out: &mut [u8], from: Cursor) -> Run {
    let last = raw.len() - 64;
    let most = out.len() - SLACK;
    let mut run = Run {
        cursor: from,
        units: u16x32::splat(0),
        ended: true,
    };
    while run.cursor.at <= last {
        if run.cursor.end > most {
            break;
        }
        run.units = next_units::<E>(raw, run.cursor.at);
        if !are_of(run.units, Kind::Ascii) {
            run.ended = false;
            break;
        }
        run.cursor = write_block::<E>(raw, out, run.cursor, run.units, Kind::Ascii);
    }
    run
}

// Writes the next block, whose kind is known, and the blocks of this kind after it that fit.
//
// Proved:
//
// - requires space: `from.end + SLACK ≤ length out.old`
// - requires more: `from.at + 64 ≤ length raw.now`
// - requires next: `units ≡ units_of E.BIG (take 64 (drop from.at raw.now))`
// - requires kind: `AreOfKind kind units`
// - requires reached: `Reached E.BIG raw.now out.old from`
// - ensures advanced: `Advanced E.BIG kind raw.now out.new from result`
// - ensures advances: `from.at < result.at`
#[inline(always)]
fn write_run<E: Utf16Order>(
    raw: &[u8],
    out: &mut [u8],
    from: Cursor,
    units: u16x32,
    kind: Kind,
) -> Cursor {
    let last = raw.len() - 64;
    let most = out.len() - SLACK;
    let mut cursor = write_block::<E>(raw, out, from, units, kind);
    while cursor.at <= last {
        if cursor.end > most {
            break;
        }
        let units = next_units::<E>(raw, cursor.at);
        if !are_of(units, kind) {
            break;
        }
        cursor = write_block::<E>(raw, out, cursor, units, kind);
    }
    cursor
}

// Writes the next block, whose kind is known.
//
// Proved:
//
// - requires space: `from.end + SLACK ≤ length out.old`
// - requires more: `from.at + 64 ≤ length raw.now`
// - requires next: `units ≡ units_of E.BIG (take 64 (drop from.at raw.now))`
// - requires kind: `AreOfKind kind units`
// - requires reached: `Reached E.BIG raw.now out.old from`
// - ensures advanced: `Advanced E.BIG kind raw.now out.new from result`
// - ensures at: `result.at ≡ from.at + 64`
// - ensures end: `result.end ≤ from.end + 96`
// - ensures ascii: `kind ≡ Ascii → result.end ≤ from.end + 32`
// - ensures pairs: `(before after : Bool) → PairedTo E.BIG raw.now from.at before → Paired before
//   units after → PairedTo E.BIG raw.now result.at after`
#[inline(always)]
fn write_block<E: Utf16Order>(
    raw: &[u8],
    out: &mut [u8],
    from: Cursor,
    units: u16x32,
    kind: Kind,
) -> Cursor {
    let end = write_units(out, from.end, from.previous, units, kind);
    Cursor {
        at: from.at + 64,
        end,
        previous: eights(sixteens(units).1).1,
    }
}
