// packaging/erase wrote this from crates/utf16_from_utf8/src/append.rt: do not edit it.
//! Appends a text in UTF-8 to bytes of UTF-16.
//!
//! No contract says how to write into capacity that is not initialized, so a text goes through a
//! buffer on the stack; `strategy.rt` of `utf16_units` has its sizes. Each size has a function,
//! because clearing a buffer costs time.

use crate::proved::kit::Vec;

use crate::proved::kit::{AllocError, Allocator};
use crate::proved::utf16_from_utf8::text::{write_text, SLACK};
use crate::proved::utf16_units::strategy::{
    strategy_for, Strategy, FEW_TEXT, PIECE_LEN, SHORT_TEXT,
};
use crate::proved::utf16_units::{utf16_len, Utf16Order};

// The length in bytes up to which a short text has a smaller buffer.
const LINE_LEN: usize = 64;

/// Appends a text in UTF-16 to `raw`. It does not fail, because the capacity suffices.
///
/// # Precondition
///
/// `raw` has spare capacity of `utf16_len(s)` bytes.
///
/// # Complexity
///
/// One pass, with SIMD, and one copy of what is written.
///
/// Proved:
///
/// - requires `vec_len raw.old + size (chars s.now) ≤ vec_capacity raw.old`
/// - ensures items: `raw.new.items ≡ raw.old.items ++ encode E.BIG (chars s.now)`
/// - ensures ok: `IsOk result`
/// - ensures grows: `vec_capacity raw.old ≤ vec_capacity raw.new`
pub fn extend_utf16<E: Utf16Order, A: Allocator>(
    raw: &mut Vec<u8, A>,
    s: &str,
) -> Result<(), AllocError> {
    match strategy_for(s.len()) {
        Strategy::Chars => append_few::<E, A>(raw, s),
        Strategy::Short => append_short::<E, A>(raw, s),
        Strategy::Blocks => extend_long::<E, A>(raw, s),
    }
}

/// Appends a text in UTF-16 to `raw`.
///
/// # Errors
///
/// `AllocError`, only if allocation fails. `raw` is unchanged.
///
/// # Complexity
///
/// Allocates once, and not at all if the spare capacity suffices.
///
/// Proved:
///
/// - ensures items: `OnOk result (raw.new.items ≡ raw.old.items ++ encode E.BIG (chars s.now))`
/// - ensures err: `OnErr result (VecUnchanged raw.old raw.new × (vec_capacity raw.new ≡
///   vec_capacity raw.old))`
/// - ensures succeeds: `vec_len raw.old + size (chars s.now) ≤ vec_capacity raw.old → IsOk result`
/// - ensures grows: `vec_capacity raw.old ≤ vec_capacity raw.new`
pub fn append_utf16<E: Utf16Order, A: Allocator>(
    raw: &mut Vec<u8, A>,
    s: &str,
) -> Result<(), AllocError> {
    match strategy_for(s.len()) {
        Strategy::Chars => append_few::<E, A>(raw, s),
        Strategy::Short => append_short::<E, A>(raw, s),
        Strategy::Blocks => {
            raw.reserve(utf16_len(s))?;
            extend_long::<E, A>(raw, s)
        }
    }
}

// Appends a few characters.
//
// Proved:
//
// - requires `length s.now ≤ FEW_TEXT`
// - ensures items: `OnOk result (raw.new.items ≡ raw.old.items ++ encode E.BIG (chars s.now))`
// - ensures err: `OnErr result (VecUnchanged raw.old raw.new × (vec_capacity raw.new ≡ vec_capacity
//   raw.old))`
// - ensures succeeds: `vec_len raw.old + size (chars s.now) ≤ vec_capacity raw.old → IsOk result`
// - ensures grows: `vec_capacity raw.old ≤ vec_capacity raw.new`
#[inline(always)]
fn append_few<E: Utf16Order, A: Allocator>(
    raw: &mut Vec<u8, A>,
    s: &str,
) -> Result<(), AllocError> {
    append_by::<E, A>(raw, s, &mut [0; 2 * FEW_TEXT + SLACK])
}

// Appends a short text. Kept out of line so that a few characters do not pay for its buffer.
//
// Proved:
//
// - requires `length s.now ≤ SHORT_TEXT`
// - ensures items: `OnOk result (raw.new.items ≡ raw.old.items ++ encode E.BIG (chars s.now))`
// - ensures err: `OnErr result (VecUnchanged raw.old raw.new × (vec_capacity raw.new ≡ vec_capacity
//   raw.old))`
// - ensures succeeds: `vec_len raw.old + size (chars s.now) ≤ vec_capacity raw.old → IsOk result`
// - ensures grows: `vec_capacity raw.old ≤ vec_capacity raw.new`
#[inline(never)]
fn append_short<E: Utf16Order, A: Allocator>(
    raw: &mut Vec<u8, A>,
    s: &str,
) -> Result<(), AllocError> {
    if s.len() <= LINE_LEN {
        return append_by::<E, A>(raw, s, &mut [0; 2 * LINE_LEN + SLACK]);
    }
    append_by::<E, A>(raw, s, &mut [0; 2 * SHORT_TEXT + SLACK])
}

// Appends a text that is converted piece by piece. Kept out of line so that shorter texts do not
// pay for its buffer.
//
// Proved:
//
// - requires `vec_len raw.old + size (chars s.now) ≤ vec_capacity raw.old`
// - ensures items: `raw.new.items ≡ raw.old.items ++ encode E.BIG (chars s.now)`
// - ensures ok: `IsOk result`
// - ensures grows: `vec_capacity raw.old ≤ vec_capacity raw.new`
#[inline(never)]
fn extend_long<E: Utf16Order, A: Allocator>(
    raw: &mut Vec<u8, A>,
    s: &str,
) -> Result<(), AllocError> {
    let mut buf = [0; 2 * PIECE_LEN + SLACK];
    let mut rest = s;
    while rest.len() > PIECE_LEN {
        let (piece, next) = rest.split_at(crate::proved::kit::floor_char_boundary(rest, PIECE_LEN));
        append_by::<E, A>(raw, piece, &mut buf)?;
        rest = next;
    }
    append_by::<E, A>(raw, rest, &mut buf)
}

// Appends a text that is converted in a buffer.
//
// Proved:
//
// - requires `2 * length s.now + SLACK ≤ length buf.old`
// - ensures items: `OnOk result (raw.new.items ≡ raw.old.items ++ encode E.BIG (chars s.now))`
// - ensures err: `OnErr result (VecUnchanged raw.old raw.new × (vec_capacity raw.new ≡ vec_capacity
//   raw.old))`
// - ensures succeeds: `vec_len raw.old + size (chars s.now) ≤ vec_capacity raw.old → IsOk result`
// - ensures grows: `vec_capacity raw.old ≤ vec_capacity raw.new`
#[inline(always)]
fn append_by<E: Utf16Order, A: Allocator>(
    raw: &mut Vec<u8, A>,
    s: &str,
    buf: &mut [u8],
) -> Result<(), AllocError> {
    let end = write_text::<E>(s.as_bytes(), buf);
    raw.reserve(end)?;
    raw.extend_from_slice(&buf[..end])
}
