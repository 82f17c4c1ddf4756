// packaging/erase wrote this from crates/utf16_to_utf8/src/append.rt: do not edit it.
//! A text as UTF-8, in a new `String` or appended to one.

use crate::proved::kit::String;

use crate::proved::kit::{AllocError, Allocator};
use crate::proved::utf16_to_utf8::lens::utf8_len;
use crate::proved::utf16_to_utf8::write::{write_utf8, SLACK};
use crate::proved::utf16_units::ends::first_char;
use crate::proved::utf16_units::strategy::{
    strategy_for, Strategy, FEW_TEXT, PIECE_LEN, SHORT_TEXT,
};
use crate::proved::utf16_units::{is_trailing_surrogate, Utf16Order};

/// Returns a text, in UTF-8, as a new `String`.
///
/// # Errors
///
/// `AllocError`, only if allocation fails. It does not fail for the empty text.
///
/// # Precondition
///
/// `raw` is well-formed UTF-16 in the byte order `E` (check with
/// `utf16_units::validate_raw_utf16`).
///
/// # Complexity
///
/// One pass over a text of fewer than 192 bytes, else two. Allocates once, for as many bytes as the
/// characters take, but at least eight, and not at all for the empty text.
///
/// Proved:
///
/// - requires `IsUtf16 E.BIG raw.now`
/// - ensures text: `IfOk result (λ s. string_bytes s ≡ utf8_of E.BIG raw.now)`
/// - ensures nothing: `raw.now ≡ [] → IsOk result`
pub fn to_utf8<E: Utf16Order, A: Allocator>(raw: &[u8], alloc: A) -> Result<String<A>, AllocError> {
    if raw.len() > FEW_TEXT / 2 {
        return make_text::<E, A>(raw, alloc);
    }
    // Two code units take at most six bytes.
    let capacity = if raw.is_empty() { 0 } else { FEW_TEXT };
    let mut utf8 = String::with_capacity(alloc, capacity)?;
    write_few::<E, A>(raw, &mut utf8)?;
    Ok(utf8)
}

// Returns a new `String` with a text that is not written character by character.
//
// Proved:
//
// - requires `IsUtf16 E.BIG raw.now`
// - ensures `IfOk result (λ s. string_bytes s ≡ utf8_of E.BIG raw.now)`
#[inline(never)]
fn make_text<E: Utf16Order, A: Allocator>(raw: &[u8], alloc: A) -> Result<String<A>, AllocError> {
    if raw.len() < SHORT_TEXT {
        return make_piece::<E, A>(raw, &mut [0; SHORT_TEXT / 2 * 3 + SLACK], alloc);
    }
    let mut utf8 = String::with_capacity(alloc, utf8_len::<E>(raw))?;
    write_pieces::<E, A>(raw, &mut utf8)?;
    Ok(utf8)
}

// Returns a new `String` with a text, which is written to `buf` before its length is known.
//
// Proved:
//
// - requires well_formed: `IsUtf16 E.BIG raw.now`
// - requires space: `length raw.now / 2 * 3 + SLACK ≤ length buf.old`
// - ensures `IfOk result (λ s. string_bytes s ≡ utf8_of E.BIG raw.now)`
#[inline]
fn make_piece<E: Utf16Order, A: Allocator>(
    raw: &[u8],
    buf: &mut [u8],
    alloc: A,
) -> Result<String<A>, AllocError> {
    let len = write_utf8::<E>(raw, buf);
    let mut utf8 = String::with_capacity(alloc, len.max(FEW_TEXT))?;
    utf8.push_str(unsafe { core::str::from_utf8_unchecked(&buf[..len]) })?;
    Ok(utf8)
}

/// Appends a text, in UTF-8, to a `String`.
///
/// # Errors
///
/// `AllocError`, only if allocation fails. `to` is unchanged.
///
/// # Precondition
///
/// `raw` is well-formed UTF-16 in the byte order `E` (check with
/// `utf16_units::validate_raw_utf16`).
///
/// # Complexity
///
/// One pass if the text has 8 to 190 bytes, or if `to` has spare capacity of three bytes per code
/// unit, else two. Allocates once, and not at all if the spare capacity suffices.
///
/// Proved:
///
/// - requires `IsUtf16 E.BIG raw.now`
/// - ensures text: `OnOk result (string_bytes to.new ≡ string_bytes to.old ++ utf8_of E.BIG
///   raw.now)`
/// - ensures err: `OnErr result ((string_bytes to.new ≡ string_bytes to.old) × (string_capacity
///   to.new ≡ string_capacity to.old))`
/// - ensures grows: `string_capacity to.old ≤ string_capacity to.new`
/// - ensures succeeds: `string_len to.old + length (utf8_of E.BIG raw.now) ≤ string_capacity to.old
///   → IsOk result`
#[inline]
pub fn append_utf8<E: Utf16Order, A: Allocator>(
    raw: &[u8],
    to: &mut String<A>,
) -> Result<(), AllocError> {
    match strategy_for(raw.len()) {
        Strategy::Chars => {
            reserve_utf8::<E, A>(raw, to)?;
            write_few::<E, A>(raw, to)
        }
        Strategy::Short => write_short::<E, A>(raw, to),
        Strategy::Blocks => {
            reserve_utf8::<E, A>(raw, to)?;
            write_pieces::<E, A>(raw, to)
        }
    }
}

// Appends a short text at once. Kept out of line so that other texts do not pay for its buffer.
//
// Proved:
//
// - requires well_formed: `IsUtf16 E.BIG raw.now`
// - requires short: `length raw.now ≤ SHORT_TEXT`
// - ensures text: `OnOk result (string_bytes to.new ≡ string_bytes to.old ++ utf8_of E.BIG
//   raw.now)`
// - ensures err: `OnErr result ((string_bytes to.new ≡ string_bytes to.old) × (string_capacity
//   to.new ≡ string_capacity to.old))`
// - ensures grows: `string_capacity to.old ≤ string_capacity to.new`
// - ensures succeeds: `string_len to.old + length (utf8_of E.BIG raw.now) ≤ string_capacity to.old
//   → IsOk result`
#[inline(never)]
fn write_short<E: Utf16Order, A: Allocator>(
    raw: &[u8],
    to: &mut String<A>,
) -> Result<(), AllocError> {
    write_piece::<E, A>(raw, &mut [0; SHORT_TEXT / 2 * 3 + SLACK], to)
}

// Appends the characters one by one to a string with enough capacity.
//
// Proved:
//
// - requires well_formed: `IsUtf16 E.BIG raw.now`
// - requires fits: `string_len to.old + length (utf8_of E.BIG raw.now) ≤ string_capacity to.old`
// - ensures ok: `IsOk result`
// - ensures appended: `IsPut (text_of E.BIG raw.now) (string_bytes to.old) (string_bytes to.new)
//   (string_capacity to.old) (string_capacity to.new)`
fn write_few<E: Utf16Order, A: Allocator>(
    raw: &[u8],
    to: &mut String<A>,
) -> Result<(), AllocError> {
    let mut rest = raw;
    while !rest.is_empty() {
        let (c, size) = first_char::<E>(rest);
        to.push(c)?;
        rest = &rest[size..];
    }
    Ok(())
}

// Appends a text piece by piece to a string with enough capacity. Kept out of line so that other
// texts do not pay for its buffer.
//
// Proved:
//
// - requires well_formed: `IsUtf16 E.BIG raw.now`
// - requires fits: `string_len to.old + length (utf8_of E.BIG raw.now) ≤ string_capacity to.old`
// - ensures ok: `IsOk result`
// - ensures appended: `IsPut (text_of E.BIG raw.now) (string_bytes to.old) (string_bytes to.new)
//   (string_capacity to.old) (string_capacity to.new)`
#[inline(never)]
fn write_pieces<E: Utf16Order, A: Allocator>(
    raw: &[u8],
    to: &mut String<A>,
) -> Result<(), AllocError> {
    let mut buf = [0; PIECE_LEN / 2 * 3 + SLACK];
    let mut rest = raw;
    while !rest.is_empty() {
        let (piece, next) = cut_piece::<E>(rest);
        write_piece::<E, A>(piece, &mut buf, to)?;
        rest = next;
    }
    Ok(())
}

// Appends a text at once, through `buf`.
//
// Proved:
//
// - requires well_formed: `IsUtf16 E.BIG raw.now`
// - requires space: `length raw.now / 2 * 3 + SLACK ≤ length buf.old`
// - ensures text: `OnOk result (string_bytes to.new ≡ string_bytes to.old ++ utf8_of E.BIG
//   raw.now)`
// - ensures err: `OnErr result ((string_bytes to.new ≡ string_bytes to.old) × (string_capacity
//   to.new ≡ string_capacity to.old))`
// - ensures grows: `string_capacity to.old ≤ string_capacity to.new`
// - ensures succeeds: `string_len to.old + length (utf8_of E.BIG raw.now) ≤ string_capacity to.old
//   → IsOk result`
#[inline]
fn write_piece<E: Utf16Order, A: Allocator>(
    raw: &[u8],
    buf: &mut [u8],
    to: &mut String<A>,
) -> Result<(), AllocError> {
    let len = write_utf8::<E>(raw, buf);
    to.reserve(len)?;
    to.push_str(unsafe { core::str::from_utf8_unchecked(&buf[..len]) })
}

// Cuts off the first piece of a text, and returns it and the text after it.
//
// Proved:
//
// - requires `IsUtf16 E.BIG raw.now`
// - ensures first_well_formed: `IsUtf16 E.BIG result.0.now`
// - ensures second_well_formed: `IsUtf16 E.BIG result.1.now`
// - ensures joined: `text_of E.BIG raw.now ≡ text_of E.BIG result.0.now ++ text_of E.BIG
//   result.1.now`
// - ensures few: `length result.0.now ≤ PIECE_LEN`
// - ensures shorter: `0 < length raw.now → length result.1.now < length raw.now`
#[inline]
fn cut_piece<E: Utf16Order>(raw: &[u8]) -> (&[u8], &[u8]) {
    raw.split_at(piece_end::<E>(raw))
}

// The end of the first piece of a text, which is a character boundary.
//
// Proved:
//
// - requires `IsUtf16 E.BIG raw.now`
// - ensures boundary: `IsBoundary (text_of E.BIG raw.now) result`
// - ensures few: `result ≤ PIECE_LEN`
// - ensures advances: `0 < length raw.now → 0 < result`
#[inline]
fn piece_end<E: Utf16Order>(raw: &[u8]) -> usize {
    if raw.len() <= PIECE_LEN {
        raw.len()
    } else if is_trailing_surrogate(E::read_unit([raw[PIECE_LEN], raw[PIECE_LEN + 1]])) {
        PIECE_LEN - 2
    } else {
        PIECE_LEN
    }
}

// Reserves capacity for the text in UTF-8. Its length is computed only if there is no spare
// capacity of three bytes per code unit.
//
// Proved:
//
// - requires `IsUtf16 E.BIG raw.now`
// - ensures bytes: `string_bytes to.new ≡ string_bytes to.old`
// - ensures reserved: `OnOk result (string_len to.new + length (utf8_of E.BIG raw.now) ≤
//   string_capacity to.new)`
// - ensures err: `OnErr result (string_capacity to.new ≡ string_capacity to.old)`
// - ensures grows: `string_capacity to.old ≤ string_capacity to.new`
// - ensures succeeds: `string_len to.old + length (utf8_of E.BIG raw.now) ≤ string_capacity to.old
//   → IsOk result`
#[inline]
fn reserve_utf8<E: Utf16Order, A: Allocator>(
    raw: &[u8],
    to: &mut String<A>,
) -> Result<(), AllocError> {
    if raw.len() / 2 * 3 <= to.capacity() - to.len() {
        return Ok(());
    }
    to.reserve(len_in_utf8::<E>(raw))
}

// The length of the text in UTF-8, in bytes. Not inlined, so that a text that fits does not pay for
// its registers.
//
// Proved:
//
// - requires `IsUtf16 E.BIG raw.now`
// - ensures `result ≡ length (utf8_of E.BIG raw.now)`
#[inline(never)]
fn len_in_utf8<E: Utf16Order>(raw: &[u8]) -> usize {
    utf8_len::<E>(raw)
}
