// packaging/erase wrote this from crates/utf16_transcode/src/decode.rt: do not edit it.
//! Conversion of UTF-16 to UTF-8, up to the first ill-formed sequence.
//!
//! A short text is written by its kind: ASCII eight code units at a time, fewer than eight code
//! units one by one, and others eight at a time, validated while they are written. Only longer
//! texts, and those that may not fit, take the steps of long texts. `strategy.rt` of `utf16_units`
//! says which texts are short.

use crate::proved::utf16_to_utf8::{
    put_char, write_blocks, write_eight_ascii, write_utf8, write_vectors, SLACK,
};
use crate::proved::utf16_transcode::direction::Direction;
use crate::proved::utf16_transcode::progress::Progress;
use crate::proved::utf16_transcode::transcoding::transcode;
use crate::proved::utf16_units::ends::first_char;
use crate::proved::utf16_units::strategy::{strategy_for, Strategy};
use crate::proved::utf16_units::{
    first_char_len, utf16_len, validate_raw_utf16, Moved, Utf16Order,
};
use core::marker::PhantomData;

/// Writes UTF-16 in UTF-8 to the start of a buffer, up to the first ill-formed sequence or as far
/// as whole characters fit. Any bytes are allowed. Bytes of the buffer after the written ones may
/// have been overwritten.
///
/// # Complexity
///
/// Linear time in the number of bytes read.
///
/// Proved:
///
/// - ensures wrote: `Writes (TranscodesToUtf8 E.BIG) raw.now to.new result.read result.written`
/// - ensures stop: `Stops (char_bytes E.BIG) encode_utf8 (IsIllFormedUtf16 E.BIG) raw.now
///   result.read (length to.new - result.written) result.stop`
#[inline(always)]
pub fn to_utf8<E: Utf16Order>(raw: &[u8], to: &mut [u8]) -> Progress {
    transcode::<ToUtf8<E>>(raw, to)
}

/// The direction from UTF-16 in byte order `E` to UTF-8, with U+FFFD for each unpaired surrogate.
pub struct ToUtf8<E: Utf16Order>(PhantomData<E>);

impl<E: Utf16Order> Direction for ToUtf8<E> {
    const FRONT_LEN: usize = 66;

    #[inline(always)]
    fn laws() {}

    #[inline(always)]
    fn valid_len(bytes: &[u8]) -> usize {
        valid_up_to::<E>(bytes)
    }

    #[inline(always)]
    fn first_char(rest: &[u8]) -> Result<(char, usize), Option<u8>> {
        let len = first_char_len::<E>(rest)?;
        Ok(first_char::<E>(&rest[..len]))
    }

    #[inline(always)]
    fn begin(input: &[u8], to: &mut [u8]) -> Moved {
        let ascii = write_ascii_start::<E>(input, to);
        let few = write_few_units::<E>(input, to, ascii);
        write_short_rest::<E>(input, to, few)
    }

    #[inline(always)]
    fn write_char(c: char, to: &mut [u8], at: usize) -> Option<usize> {
        write_char_at(c, to, at)
    }

    #[inline(always)]
    fn fitting_prefix(_text: &[u8], written: &[u8], room: usize) -> Moved {
        let text = unsafe { core::str::from_utf8_unchecked(written) };
        let end = crate::proved::kit::floor_char_boundary(text, room);
        Moved {
            read: utf16_len(&text[..end]),
            written: end,
        }
    }

    #[inline(always)]
    fn surely_fit(room: usize) -> usize {
        room.saturating_sub(SLACK) / 3 * 2
    }

    #[inline(always)]
    fn write(text: &[u8], to: &mut [u8]) -> usize {
        write_utf8::<E>(text, to)
    }

    #[inline(always)]
    fn write_front(rest: &[u8], to: &mut [u8]) -> Moved {
        let blocks = write_blocks::<E>(rest, to);
        write_ascii_from::<E>(rest, to, blocks)
    }
}

// Writes the ASCII at the start of a short input of eight code units or more.
//
// Proved:
//
// - ensures wrote: `Writes (TranscodesToUtf8 E.BIG) raw.now to.new result.read result.written`
// - ensures short: `length raw.now < 16 → (result.read ≡ 0) × (result.written ≡ 0)`
#[inline(always)]
fn write_ascii_start<E: Utf16Order>(raw: &[u8], to: &mut [u8]) -> Moved {
    let nothing = Moved {
        read: 0,
        written: 0,
    };
    if raw.len() < 16 {
        return nothing;
    }
    let Strategy::Short = strategy_for(raw.len()) else {
        return nothing;
    };
    write_ascii_from::<E>(raw, to, nothing)
}

// Writes the ASCII that follows what was written, eight code units at a time. These write no bytes
// after their UTF-8.
//
// Proved:
//
// - requires `Writes (TranscodesToUtf8 E.BIG) raw.now to.old from.read from.written`
// - ensures wrote: `Writes (TranscodesToUtf8 E.BIG) raw.now to.new result.read result.written`
// - ensures more: `from.read ≤ result.read`
#[inline(always)]
fn write_ascii_from<E: Utf16Order>(raw: &[u8], to: &mut [u8], from: Moved) -> Moved {
    // The code units that fit if they are ASCII.
    let units = ((raw.len() - from.read) / 2).min(to.len() - from.written);
    let end = Moved {
        read: from.read + 2 * units,
        written: from.written + units,
    };
    let Moved {
        mut read,
        mut written,
    } = from;
    while end.read - read >= 16 {
        if !write_eight_ascii::<E>(&raw[read..], &mut to[written..]) {
            return Moved { read, written };
        }
        read += 16;
        written += 8;
    }
    write_last_ascii::<E>(raw, to, Moved { read, written }, end)
}

// Writes the last of the code units up to `end`, fewer than eight, if they are ASCII. It writes
// eight, together with those before them, which are written again.
//
// Proved:
//
// - requires wrote: `Writes (TranscodesToUtf8 E.BIG) raw.now to.old from.read from.written`
// - requires few: `end.read ≤ from.read + 16`
// - requires within: `end.read ≤ length raw.now`
// - requires space: `end.written ≤ length to.old`
// - requires ascii: `end.read + 2 * from.written ≡ from.read + 2 * end.written`
// - ensures wrote: `Writes (TranscodesToUtf8 E.BIG) raw.now to.new result.read result.written`
// - ensures more: `from.read ≤ result.read`
#[inline(always)]
fn write_last_ascii<E: Utf16Order>(raw: &[u8], to: &mut [u8], from: Moved, end: Moved) -> Moved {
    if end.read <= from.read || end.read < 16 {
        return from;
    }
    if !write_eight_ascii::<E>(&raw[end.read - 16..], &mut to[end.written - 8..]) {
        return from;
    }
    end
}

// Writes the rest of a text, if it has fewer than eight code units and these surely fit, one by
// one, up to the first surrogate.
//
// Proved:
//
// - requires `Writes (TranscodesToUtf8 E.BIG) raw.now to.old from.read from.written`
// - ensures wrote: `Writes (TranscodesToUtf8 E.BIG) raw.now to.new result.read result.written`
// - ensures ascii: `All (λ unit. unit < 0x80) (units_of E.BIG raw.now) → length raw.now <
//   from.read + 16 → from.written + (length raw.now - from.read) / 2 * 3 ≤ length to.old → length
//   raw.now < result.read + 2`
#[inline(always)]
fn write_few_units<E: Utf16Order>(raw: &[u8], to: &mut [u8], from: Moved) -> Moved {
    let Moved {
        mut read,
        mut written,
    } = from;
    let left = raw.len() - read;
    if left >= 16 || to.len() - written < left / 2 * 3 {
        return from;
    }
    while raw.len() - read >= 2 {
        let Some(end) = write_plain_unit::<E>(&raw[read..], to, written) else {
            break;
        };
        written = end;
        read += 2;
    }
    Moved { read, written }
}

// Writes the rest of a short input eight code units at a time, up to an ill-formed sequence or as
// far as it surely fits. It leaves a rest of fewer than four code units.
//
// Proved:
//
// - requires `Writes (TranscodesToUtf8 E.BIG) raw.now to.old from.read from.written`
// - ensures wrote: `Writes (TranscodesToUtf8 E.BIG) raw.now to.new result.read result.written`
// - ensures more: `from.read ≤ result.read`
#[inline(always)]
fn write_short_rest<E: Utf16Order>(raw: &[u8], to: &mut [u8], from: Moved) -> Moved {
    let Strategy::Short = strategy_for(raw.len()) else {
        return from;
    };
    if raw.len() - from.read < 8 {
        return from;
    }
    let rest = write_vectors::<E>(&raw[from.read..], &mut to[from.written..]);
    Moved {
        read: from.read + rest.read,
        written: from.written + rest.written,
    }
}

// Writes the first code unit at `at`, where it surely fits, and returns where it ends, or `None` if
// it is a surrogate. The arms have one body. If they are one, LLVM tests for surrogates first, and
// ASCII takes that test too.
//
// Proved:
//
// - requires some: `2 ≤ length rest.now`
// - requires space: `at + 3 ≤ length to.old`
// - ensures puts: `IfSome result (λ end. WritesAt (TranscodesToUtf8 E.BIG) rest.now to.old to.new
//   at 2 end)`
// - ensures near: `IfSome result (λ end. end ≤ at + 3)`
// - ensures none: `result ≡ None → unit_of E.BIG (slice_index rest.now 0) (slice_index rest.now 1)
//   / 0x800 ≡ 0x1B`
// - ensures unchanged: `result ≡ None → to.new ≡ to.old`
#[inline(always)]
fn write_plain_unit<E: Utf16Order>(rest: &[u8], to: &mut [u8], at: usize) -> Option<usize> {
    let unit = E::read_unit(crate::proved::kit::two(rest, 0));
    if unit < 0x80 {
        return Some(put_char(plain_first_char::<E>(rest), to, at));
    }
    if unit < 0x800 {
        return Some(put_char(plain_first_char::<E>(rest), to, at));
    }
    if unit / 0x800 == 0x1B {
        return None;
    }
    Some(put_char(plain_first_char::<E>(rest), to, at))
}

// Returns the first character, if the first code unit is not a surrogate.
//
// Proved:
//
// - requires some: `2 ≤ length rest.now`
// - requires plain: `unit_of E.BIG (slice_index rest.now 0) (slice_index rest.now 1) / 0x800 ≢
//   0x1B`
// - ensures char: `BeginsWith (char_bytes E.BIG) rest.now result 2`
// - ensures one: `result < 0x1_0000`
#[inline(always)]
fn plain_first_char<E: Utf16Order>(rest: &[u8]) -> char {
    let unit = E::read_unit(crate::proved::kit::two(rest, 0));
    unsafe { char::from_u32_unchecked(unit as u32) }
}

// Returns the length of the longest valid prefix. Kept out of line so that the writer does not pay
// for its registers.
//
// Proved:
//
// - ensures within: `result ≤ length bytes.now`
// - ensures valid: `IsUtf16 E.BIG (take result bytes.now)`
// - ensures longest: `(n : ℕ) → n ≤ length bytes.now → IsUtf16 E.BIG (take n bytes.now) → n ≤
//   result`
#[inline(never)]
pub(crate) fn valid_up_to<E: Utf16Order>(bytes: &[u8]) -> usize {
    match validate_raw_utf16::<E>(bytes) {
        Ok(()) => bytes.len(),
        Err(error) => error.valid_up_to(),
    }
}

// Writes a character in UTF-8 at `at`, and returns where it ends, or `None` if it does not fit.
//
// Proved:
//
// - requires `at ≤ length to.old`
// - ensures within: `IfSome result (λ end. end ≤ length to.new)`
// - ensures bytes: `IfSome result (λ end. take end to.new ≡ take at to.old ++ encode_utf8 c)`
// - ensures none: `result ≡ None → length to.new - at < length (encode_utf8 c)`
// - ensures unchanged: `result ≡ None → to.new ≡ to.old`
#[inline(always)]
fn write_char_at(c: char, to: &mut [u8], at: usize) -> Option<usize> {
    if to.len() - at < c.len_utf8() {
        return None;
    }
    Some(put_char(c, to, at))
}
