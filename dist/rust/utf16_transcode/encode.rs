// packaging/erase wrote this from crates/utf16_transcode/src/encode.rt: do not edit it.
//! UTF-8 to UTF-16, up to the first ill-formed sequence.
//!
//! `simdutf8` reads 64 bytes or more to the end before it looks for the error, but in fewer bytes
//! it stops at the error. So it gets at most 63 bytes. An error costs about as much as the bytes
//! before it and the next 191, which `write_prefix` may read first. The frequent first bytes are
//! tested by ranges, because a `match` of five cases compiles to a jump table.

use crate::proved::utf16_from_utf8::{write_prefix, write_text, SLACK};
use crate::proved::utf16_to_utf8::utf8_len;
use crate::proved::utf16_transcode::chars::{char_of_four, char_of_three, char_of_two};
use crate::proved::utf16_transcode::direction::{Direction, BLOCK_LEN};
use crate::proved::utf16_transcode::progress::Progress;
use crate::proved::utf16_transcode::transcoding::transcode;
use crate::proved::utf16_units::strategy::FEW_TEXT;
use crate::proved::utf16_units::{is_trailing_surrogate, Moved, Utf16CharExt, Utf16Order};
use crate::proved::utf8_bytes::is_continuation;
use core::marker::PhantomData;

// The length in bytes below which what is left of an input goes character by character.
const SHORT_LEN: usize = 32;

/// Writes UTF-8 in UTF-16 to the start of a buffer, up to the first ill-formed sequence or as far
/// as whole characters fit. Any bytes are allowed. Bytes of the buffer after the written ones may
/// have been overwritten.
///
/// # Complexity
///
/// Linear time in the number of bytes read.
///
/// Proved:
///
/// - ensures wrote: `Writes (TranscodesToUtf16 E.BIG) text.now to.new result.read result.written`
/// - ensures stop: `Stops encode_utf8 (char_bytes E.BIG) IsIllFormedUtf8 text.now result.read
///   (length to.new - result.written) result.stop`
#[inline(always)]
pub fn from_utf8<E: Utf16Order>(text: &[u8], to: &mut [u8]) -> Progress {
    transcode::<FromUtf8<E>>(text, to)
}

/// From UTF-8 to UTF-16 in byte order `E`, with U+FFFD for each ill-formed subpart.
pub struct FromUtf8<E: Utf16Order>(PhantomData<E>);

impl<E: Utf16Order> Direction for FromUtf8<E> {
    const FRONT_LEN: usize = 16;

    #[inline(always)]
    fn laws() {}

    #[inline(always)]
    fn valid_len(bytes: &[u8]) -> usize {
        valid_len(bytes)
    }

    #[inline(always)]
    fn first_char(rest: &[u8]) -> Result<(char, usize), Option<u8>> {
        first_utf8_char(rest)
    }

    // Fewer bytes than a vector go character by character, the ASCII at their start first. What
    // `write_prefix` leaves of a short input goes character by character too.
    #[inline(always)]
    fn begin(input: &[u8], to: &mut [u8]) -> Moved {
        if input.len() < FEW_TEXT {
            let ascii = write_ascii_chars::<E>(input, to);
            return write_short_rest::<E>(input, to, ascii);
        }
        let front = write_prefix::<E>(input, to);
        write_short_rest::<E>(input, to, front)
    }

    #[inline(always)]
    fn write_char(c: char, to: &mut [u8], at: usize) -> Option<usize> {
        if to.len() - at < c.encoded_utf16_len() {
            return None;
        }
        Some(write_char::<E>(c, to, at))
    }

    #[inline(always)]
    fn fitting_prefix(_text: &[u8], written: &[u8], room: usize) -> Moved {
        let end = last_boundary::<E>(written, room);
        Moved {
            read: utf8_len::<E>(&written[..end]),
            written: end,
        }
    }

    #[inline(always)]
    fn surely_fit(room: usize) -> usize {
        room.saturating_sub(SLACK) / 2
    }

    #[inline(always)]
    fn write(text: &[u8], to: &mut [u8]) -> usize {
        write_text::<E>(text, to)
    }

    #[inline(always)]
    fn write_front(rest: &[u8], to: &mut [u8]) -> Moved {
        write_prefix::<E>(rest, to)
    }
}

// Returns the last boundary between characters of a text at or before an offset.
//
// Proved:
//
// - requires text: `IsUtf16 E.BIG utf16.now`
// - requires inside: `at < length utf16.now`
// - ensures boundary: `IsBoundary (text_of E.BIG utf16.now) result`
// - ensures before: `result ≤ at`
// - ensures last: `(i : ℕ) → IsBoundary (text_of E.BIG utf16.now) i → i ≤ at → i ≤ result`
// - ensures near: `at < result + 4`
#[inline(always)]
fn last_boundary<E: Utf16Order>(utf16: &[u8], at: usize) -> usize {
    let whole = at / 2 * 2;
    if is_trailing_surrogate(E::read_unit([utf16[whole], utf16[whole + 1]])) {
        return whole - 2;
    }
    whole
}

// Writes the ASCII at the start of the bytes character by character, as far as it fits.
//
// Proved:
//
// - ensures wrote: `Writes (TranscodesToUtf16 E.BIG) bytes.now to.new result.read result.written`
// - ensures stop: `result.read < length bytes.now → 2 * result.read + 2 ≤ length to.old → 0x80 ≤
//   slice_index bytes.now result.read`
#[inline(always)]
fn write_ascii_chars<E: Utf16Order>(bytes: &[u8], to: &mut [u8]) -> Moved {
    let most = bytes.len().min(to.len() / 2);
    let mut len = 0;
    let mut end = 0;
    while len < most && bytes[len] < 0x80 {
        end = write_char::<E>(bytes[len] as char, to, end);
        len += 1;
    }
    Moved {
        read: len,
        written: end,
    }
}

// Writes the rest of a short input character by character, as far as its characters fit and are
// well formed.
//
// Proved:
//
// - requires `Writes (TranscodesToUtf16 E.BIG) text.now to.old from.read from.written`
// - ensures wrote: `Writes (TranscodesToUtf16 E.BIG) text.now to.new result.read result.written`
// - ensures more: `from.read ≤ result.read`
#[inline(always)]
fn write_short_rest<E: Utf16Order>(text: &[u8], to: &mut [u8], from: Moved) -> Moved {
    if text.len() >= SHORT_LEN {
        return from;
    }
    let Moved {
        mut read,
        mut written,
    } = from;
    while read < text.len() {
        let Ok((c, len)) = first_utf8_char(&text[read..]) else {
            break;
        };
        if to.len() - written < c.encoded_utf16_len() {
            break;
        }
        written = write_char::<E>(c, to, written);
        read += len;
    }
    Moved { read, written }
}

// Writes a character that fits at `at`, and returns where it ends.
//
// Proved:
//
// - requires `at + char_size c ≤ length to.old`
// - ensures within: `result ≤ length to.new`
// - ensures end: `result ≡ at + char_size c`
// - ensures bytes: `take result to.new ≡ take at to.old ++ char_bytes E.BIG c`
#[inline(always)]
pub(crate) fn write_char<E: Utf16Order>(c: char, to: &mut [u8], at: usize) -> usize {
    at + c.encode_utf16_into::<E>(&mut to[at..])
}

// Returns the length of the longest valid prefix. Validation of a block or more reads all of it
// before it looks for the error, but validation of fewer bytes stops at the error. So a few bytes
// are validated first.
//
// Proved:
//
// - ensures within: `result ≤ length text.now`
// - ensures well_formed: `IsUtf8 (take result text.now)`
// - ensures longest: `(n : ℕ) → n ≤ length text.now → IsUtf8 (take n text.now) → n ≤ result`
fn valid_len(text: &[u8]) -> usize {
    if text.len() < BLOCK_LEN {
        return valid_prefix(text);
    }
    let len = valid_prefix(&text[..BLOCK_LEN - 1]);
    // A character of at most four bytes may be incomplete there.
    if len + 4 < BLOCK_LEN {
        return len;
    }
    len + valid_prefix(&text[len..])
}

// Returns the length of the longest valid prefix.
//
// Proved:
//
// - ensures within: `result ≤ length text.now`
// - ensures well_formed: `IsUtf8 (take result text.now)`
// - ensures longest: `(n : ℕ) → n ≤ length text.now → IsUtf8 (take n text.now) → n ≤ result`
fn valid_prefix(text: &[u8]) -> usize {
    match crate::proved::simdutf8::compat::from_utf8(text) {
        Ok(_) => text.len(),
        Err(error) => error.valid_up_to(),
    }
}

// Whether a character of two bytes or more can begin with these two (Unicode Standard, table 3-7).
//
// Proved:
//
// - ensures `result ≡ (is_in_range 0xC2 0xF4 lead && is_in_range (second_byte_min lead)
//   (second_byte_max lead) second)`
#[inline(always)]
fn can_begin(lead: u8, second: u8) -> bool {
    // The upper two bits of both bytes, in one test that few other pairs pass.
    if lead / 0x40 * 4 + second / 0x40 != 0b1110 {
        return false;
    }
    // The frequent first bytes, which take few comparisons.
    if (0xE1..=0xEC).contains(&lead) || (0xC2..=0xDF).contains(&lead) {
        return true;
    }
    let (least, most) = match lead {
        0xE0 => (0xA0, 0xBF),
        0xED => (0x80, 0x9F),
        0xF0 => (0x90, 0xBF),
        0xF4 => (0x80, 0x8F),
        _ => (0x80, 0xBF),
    };
    (0xC2..=0xF4).contains(&lead) && (least..=most).contains(&second)
}

// Returns the first character and its length in bytes, or the `error_len` of what is there instead
// (Unicode Standard, table 3-7).
//
// Proved:
//
// - requires `0 < length rest.now`
// - ensures char: `IfOk result (λ first. BeginsWith encode_utf8 rest.now first.0 first.1)`
// - ensures ill_formed: `IfErr result (IsIllFormedUtf8At rest.now)`
#[inline(always)]
pub(crate) fn first_utf8_char(rest: &[u8]) -> Result<(char, usize), Option<u8>> {
    let lead = rest[0];
    if lead < 0x80 {
        return Ok((lead as char, 1));
    }
    // Most characters of three bytes, with the fewest tests.
    if rest.len() >= 3
        && (0xE1..=0xEC).contains(&lead)
        && is_continuation(rest[1])
        && is_continuation(rest[2])
    {
        return Ok((char_of_three(lead, rest[1], rest[2]), 3));
    }
    if rest.len() < 2 {
        return Err(error_len_of_one(lead));
    }
    if !can_begin(lead, rest[1]) {
        return Err(Some(1));
    }
    if lead < 0xE0 {
        return Ok((char_of_two(lead, rest[1]), 2));
    }
    if rest.len() < 3 {
        return Err(None);
    }
    if !is_continuation(rest[2]) {
        return Err(Some(2));
    }
    if lead < 0xF0 {
        return Ok((char_of_three(lead, rest[1], rest[2]), 3));
    }
    if rest.len() < 4 {
        return Err(None);
    }
    if !is_continuation(rest[3]) {
        return Err(Some(3));
    }
    Ok((char_of_four(lead, rest[1], rest[2], rest[3]), 4))
}

// Returns the `error_len` of a single byte that is not ASCII: `None` if it can begin a character.
//
// Proved:
//
// - requires `0x80 ≤ lead`
// - ensures `IsIllFormedUtf8At (lead ∷ []) result`
#[inline(always)]
fn error_len_of_one(lead: u8) -> Option<u8> {
    if (0xC2..=0xF4).contains(&lead) {
        None
    } else {
        Some(1)
    }
}
