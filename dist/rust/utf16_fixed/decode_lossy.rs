// packaging/erase wrote this from crates/utf16_fixed/src/decode_lossy.rt: do not edit it.
//! Lossy conversion of UTF-16 to UTF-32, with U+FFFD for each ill-formed sequence, and the length
//! of its result.

use crate::proved::utf16_fixed::decode::to_utf32;
use crate::proved::utf16_transcode::{Progress, Stop};
use crate::proved::utf16_units::text::count_chars;
use crate::proved::utf16_units::{validate_raw_utf16, Utf16Order};

/// Writes the whole text of UTF-16 in UTF-32 to the start of a buffer, as far as it fits, with
/// U+FFFD for each unpaired surrogate and one for an incomplete character at the end. The code
/// points are in the machine's byte order. Any bytes are allowed. `read` counts bytes, `written`
/// counts code units of UTF-32. Code units of the buffer after the written ones may have been
/// overwritten.
///
/// All fits if the buffer has a code unit for every two bytes, and one for an odd byte at the end.
///
/// # Complexity
///
/// Linear time in the number of bytes read.
///
/// Proved:
///
/// - ensures shown: `WritesWhole (lossy_text E.BIG) utf32_units raw.now to.new result.read
///   result.written`
/// - ensures stop: `StopsLossy (lossy_text E.BIG) utf32_units (drop result.read raw.now) (length
///   to.new - result.written) result.stop`
/// - ensures between: `result.stop ≡ NoSpace → DecodesToUtf32 E.BIG raw.now to.new result.read
///   result.written`
/// - ensures succeeds: `(length raw.now + 1) / 2 ≤ length to.new → result.stop ≡ Done`
pub fn to_utf32_lossy<E: Utf16Order>(raw: &[u8], to: &mut [u32]) -> Progress {
    let front = write_decided::<E>(raw, to);
    let Stop::Incomplete = front.stop else {
        return front;
    };
    if front.written == to.len() {
        return Progress {
            read: front.read,
            written: front.written,
            stop: Stop::NoSpace,
        };
    }
    to[front.written] = char::REPLACEMENT_CHARACTER as u32;
    Progress {
        read: raw.len(),
        written: front.written + 1,
        stop: Stop::Done,
    }
}

// Writes what is certain of the bytes to the start of a buffer, as far as it fits, with U+FFFD for
// each unpaired surrogate. An incomplete character at the end is not read.
//
// Proved:
//
// - ensures decodes: `DecodesToUtf32 E.BIG raw.now to.new result.read result.written`
// - ensures stop: `StopsPartial (utf16_split E.BIG) utf32_units (drop result.read raw.now) (length
//   to.new - result.written) result.stop`
fn write_decided<E: Utf16Order>(raw: &[u8], to: &mut [u32]) -> Progress {
    let mut read = 0;
    let mut written = 0;
    loop {
        let front = to_utf32::<E>(&raw[read..], &mut to[written..]);
        read += front.read;
        written += front.written;
        let Stop::IllFormed(len) = front.stop else {
            return Progress {
                read,
                written,
                stop: front.stop,
            };
        };
        if written == to.len() {
            return Progress {
                read,
                written,
                stop: Stop::NoSpace,
            };
        }
        to[written] = char::REPLACEMENT_CHARACTER as u32;
        read += len as usize;
        written += 1;
    }
}

/// Returns the number of code units of UTF-32 that `to_utf32_lossy` writes for the whole input: one
/// for each character, each unpaired surrogate, and an incomplete character at the end. Any bytes
/// are allowed.
///
/// # Complexity
///
/// Two passes, with SIMD.
///
/// Proved:
///
/// - ensures `result ≡ length (lossy_text E.BIG raw.now)`
pub fn to_utf32_lossy_len<E: Utf16Order>(raw: &[u8]) -> usize {
    let mut rest = raw;
    let mut len = 0;
    loop {
        let error = match validate_raw_utf16::<E>(rest) {
            Ok(()) => return len + count_chars::<E>(rest),
            Err(error) => error,
        };
        let (front, next) = rest.split_at(error.valid_up_to());
        len += count_chars::<E>(front) + 1;
        match error.error_len() {
            Some(skipped) => rest = &next[skipped..],
            None => return len,
        }
    }
}
