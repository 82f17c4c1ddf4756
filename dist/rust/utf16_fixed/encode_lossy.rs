// packaging/erase wrote this from crates/utf16_fixed/src/encode_lossy.rt: do not edit it.
//! Lossy conversion of UTF-32 to UTF-16, with U+FFFD for each code unit that is not a scalar value,
//! and the length of its result.

use crate::proved::simd::*;
use crate::proved::utf16_fixed::encode::from_utf32;
use crate::proved::utf16_fixed::lanes::bits_above;
use crate::proved::utf16_transcode::{put, Progress, Stop};
use crate::proved::utf16_units::Utf16Order;

/// Writes UTF-32, code points in the machine's byte order, in UTF-16 to the start of a buffer, as
/// far as whole characters fit, with U+FFFD for each code unit that is not a scalar value. Any code
/// units are allowed. `read` counts code units of UTF-32, `written` counts bytes. Bytes of the
/// buffer after the written ones may have been overwritten.
///
/// All fits if the buffer has four bytes for every code unit.
///
/// # Complexity
///
/// Linear time in the number of code units read.
///
/// Proved:
///
/// - ensures wrote: `Writes (ShowsInUtf16 E.BIG) utf32.now to.new result.read result.written`
/// - ensures stop: `StopsLossy lossy_utf32 (char_bytes E.BIG) (drop result.read utf32.now) (length
///   to.new - result.written) result.stop`
/// - ensures succeeds: `4 * length utf32.now ≤ length to.new → result.stop ≡ Done`
pub fn from_utf32_lossy<E: Utf16Order>(utf32: &[u32], to: &mut [u8]) -> Progress {
    let replacement = E::write_unit(char::REPLACEMENT_CHARACTER as u16);
    let mut read = 0;
    let mut written = 0;
    loop {
        let front = from_utf32::<E>(&utf32[read..], &mut to[written..]);
        read += front.read;
        written += front.written;
        let Stop::IllFormed(_) = front.stop else {
            return Progress {
                read,
                written,
                stop: front.stop,
            };
        };
        if to.len() - written < 2 {
            return Progress {
                read,
                written,
                stop: Stop::NoSpace,
            };
        }
        written = put(&replacement, to, written);
        read += 1;
    }
}

/// Returns the length in bytes of the output of `from_utf32_lossy` for the whole input. Any code
/// units are allowed.
///
/// # Complexity
///
/// Two passes, with SIMD.
///
/// Proved:
///
/// - ensures len: `result ≡ size (lossy_utf32 utf32.now)`
/// - ensures most: `result ≤ 4 * length utf32.now`
pub fn from_utf32_lossy_len(utf32: &[u32]) -> usize {
    // Only those from 0x10000 to 0x10FFFF take two UTF-16 code units.
    let pairs = count_above(utf32, 0xFFFF) - count_above(utf32, 0x10_FFFF);
    2 * (utf32.len() + pairs)
}

// The number of code units above a limit.
//
// Proved:
//
// - ensures `result ≡ count_by (above limit) utf32.now`
fn count_above(utf32: &[u32], limit: u32) -> usize {
    let mut at = 0;
    let mut count: usize = 0;
    while utf32.len() - at >= 16 {
        let block = u32x16::from_slice(&utf32[at..]);
        count += bits_above(block, limit).count_ones() as usize;
        at += 16;
    }
    while at < utf32.len() {
        count += (utf32[at] > limit) as usize;
        at += 1;
    }
    count
}
