// packaging/erase wrote this from crates/utf16_to_utf8/src/chars.rt: do not edit it.
//! Writes bytes and characters at an offset of a buffer.

use crate::proved::utf16_units::ends::first_char;
use crate::proved::utf16_units::Utf16Order;

/// Writes bytes at `at`, and returns where they end.
///
/// # Precondition
///
/// `at` plus the number of bytes is at most the length of the buffer.
///
/// Proved:
///
/// - requires `at + length bytes.now ≤ length to.old`
/// - ensures written_to: `result ≡ at + length bytes.now`
/// - ensures bytes: `take result to.new ≡ take at to.old ++ bytes.now`
/// - ensures rest: `drop result to.new ≡ drop result to.old`
#[inline(always)]
pub fn put(bytes: &[u8], to: &mut [u8], at: usize) -> usize {
    let end = at + bytes.len();
    to[at..end].copy_from_slice(bytes);
    end
}

/// Writes a character in UTF-8 at `at`, and returns where it ends. Unlike `char::encode_utf8`, its
/// contract says which bytes are unchanged.
///
/// # Precondition
///
/// `at` plus the length of the character in UTF-8 is at most the length of the buffer.
///
/// Proved:
///
/// - requires `at + len_utf8 c ≤ length to.old`
/// - ensures end: `result ≡ at + len_utf8 c`
/// - ensures within: `result ≤ length to.new`
/// - ensures bytes: `take result to.new ≡ take at to.old ++ encode_utf8 c`
#[inline(always)]
pub fn put_char(c: char, to: &mut [u8], at: usize) -> usize {
    let code = c as u32;
    let last = (0x80 + code % 64) as u8;
    if code < 0x80 {
        to[at] = code as u8;
        at + 1
    } else if code < 0x800 {
        put(&[(0xC0 + code / 64) as u8, last], to, at)
    } else if code < 0x1_0000 {
        let middle = (0x80 + code / 64 % 64) as u8;
        put(&[(0xE0 + code / 4096) as u8, middle, last], to, at)
    } else {
        let (second, third) = (0x80 + code / 4096 % 64, 0x80 + code / 64 % 64);
        let first = 0xF0 + code / 262144;
        put(&[first as u8, second as u8, third as u8, last], to, at)
    }
}

// Writes a text character by character.
//
// Proved:
//
// - requires well_formed: `IsUtf16 E.BIG raw.now`
// - requires space: `length raw.now / 2 * 3 ≤ length out.old`
// - ensures utf8: `take result out.new ≡ utf8_of E.BIG raw.now`
// - ensures fits: `result ≤ length out.new`
pub(crate) fn write_chars<E: Utf16Order>(raw: &[u8], out: &mut [u8]) -> usize {
    let mut rest = raw;
    let mut end = 0;
    while !rest.is_empty() {
        let (c, size) = first_char::<E>(rest);
        end = put_char(c, out, end);
        rest = &rest[size..];
    }
    end
}
