// packaging/erase wrote this from crates/utf16_transcode/src/ascii.rt: do not edit it.
//! ASCII with unpaired surrogates in it, in blocks of thirty-two code units.
//!
//! Each unit is clamped to a byte, whose highest bit then says whether it is ASCII. All are stored,
//! and what follows the ASCII is overwritten.

use crate::proved::simd::*;
use crate::proved::utf16_to_utf8::put;
use crate::proved::utf16_transcode::replacement::REPLACEMENT;
use crate::proved::utf16_units::blocks::units32;
use crate::proved::utf16_units::{first_char_len, Moved, Utf16Order};

// Writes blocks of ASCII to the start of a buffer, with U+FFFD for each unpaired surrogate in them,
// until another character comes. Kept out of line so that its loop has all registers.
//
// Proved:
//
// - requires bytes: `66 ≤ length raw.now`
// - requires space: `35 ≤ length to.old`
// - ensures `DecodesTo E.BIG raw.now to.new result.read result.written`
#[inline(never)]
pub(crate) fn write_lossy_ascii_blocks<E: Utf16Order>(raw: &[u8], to: &mut [u8]) -> Moved {
    let last = raw.len() - 66;
    let most = to.len() - 35;
    let mut read = 0;
    let mut written = 0;
    while read <= last && written <= most {
        let Some(block) = write_lossy_ascii_block::<E>(&raw[read..], &mut to[written..]) else {
            break;
        };
        read += block.read;
        written += block.written;
    }
    Moved { read, written }
}

// Writes the ASCII at the start of a block to the start of a buffer, and U+FFFD for the unpaired
// surrogate that follows it; `None` if another character follows.
//
// Proved:
//
// - requires bytes: `66 ≤ length raw.now`
// - requires space: `35 ≤ length to.old`
// - ensures decodes: `IfSome result (λ done. DecodesTo E.BIG raw.now to.new done.read
//   done.written)`
// - ensures advances: `IfSome result (λ done. 0 < done.read)`
#[inline(always)]
fn write_lossy_ascii_block<E: Utf16Order>(raw: &[u8], to: &mut [u8]) -> Option<Moved> {
    let len = write_ascii_prefix::<E>(raw, to);
    if len == 32 {
        return Some(Moved {
            read: 2 * len,
            written: len,
        });
    }
    match first_char_len::<E>(&raw[2 * len..]) {
        Err(Some(lone)) => Some(Moved {
            read: 2 * len + lone as usize,
            written: put(&REPLACEMENT, to, len),
        }),
        _ => None,
    }
}

// Writes the ASCII at the start of a block to the start of a buffer, and returns the number of its
// code units. The bytes after them may be overwritten.
//
// Proved:
//
// - requires bytes: `64 ≤ length raw.now`
// - requires space: `32 ≤ length to.old`
// - ensures few: `result ≤ 32`
// - ensures text: `TranscodesToUtf8 E.BIG (take (2 * result) raw.now) (take result to.new)`
// - ensures stop: `result < 32 → 0x80 ≤ slice_index (units_of E.BIG (take 64 raw.now)) result`
#[inline(always)]
fn write_ascii_prefix<E: Utf16Order>(raw: &[u8], to: &mut [u8]) -> usize {
    let units = units32::<E>(u8x64::from_slice(raw));
    let bytes = narrowed(clamped(units));
    bytes.copy_to_slice(to);
    ascii_len(bytes)
}

// The units, each of them at most 0xFF.
//
// Proved:
//
// - ensures `HasLanes 32 result (λ i. min (slice_index units i) 0xFF)`
#[inline(always)]
fn clamped(units: u16x32) -> u16x32 {
    units.simd_min(u16x32::splat(0xFF))
}

// The units as bytes.
//
// Proved:
//
// - requires `(i : ℕ) → i < length units → slice_index units i ≤ 0xFF`
// - ensures `HasLanes 32 result (λ i. slice_index units i)`
#[inline(always)]
fn narrowed(units: u16x32) -> u8x32 {
    units.cast::<u8>()
}

// Returns the number of bytes before the first byte that is not ASCII, or of all bytes if all are
// ASCII.
//
// Proved:
//
// - requires `N ≤ 64`
// - ensures few: `result ≤ N`
// - ensures ascii: `All (λ byte. byte < 0x80) (take result bytes.entry)`
// - ensures stop: `result < N → 0x80 ≤ slice_index bytes.entry result`
#[inline(always)]
pub(crate) fn ascii_len<const N: usize>(bytes: Simd<u8, N>) -> usize {
    let others = high_bits(bytes);
    if others == 0 {
        N
    } else {
        others.trailing_zeros() as usize
    }
}

// A bit for each byte that is not ASCII.
//
// Proved:
//
// - requires `N ≤ 64`
// - ensures `result ≡ mask_l (map (λ byte. bit_and byte 0x80 == 0x80) bytes.entry)`
#[inline(always)]
fn high_bits<const N: usize>(bytes: Simd<u8, N>) -> u64 {
    (bytes & Simd::splat(0x80))
        .simd_eq(Simd::splat(0x80))
        .to_bitmask()
}
