// packaging/erase wrote this from crates/utf16_fixed/src/narrow.rt: do not edit it.
//! From UTF-16 to Latin-1: each code unit up to 0xFF becomes the byte with its number.
//!
//! A block is written only if all its code units are such. So the bytes after the written ones are
//! unchanged, and code units are tested one by one only at the end and before another character.

use crate::proved::simd::*;
use crate::proved::utf16_fixed::blocks::{repeat_block, Block, Fixed};
use crate::proved::utf16_fixed::lanes::are_below;
use crate::proved::utf16_fixed::latin1_stop::Latin1Stop;
use crate::proved::utf16_transcode::Progress;
use crate::proved::utf16_units::blocks::{units32, units8};
use crate::proved::utf16_units::{first_char_len, Utf16Order};
use core::marker::PhantomData;

/// Writes UTF-16 in Latin-1 to the start of a buffer, up to the first ill-formed sequence or the
/// first character above U+00FF, or as far as the buffer has space. Any bytes are allowed. The
/// other bytes of the buffer are unchanged.
///
/// A buffer of half as many bytes as the input is large enough. With such a buffer, a text that is
/// Latin-1, as `inspect` says, is written whole.
///
/// # Complexity
///
/// Linear time in the number of bytes read, in blocks.
///
/// Proved:
///
/// - ensures read: `result.read ≡ 2 * result.written`
/// - ensures within: `result.read ≤ length raw.now`
/// - ensures fits: `result.written ≤ length to.new`
/// - ensures encoding: `Encodes E.BIG (take result.written to.new) (take result.read raw.now)`
/// - ensures rest: `drop result.written to.new ≡ drop result.written to.old`
/// - ensures stop: `StopsLatin1 E.BIG raw.now result.read (length to.new - result.written)
///   result.stop`
/// - ensures space: `length raw.now / 2 ≤ length to.old → result.stop ≢ NoSpace`
/// - ensures succeeds: `IsUtf16 E.BIG raw.now → HasAll Latin1 (text_of E.BIG raw.now) → length
///   raw.now / 2 ≤ length to.old → result.stop ≡ Done`
pub fn to_latin1<E: Utf16Order>(raw: &[u8], to: &mut [u8]) -> Progress<Latin1Stop> {
    let written = write_latin1::<E>(raw, to);
    Progress {
        read: 2 * written,
        written,
        stop: stop_before::<E>(&raw[2 * written..]),
    }
}

// Why a call stops before the rest. The buffer is full if a character that Latin-1 has follows.
//
// Proved:
//
// - ensures `StopsLatin1Here E.BIG rest.now result`
#[inline(always)]
fn stop_before<E: Utf16Order>(rest: &[u8]) -> Latin1Stop {
    if rest.is_empty() {
        return Latin1Stop::Done;
    }
    match first_char_len::<E>(rest) {
        Err(Some(len)) => Latin1Stop::IllFormed(len),
        Err(None) => Latin1Stop::Incomplete,
        Ok(_) => {
            if E::read_unit(crate::proved::kit::two(rest, 0)) < 0x100 {
                Latin1Stop::NoSpace
            } else {
                Latin1Stop::NotLatin1
            }
        }
    }
}

// Writes the code units up to 0xFF at the start of the bytes, as far as they fit, and returns how
// many.
//
// Proved:
//
// - ensures narrowed: `IsNarrowed E.BIG raw.now to.old to.new result`
// - ensures stop: `2 * result + 2 ≤ length raw.now → result < length to.new → 0x100 ≤ unit_of E.BIG
//   (slice_index raw.now (2 * result)) (slice_index raw.now (2 * result + 1))`
#[inline(always)]
fn write_latin1<E: Utf16Order>(raw: &[u8], to: &mut [u8]) -> usize {
    let most = (raw.len() / 2).min(to.len());
    let at = repeat_block::<Narrow<E>, 32>(raw, to, 0, most);
    let at = repeat_block::<Narrow<E>, 8>(raw, to, at, most);
    repeat_block::<Narrow<E>, 1>(raw, to, at, most)
}

// Code units up to 0xFF, to Latin-1.
struct Narrow<E: Utf16Order>(PhantomData<E>);

impl<E: Utf16Order> Fixed for Narrow<E> {
    type From = u8;

    type To = u8;
}

impl<E: Utf16Order> Block<32> for Narrow<E> {
    #[inline(always)]
    fn write(raw: &[u8], to: &mut [u8], at: usize) -> usize {
        let units = units32::<E>(u8x64::from_slice(&raw[2 * at..]));
        if !are_below(units, 0x100) {
            return 0;
        }
        latin1_bytes(units).copy_to_slice(&mut to[at..]);
        32
    }
}

impl<E: Utf16Order> Block<8> for Narrow<E> {
    #[inline(always)]
    fn write(raw: &[u8], to: &mut [u8], at: usize) -> usize {
        let units = units8::<E>(u8x16::from_slice(&raw[2 * at..]));
        if !are_below(units, 0x100) {
            return 0;
        }
        latin1_bytes(units).copy_to_slice(&mut to[at..]);
        8
    }
}

impl<E: Utf16Order> Block<1> for Narrow<E> {
    #[inline(always)]
    fn write(raw: &[u8], to: &mut [u8], at: usize) -> usize {
        let unit = E::read_unit([raw[2 * at], raw[2 * at + 1]]);
        if unit >= 0x100 {
            return 0;
        }
        to[at] = unit as u8;
        1
    }
}

// The code units as bytes.
//
// Proved:
//
// - requires `All (λ unit. unit < 0x100) units`
// - ensures `result ≡ units.entry`
#[inline(always)]
fn latin1_bytes<const N: usize>(units: Simd<u16, N>) -> Simd<u8, N> {
    units.cast::<u8>()
}
