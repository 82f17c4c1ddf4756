// packaging/erase wrote this from crates/utf16_from_utf8/src/pack.rt: do not edit it.
//! The two bytes of each unit next to each other, as pairs. Of the pairs in a vector, those whose
//! bit is set are stored contiguously.

use crate::proved::simd::*;
use crate::proved::utf16_from_utf8::positions::positions;
use crate::proved::utf16_units::Utf16Order;

// Stores the pairs whose bit is set, starting at `at`, and returns their end. Overwrites sixteen
// bytes starting at `at`.
//
// Proved:
//
// - requires bound: `bits < 256`
// - requires space: `at + 16 ≤ length out.old`
// - ensures pairs: `take result out.new ≡ take at out.old ++ kept_pairs bits pairs`
// - ensures written_to: `result ≤ at + 16`
// - ensures within: `result ≤ length out.new`
#[inline(always)]
pub(crate) fn write_eight(out: &mut [u8], at: usize, pairs: u8x16, bits: usize) -> usize {
    pairs
        .swizzle_dyn(positions(bits))
        .copy_to_slice(&mut out[at..]);
    at + 2 * bits.count_ones() as usize
}

/// Stores the pairs of bytes whose bit is set contiguously, starting at `at`, and returns their
/// end. A vector has eight pairs, and the lowest bit is that of the first pair of `first`. The
/// bytes after those stored and before `at + 32` may be overwritten.
///
/// # Precondition
///
/// `bits` is below 0x1_0000, and `out` has 32 bytes at `at`.
///
/// # Complexity
///
/// Constant time.
///
/// Proved:
///
/// - requires bound: `bits < 2 ^ 16`
/// - requires space: `at + 32 ≤ length out.old`
/// - ensures pairs: `take result out.new ≡ take at out.old ++ kept_pairs bits (first ++ second)`
/// - ensures written_to: `result ≤ at + 32`
#[inline(always)]
pub fn write_kept(out: &mut [u8], at: usize, first: u8x16, second: u8x16, bits: u64) -> usize {
    let middle = write_eight(out, at, first, (bits % 256) as usize);
    write_eight(out, middle, second, (bits / 256) as usize)
}

// The two bytes of each unit as a pair: for the first eight units, and for the other eight.
//
// Proved:
//
// - ensures pairs: `result.0 ++ result.1 ≡ pairs_of E.BIG highs lows`
// - ensures first_len: `length result.0 ≡ 16`
// - ensures second_len: `length result.1 ≡ 16`
#[inline(always)]
pub(crate) fn paired<E: Utf16Order>(highs: u8x16, lows: u8x16) -> (u8x16, u8x16) {
    if E::is_big() {
        highs.interleave(lows)
    } else {
        lows.interleave(highs)
    }
}
