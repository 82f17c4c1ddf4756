// packaging/erase wrote this from crates/utf16_from_utf8/src/block.rt: do not edit it.
//! Blocks of sixty-four bytes whose characters have at most two, three or four bytes.
//!
//! A byte is tested with the three before it (Unicode Standard, table 3-7). A block stops before a
//! character that its end would cut, so nothing is carried into the next one.
//!
//! The formula for fewer bytes is the one for four without the cases that cannot occur. `MOST` is a
//! constant, so that no block tests its kind again. Validating with `simdutf8` first takes 2.4
//! times as long on CJK, and 1.25 times on emoji.

use crate::proved::simd::*;
use crate::proved::utf16_from_utf8::faults::faults;
use crate::proved::utf16_from_utf8::lanes::{greater, previous_lanes};
use crate::proved::utf16_from_utf8::limits::are_below;
use crate::proved::utf16_from_utf8::sixteen::write_sixteen;
use crate::proved::utf16_units::{Moved, Utf16Order};

// Writes the next sixty-four bytes, whose characters have at most `MOST` bytes, without the bytes
// of a character that does not end among them. Writes nothing if they are ill formed.
//
// Proved:
//
// - requires space: `from.written + 128 ≤ length out.old`
// - requires more: `from.read + 64 ≤ length bytes.now`
// - requires below: `AreBelow 64 bytes.now from.read (limit_of MOST)`
// - requires written: `IsWritten E.BIG bytes.now out.old from.read from.written`
// - ensures written: `IsWritten E.BIG bytes.now out.new result.read result.written`
// - ensures advances: `from.read ≤ result.read`
// - ensures stop: `result.read ≡ from.read → ¬ (IsBlock bytes.now from.read)`
#[inline(always)]
pub(crate) fn write_block<E: Utf16Order, const MOST: usize>(
    bytes: &[u8],
    out: &mut [u8],
    from: Moved,
) -> Moved {
    if !are_well_formed::<MOST>(bytes, from.read) {
        return from;
    }
    write_well_formed::<E, MOST>(bytes, out, from)
}

// Writes the next sixty-four bytes, which begin a well-formed text, without the bytes of a
// character that does not end among them.
//
// Proved:
//
// - requires space: `from.written + 128 ≤ length out.old`
// - requires more: `from.read + 64 ≤ length bytes.now`
// - requires below: `AreBelow 64 bytes.now from.read (limit_of MOST)`
// - requires follow: `FollowTo 64 bytes.now from.read`
// - requires written: `IsWritten E.BIG bytes.now out.old from.read from.written`
// - ensures written: `IsWritten E.BIG bytes.now out.new result.read result.written`
// - ensures advances: `from.read < result.read`
#[inline(always)]
fn write_well_formed<E: Utf16Order, const MOST: usize>(
    bytes: &[u8],
    out: &mut [u8],
    from: Moved,
) -> Moved {
    let end = write_all::<E, MOST>(bytes, out, from);
    let used = used::<MOST>(bytes, from.read);
    if used + 3 == 64 {
        // The first three bytes of a character have added its leading surrogate: leave it out.
        Moved {
            read: from.read + used,
            written: end - 2,
        }
    } else {
        Moved {
            read: from.read + used,
            written: end,
        }
    }
}

// Whether the next sixty-four bytes begin a well-formed text.
//
// Proved:
//
// - requires more: `at + 64 ≤ length bytes.now`
// - requires below: `AreBelow 64 bytes.now at (limit_of MOST)`
// - ensures `IsTrue result ↔ FollowTo 64 bytes.now at`
#[inline(always)]
fn are_well_formed<const MOST: usize>(bytes: &[u8], at: usize) -> bool {
    let mut all = first_faults::<MOST>(bytes, at);
    let mut k = 16;
    while k < 64 {
        let next = faults_at::<MOST>(bytes, at + k);
        all = greater(all, next);
        k += 16;
    }
    are_below(all, 1)
}

// Not zero where one of the sixteen bytes at `at` may not follow the bytes before it, if a text
// begins there.
//
// Proved:
//
// - requires more: `at + 16 ≤ length bytes.now`
// - requires below: `AreBelow 16 bytes.now at (limit_of MOST)`
// - ensures `((i : ℕ) → i < 16 → slice_index result i < 1) ↔ FollowTo 16 bytes.now at`
#[inline(always)]
fn first_faults<const MOST: usize>(bytes: &[u8], at: usize) -> u8x16 {
    let first = u8x16::from_slice(&bytes[at..]);
    let (b2, b1) = before(first, 0, 0);
    faults::<MOST>(previous_lanes(b2, 0), b2, b1, first)
}

// Not zero where one of the sixteen bytes at `at` may not follow the three before it.
//
// Proved:
//
// - requires some: `3 ≤ at`
// - requires more: `at + 16 ≤ length bytes.now`
// - requires below: `AreBelow 19 bytes.now (at - 3) (limit_of MOST)`
// - ensures `(i : ℕ) → i < 16 → (slice_index result i < 1) ↔ Follows (slice_index bytes.now (at -
//   3 + i)) (slice_index bytes.now (at - 2 + i)) (slice_index bytes.now (at - 1 + i)) (slice_index
//   bytes.now (at + i))`
#[inline(always)]
pub(crate) fn faults_at<const MOST: usize>(bytes: &[u8], at: usize) -> u8x16 {
    let (b2, b1) = before_at(bytes, at);
    let b3 = u8x16::from_slice(&bytes[at - 3..]);
    faults::<MOST>(b3, b2, b1, u8x16::from_slice(&bytes[at..]))
}

// Writes the units that end in the next sixty-four bytes, which begin a well-formed text.
//
// Proved:
//
// - requires more: `from.read + 64 ≤ length bytes.now`
// - requires space: `from.written + 128 ≤ length out.old`
// - requires below: `AreBelow 64 bytes.now from.read (limit_of MOST)`
// - requires follow: `FollowTo 64 bytes.now from.read`
// - ensures bytes: `take result out.new ≡ take from.written out.old ++ added_bytes E.BIG 0 0 (take
//   64 (drop from.read bytes.now))`
// - ensures written_to: `result ≤ from.written + 128`
#[inline(always)]
fn write_all<E: Utf16Order, const MOST: usize>(bytes: &[u8], out: &mut [u8], from: Moved) -> usize {
    let read = from.read;
    let first = u8x16::from_slice(&bytes[read..]);
    let (b2, b1) = before(first, 0, 0);
    let mut end = write_sixteen::<E, MOST>(out, from.written, b2, b1, first);
    let mut k = 16;
    while k < 64 {
        let (b2, b1) = before_at(bytes, read + k);
        let block = u8x16::from_slice(&bytes[read + k..]);
        end = write_sixteen::<E, MOST>(out, end, b2, b1, block);
        k += 16;
    }
    end
}

// For each byte of a block, the byte two before it, and the byte before it.
//
// Proved:
//
// - ensures `AreBefore before2 before1 block result.0 result.1`
#[inline(always)]
pub(crate) fn before(block: u8x16, before2: u8, before1: u8) -> (u8x16, u8x16) {
    let b1 = previous_lanes(block, before1);
    (previous_lanes(b1, before2), b1)
}

// For each byte of the block at `at`, the byte two before it, and the byte before it.
//
// Proved:
//
// - requires some: `2 ≤ at`
// - requires more: `at + 16 ≤ length bytes.now`
// - ensures `AreBefore (slice_index bytes.now (at - 2)) (slice_index bytes.now (at - 1)) (take 16
//   (drop at bytes.now)) result.0 result.1`
#[inline(always)]
pub(crate) fn before_at(bytes: &[u8], at: usize) -> (u8x16, u8x16) {
    (
        u8x16::from_slice(&bytes[at - 2..]),
        u8x16::from_slice(&bytes[at - 1..]),
    )
}

// How many of the next sixty-four bytes belong to characters that end among them.
//
// Proved:
//
// - requires more: `at + 64 ≤ length bytes.now`
// - requires below: `AreBelow 64 bytes.now at (limit_of MOST)`
// - ensures `AreUsed 64 bytes.now at result`
#[inline(always)]
fn used<const MOST: usize>(bytes: &[u8], at: usize) -> usize {
    if MOST == 2 {
        return used_of_two(bytes, at);
    }
    if MOST == 3 {
        return used_of_three(bytes, at);
    }
    used_of_four(bytes, at)
}

// Proved:
//
// - requires more: `at + 64 ≤ length bytes.now`
// - requires no_four: `slice_index bytes.now (at + 61) < 0xF0`
// - requires no_three: `slice_index bytes.now (at + 62) < 0xE0`
// - ensures `AreUsed 64 bytes.now at result`
#[inline(always)]
fn used_of_two(bytes: &[u8], at: usize) -> usize {
    if bytes[at + 63] >= 0xC0 {
        return 63;
    }
    64
}

// Proved:
//
// - requires more: `at + 64 ≤ length bytes.now`
// - requires no_four: `slice_index bytes.now (at + 61) < 0xF0`
// - ensures `AreUsed 64 bytes.now at result`
#[inline(always)]
fn used_of_three(bytes: &[u8], at: usize) -> usize {
    if bytes[at + 62] >= 0xE0 {
        return 62;
    }
    used_of_two(bytes, at)
}

// Proved:
//
// - requires more: `at + 64 ≤ length bytes.now`
// - ensures `AreUsed 64 bytes.now at result`
#[inline(always)]
fn used_of_four(bytes: &[u8], at: usize) -> usize {
    if bytes[at + 61] >= 0xF0 {
        return 61;
    }
    used_of_three(bytes, at)
}
