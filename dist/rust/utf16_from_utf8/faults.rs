// packaging/erase wrote this from crates/utf16_from_utf8/src/faults.rt: do not edit it.
//! Finds bytes that may not follow the bytes before them.

use crate::proved::simd::*;
use crate::proved::utf16_from_utf8::lanes::{each, greater, sum, where_below};

// Not zero where a byte may not follow the three before it. All four belong to characters of at
// most `MOST` bytes.
//
// Proved:
//
// - ensures `(i : ℕ) → i < 16 → slice_index b3 i < limit_of MOST → slice_index b2 i < limit_of MOST
//   → slice_index b1 i < limit_of MOST → slice_index b0 i < limit_of MOST → (slice_index result i
//   < 1) ↔ Follows (slice_index b3 i) (slice_index b2 i) (slice_index b1 i) (slice_index b0 i)`
#[inline(always)]
pub(crate) fn faults<const MOST: usize>(b3: u8x16, b2: u8x16, b1: u8x16, b0: u8x16) -> u8x16 {
    if MOST == 2 {
        return faults_of_two(b1, b0);
    }
    if MOST == 3 {
        return faults_of_three(b2, b1, b0);
    }
    faults_of_four(b3, b2, b1, b0)
}

// Proved:
//
// - ensures `(i b3 b2 : ℕ) → i < 16 → b3 < 0xE0 → b2 < 0xE0 → slice_index b1 i < 0xE0 → slice_index
//   b0 i < 0xE0 → (slice_index result i < 1) ↔ Follows b3 b2 (slice_index b1 i) (slice_index b0 i)`
#[inline(always)]
fn faults_of_two(b1: u8x16, b0: u8x16) -> u8x16 {
    let (continues, others) = continuations(b0);
    greater(where_below(b1, 0xC0, continues, others), overlong(b0))
}

// Proved:
//
// - ensures `(i b3 : ℕ) → i < 16 → b3 < 0xF0 → slice_index b2 i < 0xF0 → slice_index b1 i < 0xF0 →
//   slice_index b0 i < 0xF0 → (slice_index result i < 1) ↔ Follows b3 (slice_index b2 i)
//   (slice_index b1 i) (slice_index b0 i)`
#[inline(always)]
fn faults_of_three(b2: u8x16, b1: u8x16, b0: u8x16) -> u8x16 {
    let (continues, others) = continuations(b0);
    let begun = greater(above(b1, 0xBF), above(b2, 0xDF));
    let misplaced = where_below(begun, 1, continues, others);
    greater(
        misplaced,
        greater(overlong(b0), out_of_range_of_three(b1, b0)),
    )
}

// Proved:
//
// - ensures `(i : ℕ) → i < 16 → (slice_index result i < 1) ↔ Follows (slice_index b3 i)
//   (slice_index b2 i) (slice_index b1 i) (slice_index b0 i)`
#[inline(always)]
fn faults_of_four(b3: u8x16, b2: u8x16, b1: u8x16, b0: u8x16) -> u8x16 {
    let (continues, others) = continuations(b0);
    let begun = greater(greater(above(b1, 0xBF), above(b2, 0xDF)), above(b3, 0xEF));
    let misplaced = where_below(begun, 1, continues, others);
    let three = out_of_range_of_three(b1, b0);
    let four = out_of_range_of_four(b1, b0);
    greater(greater(misplaced, overlong(b0)), greater(three, four))
}

// Not zero where a byte is above a limit.
//
// Proved:
//
// - requires `0 < limit`
// - ensures `(i : ℕ) → i < 16 → (slice_index result i < 1) ↔ (slice_index v i ≤ limit)`
#[inline(always)]
fn above(v: u8x16, limit: u8) -> u8x16 {
    sum(greater(v, each(limit)), each(255 - limit + 1))
}

// Not zero where a byte is a continuation byte, and not zero where it is another byte.
//
// Proved:
//
// - ensures continues: `(i : ℕ) → i < 16 → (slice_index result.0 i < 1) ↔ ((slice_index b0 i <
//   0x80) ⊎ (0xC0 ≤ slice_index b0 i))`
// - ensures others: `(i : ℕ) → i < 16 → (slice_index result.1 i < 1) ↔ ((0x80 ≤ slice_index b0 i) ×
//   (slice_index b0 i < 0xC0))`
#[inline(always)]
fn continuations(b0: u8x16) -> (u8x16, u8x16) {
    let turned = sum(b0, each(0x80));
    (
        where_below(turned, 0x40, each(0xFF), each(0)),
        where_below(turned, 0x40, each(0), each(0xFF)),
    )
}

// Not zero where a byte begins a character of two bytes that would fit into one.
//
// Proved:
//
// - ensures `(i : ℕ) → i < 16 → (slice_index result i < 1) ↔ ((slice_index b0 i < 0xC0) ⊎ (0xC2 ≤
//   slice_index b0 i))`
#[inline(always)]
fn overlong(b0: u8x16) -> u8x16 {
    where_below(sum(b0, each(0x40)), 2, each(0xFF), each(0))
}

// Not zero where the second byte of three is out of its range.
//
// Proved:
//
// - ensures `(i : ℕ) → i < 16 → (slice_index result i < 1) ↔ ((slice_index b1 i ≡ 0xE0 → 0xA0 ≤
//   slice_index b0 i) × (slice_index b1 i ≡ 0xED → slice_index b0 i < 0xA0))`
#[inline(always)]
fn out_of_range_of_three(b1: u8x16, b0: u8x16) -> u8x16 {
    let low = where_below(b0, 0xA0, each(0xFF), each(0));
    let high = where_below(b0, 0xA0, each(0), each(0xFF));
    let least = where_below(sum(b1, each(0x20)), 1, low, each(0));
    let most = where_below(sum(b1, each(0x13)), 1, high, each(0));
    greater(least, most)
}

// Not zero where the second byte of four is out of its range, and where a byte would begin a
// character above U+10FFFF.
//
// Proved:
//
// - ensures `(i : ℕ) → i < 16 → (slice_index result i < 1) ↔ ((slice_index b1 i ≡ 0xF0 → 0x90 ≤
//   slice_index b0 i) × (slice_index b1 i ≡ 0xF4 → slice_index b0 i < 0x90) × (slice_index b0 i <
//   0xF5))`
#[inline(always)]
fn out_of_range_of_four(b1: u8x16, b0: u8x16) -> u8x16 {
    let low = where_below(b0, 0x90, each(0xFF), each(0));
    let high = where_below(b0, 0x90, each(0), each(0xFF));
    let least = where_below(sum(b1, each(0x10)), 1, low, each(0));
    let most = where_below(sum(b1, each(0xC)), 1, high, each(0));
    let none = where_below(b0, 0xF5, each(0), each(0xFF));
    greater(none, greater(least, most))
}
