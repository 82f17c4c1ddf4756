// packaging/erase wrote this from crates/utf16_fixed/src/stores.rt: do not edit it.
//! Stores of sixteen bytes.

use crate::proved::simd::*;
use crate::proved::utf16_units::blocks::bytes16;
use crate::proved::utf16_units::Utf16Order;

// Writes sixteen units at `at`.
//
// Proved:
//
// - requires `at + 32 ≤ length to.old`
// - ensures bytes: `take (at + 32) to.new ≡ take at to.old ++ flat_map (unit_bytes E.BIG) units`
// - ensures rest: `drop (at + 32) to.new ≡ drop (at + 32) to.old`
#[inline(always)]
pub(crate) fn put_sixteen<E: Utf16Order>(to: &mut [u8], at: usize, units: u16x16) {
    let bytes = bytes16::<E>(units);
    // Two stores: on x86-64-v3 they become one. On x86-64-v2 one store becomes two, the later half
    // first, and then a block takes 1.6 times as long.
    put_half(to, at, bytes.extract::<0, 16>());
    put_half(to, at + 16, bytes.extract::<16, 16>());
}

// Writes sixteen bytes at `at`.
//
// Proved:
//
// - requires `at + 16 ≤ length to.old`
// - ensures bytes: `take (at + 16) to.new ≡ take at to.old ++ bytes`
// - ensures rest: `drop (at + 16) to.new ≡ drop (at + 16) to.old`
#[inline(always)]
pub(crate) fn put_half(to: &mut [u8], at: usize, bytes: u8x16) {
    bytes.copy_to_slice(&mut to[at..]);
}
