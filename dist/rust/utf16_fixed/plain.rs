// packaging/erase wrote this from crates/utf16_fixed/src/plain.rt: do not edit it.
//! Code units without a surrogate, widened to UTF-32.
//!
//! The last block ends where the last unit does, so some units before it are written again.

use crate::proved::simd::*;
use crate::proved::utf16_fixed::blocks::{write_in_blocks, Block, Fixed};
use crate::proved::utf16_fixed::lanes::has_no_low_surrogate;
use crate::proved::utf16_units::blocks::{units32, units8};
use crate::proved::utf16_units::surrogates::plain_len;
use crate::proved::utf16_units::Utf16Order;
use core::marker::PhantomData;

// Code units that are not surrogates, to UTF-32.
struct Plain<E: Utf16Order>(PhantomData<E>);

impl<E: Utf16Order> Fixed for Plain<E> {
    type From = u8;

    type To = u32;
}

// Writes the code units before the first surrogate to the start of a buffer, as far as they fit,
// and returns how many.
//
// Proved:
//
// - ensures within: `2 * result ≤ length raw.now`
// - ensures fits: `result ≤ length to.new`
// - ensures text: `TranscodesToUtf32 E.BIG (take (2 * result) raw.now) (take result to.new)`
#[inline(always)]
pub(crate) fn write_plain<E: Utf16Order>(raw: &[u8], to: &mut [u32]) -> usize {
    let most = (raw.len() / 2).min(to.len());
    write_in_blocks::<Plain<E>>(raw, to, most)
}

// Thirty-two units, or none.
impl<E: Utf16Order> Block<32> for Plain<E> {
    #[inline(always)]
    fn write(raw: &[u8], to: &mut [u32], at: usize) -> usize {
        let units = units32::<E>(u8x64::from_slice(&raw[2 * at..]));
        if !has_no_low_surrogate(units) {
            return 0;
        }
        put_wide(to, at, units);
        32
    }
}

// The units of eight that are before the first surrogate.
impl<E: Utf16Order> Block<8> for Plain<E> {
    #[inline(always)]
    fn write(raw: &[u8], to: &mut [u32], at: usize) -> usize {
        let units = units8::<E>(u8x16::from_slice(&raw[2 * at..]));
        put_eight(to, at, units);
        plain_len(units)
    }
}

impl<E: Utf16Order> Block<1> for Plain<E> {
    #[inline(always)]
    fn write(raw: &[u8], to: &mut [u32], at: usize) -> usize {
        let unit = E::read_unit([raw[2 * at], raw[2 * at + 1]]);
        if unit / 0x800 == 0x1B {
            return 0;
        }
        to[at] = unit as u32;
        1
    }
}

// Writes thirty-two units at `at`.
//
// Proved:
//
// - requires `at + 32 ≤ length to.old`
// - ensures `take (at + 32) to.new ≡ take at to.old ++ units`
#[inline(always)]
fn put_wide(to: &mut [u32], at: usize, units: u16x32) {
    put_eight(to, at, units.extract::<0, 8>());
    put_eight(to, at + 8, units.extract::<8, 8>());
    put_eight(to, at + 16, units.extract::<16, 8>());
    put_eight(to, at + 24, units.extract::<24, 8>());
}

// Writes eight units at `at`.
//
// Proved:
//
// - requires `at + 8 ≤ length to.old`
// - ensures `take (at + 8) to.new ≡ take at to.old ++ units`
#[inline(always)]
fn put_eight(to: &mut [u32], at: usize, units: u16x8) {
    let wide = units.cast::<u32>();
    // Two stores: on x86-64-v3 they become one. On x86-64-v2 one store becomes two, the later half
    // first, and then a block that is not aligned to 32 bytes takes 1.5 times as long.
    put_four(to, at, wide.extract::<0, 4>());
    put_four(to, at + 4, wide.extract::<4, 4>());
}

// Writes four units at `at`.
//
// Proved:
//
// - requires `at + 4 ≤ length to.old`
// - ensures `take (at + 4) to.new ≡ take at to.old ++ units`
#[inline(always)]
fn put_four(to: &mut [u32], at: usize, units: u32x4) {
    units.copy_to_slice(&mut to[at..]);
}
