// packaging/erase wrote this from crates/utf16_fixed/src/basic.rt: do not edit it.
//! Characters of one UTF-16 code unit each, narrowed from UTF-32.
//!
//! The last block ends where the last code unit does, so some units before it are written again.

use crate::proved::simd::*;
use crate::proved::utf16_fixed::blocks::{write_in_blocks, Block, Fixed};
use crate::proved::utf16_fixed::lanes::{are_basic, basic_len, low_units};
use crate::proved::utf16_fixed::stores::{put_half, put_sixteen};
use crate::proved::utf16_transcode::put;
use crate::proved::utf16_units::blocks::units8;
use crate::proved::utf16_units::Utf16Order;
use core::marker::PhantomData;

// Characters of one UTF-16 code unit each, from UTF-32.
struct Basic<E: Utf16Order>(PhantomData<E>);

impl<E: Utf16Order> Fixed for Basic<E> {
    type From = u32;

    type To = u8;
}

// Writes the characters of one UTF-16 code unit each at the start of UTF-32 to the start of a
// buffer, as far as they fit, and returns how many.
//
// Proved:
//
// - ensures within: `result ≤ length utf32.now`
// - ensures fits: `2 * result ≤ length to.new`
// - ensures text: `TranscodesFromUtf32 E.BIG (take result utf32.now) (take (2 * result) to.new)`
#[inline(always)]
pub(crate) fn write_basic<E: Utf16Order>(utf32: &[u32], to: &mut [u8]) -> usize {
    let most = utf32.len().min(to.len() / 2);
    write_in_blocks::<Basic<E>>(utf32, to, most)
}

// Thirty-two characters, or none.
impl<E: Utf16Order> Block<32> for Basic<E> {
    #[inline(always)]
    fn write(utf32: &[u32], to: &mut [u8], at: usize) -> usize {
        let first = low_units(u32x16::from_slice(&utf32[at..]));
        let second = low_units(u32x16::from_slice(&utf32[at + 16..]));
        if !are_basic(first, second) {
            return 0;
        }
        put_sixteen::<E>(to, 2 * at, first);
        put_sixteen::<E>(to, 2 * (at + 16), second);
        32
    }
}

// The characters of eight that are before another one.
impl<E: Utf16Order> Block<8> for Basic<E> {
    #[inline(always)]
    fn write(utf32: &[u32], to: &mut [u8], at: usize) -> usize {
        let units = u32x8::from_slice(&utf32[at..]);
        let low = low_units(units);
        put_half(to, 2 * at, bytes8::<E>(low));
        basic_len(units, low)
    }
}

impl<E: Utf16Order> Block<1> for Basic<E> {
    #[inline(always)]
    fn write(utf32: &[u32], to: &mut [u8], at: usize) -> usize {
        let unit = utf32[at];
        if unit > 0xFFFF || unit / 0x800 == 0x1B {
            return 0;
        }
        put(&E::write_unit(unit as u16), to, 2 * at);
        1
    }
}

// The sixteen bytes of eight units. Read in an order, the bytes of little endian give units whose
// bytes in little endian are the bytes of the order.
//
// Proved:
//
// - ensures len: `length result ≡ 16`
// - ensures bytes: `result ≡ flat_map (unit_bytes E.BIG) units`
#[inline(always)]
fn bytes8<E: Utf16Order>(units: u16x8) -> u8x16 {
    units8::<E>(units.to_le_bytes()).to_le_bytes()
}
