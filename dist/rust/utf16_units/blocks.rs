// packaging/erase wrote this from crates/utf16_units/src/blocks.rt: do not edit it.
//! Blocks of bytes read as code units with SIMD, and blocks of code units written as bytes.
//!
//! In big endian two shifts swap the bytes of each unit, so every other module has one formula for
//! both byte orders.

use crate::proved::simd::*;
use crate::proved::utf16_units::Utf16Order;

// The four code units of a block of 8 bytes.
//
// Proved:
//
// - ensures len: `length result ≡ 4`
// - ensures units: `result ≡ units_of E.BIG block`
#[inline(always)]
pub(crate) fn units4<E: Utf16Order>(block: u8x8) -> u16x4 {
    in_order::<E, 4>(u16x4::from_le_bytes(block))
}

/// Returns the eight code units of a block of 16 bytes.
///
/// Proved:
///
/// - ensures len: `length result ≡ 8`
/// - ensures units: `result ≡ units_of E.BIG block`
#[inline(always)]
pub fn units8<E: Utf16Order>(block: u8x16) -> u16x8 {
    in_order::<E, 8>(u16x8::from_le_bytes(block))
}

/// Returns the sixteen code units of a block of 32 bytes.
///
/// Proved:
///
/// - ensures len: `length result ≡ 16`
/// - ensures units: `result ≡ units_of E.BIG block`
#[inline(always)]
pub fn units16<E: Utf16Order>(block: u8x32) -> u16x16 {
    in_order::<E, 16>(u16x16::from_le_bytes(block))
}

/// Returns the thirty-two code units of a block of 64 bytes.
///
/// Proved:
///
/// - ensures len: `length result ≡ 32`
/// - ensures units: `result ≡ units_of E.BIG block`
#[inline(always)]
pub fn units32<E: Utf16Order>(block: u8x64) -> u16x32 {
    in_order::<E, 32>(u16x32::from_le_bytes(block))
}

/// Returns the 32 bytes of sixteen code units.
///
/// Proved:
///
/// - ensures len: `length result ≡ 32`
/// - ensures bytes: `result ≡ flat_map (unit_bytes E.BIG) units`
#[inline(always)]
pub fn bytes16<E: Utf16Order>(units: u16x16) -> u8x32 {
    in_order::<E, 16>(units).to_le_bytes()
}

// Whether thirty-two code units are ASCII: no byte is above the byte of U+007F at its position.
//
// Proved:
//
// - ensures `IsTrue result ↔ All (λ unit. unit < 0x80) (units_of E.BIG block)`
#[inline(always)]
pub(crate) fn is_ascii_block<E: Utf16Order>(block: u8x64) -> bool {
    let last = E::write_unit(0x7F);
    let (limits, _) = u8x64::splat(last[0]).interleave(u8x64::splat(last[1]));
    block.simd_gt(limits).to_bitmask() == 0
}

// Converts code units from little endian to the byte order `E`, or back.
//
// Proved:
//
// - ensures `result ≡ if E.BIG then map swapped units.entry else units.entry`
#[inline(always)]
fn in_order<E: Utf16Order, const N: usize>(units: Simd<u16, N>) -> Simd<u16, N> {
    if E::is_big() {
        swapped(units)
    } else {
        units
    }
}

// The code units with their two bytes swapped.
//
// Proved:
//
// - ensures `result ≡ map swapped units.entry`
#[inline(always)]
fn swapped<const N: usize>(units: Simd<u16, N>) -> Simd<u16, N> {
    (units << Simd::splat(8)) + (units >> Simd::splat(8))
}
