// packaging/erase wrote this from crates/utf16_units/src/byte_order.rt: do not edit it.
//! The two byte orders of a code unit.

use crate::proved::byteorder::ByteOrder;
pub use crate::proved::byteorder::{BigEndian, LittleEndian};

/// Big endian, the high byte of a code unit first.
pub type BE = BigEndian;

/// Little endian, the low byte of a code unit first.
pub type LE = LittleEndian;

/// A byte order of UTF-16: how a code unit is stored as two bytes.
pub trait Utf16Order {
    /// Whether the high byte comes first.
    fn is_big() -> bool;

    /// Returns the code unit of two bytes in this byte order.
    ///
    /// Proved:
    ///
    /// - ensures `result ≡ unit_of BIG (slice_index two 0) (slice_index two 1)`
    fn read_unit(two: [u8; 2]) -> u16;

    /// Returns the two bytes of a code unit in this byte order.
    ///
    /// Proved:
    ///
    /// - ensures `result ≡ unit_bytes BIG unit`
    fn write_unit(unit: u16) -> [u8; 2];
}

impl<O: ByteOrder> Utf16Order for O {
    #[inline(always)]
    fn is_big() -> bool {
        O::read_u16(&[0, 1]) == 1
    }

    #[inline]
    fn read_unit(two: [u8; 2]) -> u16 {
        O::read_u16(&two)
    }

    #[inline]
    fn write_unit(unit: u16) -> [u8; 2] {
        let mut two = [0; 2];
        O::write_u16(&mut two, unit);
        two
    }
}

/// Returns the byte order that a byte order mark (BOM) at the start of a stream gives:
/// `Some(true)`, big endian, for `FE FF`, `Some(false)`, little endian, for `FF FE`, and `None` for
/// any other two bytes.
///
/// # Source
///
/// Unicode, section 23.8: byte order mark.
///
/// Proved:
///
/// - ensures big: `(result ≡ Some true) ↔ (first_two ≡ 0xFE ∷ 0xFF ∷ [])`
/// - ensures little: `(result ≡ Some false) ↔ (first_two ≡ 0xFF ∷ 0xFE ∷ [])`
#[inline]
pub fn bom_of(first_two: [u8; 2]) -> Option<bool> {
    match first_two {
        [0xFE, 0xFF] => Some(true),
        [0xFF, 0xFE] => Some(false),
        _ => None,
    }
}
