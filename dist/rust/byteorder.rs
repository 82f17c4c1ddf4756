//! What the crates use of the crate `byteorder`, for a crate that does without it. This is written
//! by hand, and tested, not proved.

/// A byte order.
pub trait ByteOrder {
    /// Reads a number from the first two bytes.
    fn read_u16(bytes: &[u8]) -> u16;

    /// Writes a number to the first two bytes.
    fn write_u16(bytes: &mut [u8], number: u16);
}

/// Big endian.
#[derive(Debug)]
pub enum BigEndian {}

/// Little endian.
#[derive(Debug)]
pub enum LittleEndian {}

impl ByteOrder for BigEndian {
    #[inline(always)]
    fn read_u16(bytes: &[u8]) -> u16 {
        u16::from_be_bytes([bytes[0], bytes[1]])
    }

    #[inline(always)]
    fn write_u16(bytes: &mut [u8], number: u16) {
        bytes[..2].copy_from_slice(&number.to_be_bytes());
    }
}

impl ByteOrder for LittleEndian {
    #[inline(always)]
    fn read_u16(bytes: &[u8]) -> u16 {
        u16::from_le_bytes([bytes[0], bytes[1]])
    }

    #[inline(always)]
    fn write_u16(bytes: &mut [u8], number: u16) {
        bytes[..2].copy_from_slice(&number.to_le_bytes());
    }
}
