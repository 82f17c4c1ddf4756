use crate::ffi;

/// The byte order of UTF-16.
#[repr(u32)]
#[derive(Clone, Copy, Debug, Eq, Hash, PartialEq)]
pub enum ByteOrder {
    /// UTF-16LE: the low byte of a code unit comes first.
    LittleEndian = 0,
    /// UTF-16BE: the high byte of a code unit comes first.
    BigEndian = 1,
}

impl ByteOrder {
    /// The byte order of a `u16` on this machine.
    pub const NATIVE: ByteOrder =
        if cfg!(target_endian = "big") { ByteOrder::BigEndian } else { ByteOrder::LittleEndian };
}

/// The byte order of a stream, and the length of the byte order mark at its start.
#[derive(Clone, Copy, Debug, Eq, PartialEq)]
pub struct Bom {
    /// The length of the byte order mark: 2, or 0 if there is none. The text follows it.
    pub len: usize,
    /// The byte order that the byte order mark gives, or the default without one.
    pub byte_order: ByteOrder,
}

/// Returns the byte order that the byte order mark at the start of a stream gives, or the default
/// without one, or `None` if fewer than two bytes have come. The Unicode Standard says big endian
/// for a stream without a mark; most files from Windows are little endian.
#[must_use]
pub fn detect_bom(bytes: &[u8], default_order: ByteOrder) -> Option<Bom> {
    // SAFETY: the pointer and the length come from a slice.
    let found = unsafe { ffi::detect_bom(default_order, bytes.as_ptr(), bytes.len()) };
    let byte_order = match found.byte_order {
        0 => ByteOrder::LittleEndian,
        _ => ByteOrder::BigEndian,
    };
    let len = found.len;
    (found.status < 2).then_some(Bom { len, byte_order })
}
