//! Plain loops with the structure of the Rust crate `utf16string` 0.2.0: they read one code unit
//! after another with `chunks_exact(2)`, and after a leading surrogate the next one. The crate's
//! `is_ascii` tests the bytes; `is_ascii` here tests the code units, which is a different question.
//! The crate's conversions trust their input and fill a `String` or `Vec` that grows; the
//! conversions here validate it and write to a buffer.

fn unit<const BIG: bool>(bytes: &[u8]) -> u16 {
    if BIG { u16::from_be_bytes([bytes[0], bytes[1]]) } else { u16::from_le_bytes([bytes[0], bytes[1]]) }
}

fn is_leading(unit: u16) -> bool {
    unit & 0xFC00 == 0xD800
}

fn is_trailing(unit: u16) -> bool {
    unit & 0xFC00 == 0xDC00
}

pub fn valid_up_to<const BIG: bool>(raw: &[u8]) -> usize {
    let mut units = raw.chunks_exact(2);
    while let Some(bytes) = units.next() {
        let first = unit::<BIG>(bytes);
        if is_trailing(first) || is_leading(first) && !units.next().is_some_and(|next| is_trailing(unit::<BIG>(next))) {
            return bytes.as_ptr() as usize - raw.as_ptr() as usize;
        }
    }
    raw.len() / 2 * 2
}

pub fn count<const BIG: bool>(raw: &[u8]) -> usize {
    raw.chunks_exact(2).filter(|bytes| !is_trailing(unit::<BIG>(bytes))).count()
}

pub fn is_ascii<const BIG: bool>(raw: &[u8]) -> bool {
    raw.chunks_exact(2).all(|bytes| unit::<BIG>(bytes) < 0x80)
}

// The buffer has four bytes after the text, so that one test of the space suffices for each
// character.
pub fn to_utf8<const BIG: bool>(raw: &[u8], to: &mut [u8]) -> usize {
    let (mut units, mut at) = (raw.chunks_exact(2).map(unit::<BIG>), 0);
    while let Some(first) = units.next() {
        let code = if first & 0xF800 != 0xD800 {
            first as u32
        } else {
            let second = units.next().unwrap();
            assert!(is_leading(first) && is_trailing(second));
            0x10000 + ((first as u32 & 0x3FF) << 10 | second as u32 & 0x3FF)
        };
        let room = &mut to[at..at + 4];
        let next = |shift: u32| 0x80 | (code >> shift & 0x3F) as u8;
        at += match code {
            0..0x80 => {
                room[0] = code as u8;
                1
            }
            0x80..0x800 => {
                room[..2].copy_from_slice(&[0xC0 | (code >> 6) as u8, next(0)]);
                2
            }
            0x800..0x10000 => {
                room[..3].copy_from_slice(&[0xE0 | (code >> 12) as u8, next(6), next(0)]);
                3
            }
            _ => {
                room.copy_from_slice(&[0xF0 | (code >> 18) as u8, next(12), next(6), next(0)]);
                4
            }
        };
    }
    at
}

pub fn from_utf8<const BIG: bool>(text: &[u8], to: &mut [u8]) -> usize {
    let bytes = |unit: u16| if BIG { unit.to_be_bytes() } else { unit.to_le_bytes() };
    let mut at = 0;
    for c in std::str::from_utf8(text).unwrap().chars() {
        let (code, room) = (c as u32, &mut to[at..at + 4]);
        if code < 0x10000 {
            room[..2].copy_from_slice(&bytes(code as u16));
            at += 2;
        } else {
            room[..2].copy_from_slice(&bytes((0xD7C0 + (code >> 10)) as u16));
            room[2..].copy_from_slice(&bytes((0xDC00 | code & 0x3FF) as u16));
            at += 4;
        }
    }
    at
}
