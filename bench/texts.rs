//! The texts of `calls.rs` and `utf16string.rs`, which are the same in each run.

pub struct Random {
    pub state: u64,
    pub cyrillic: bool,
}

impl Random {
    // Returns a number from `first` to `last`, with the steps of splitmix64.
    pub fn among(&mut self, first: u32, last: u32) -> u32 {
        self.state = self.state.wrapping_add(0x9E37_79B9_7F4A_7C15);
        let mixed = (self.state ^ self.state >> 30).wrapping_mul(0xBF58_476D_1CE4_E5B9);
        let mixed = (mixed ^ mixed >> 27).wrapping_mul(0x94D0_49BB_1331_11EB);
        first + ((mixed ^ mixed >> 31) >> 32) as u32 % (last - first + 1)
    }

    pub fn next(&mut self, class: &str) -> u32 {
        match (class, self.among(0, 7)) {
            ("ascii", _) => self.among(0x20, 0x7E),
            ("latin_cyrillic", 0) => {
                // A space, and then a word in either script.
                self.cyrillic = self.among(0, 1) == 1;
                0x20
            }
            ("latin_cyrillic", _) if self.cyrillic => self.among(0x430, 0x44F),
            ("latin_cyrillic", 1 | 2) => self.among(0xE0, 0x17F),
            ("latin_cyrillic", _) | ("emoji", 0 | 1) => self.among(0x61, 0x7A),
            ("emoji", _) => self.among(0x1F300, 0x1F64F),
            ("cjk", _) => self.among(0x4E00, 0x9FFF),
            _ => self.among(0, 0xFFFF),
        }
    }
}

/// Returns a text of a class, or random bytes, as UTF-16 of this length in bytes. If the last
/// character does not fit, it is a letter.
pub fn utf16(class: &str, big: bool, len: usize) -> Vec<u8> {
    let (mut random, mut bytes) = (Random { state: 1, cyrillic: false }, Vec::new());
    while bytes.len() < len {
        let (next, mut pair) = (random.next(class), [0; 2]);
        let units = match char::from_u32(next) {
            Some(c) => (if bytes.len() + 2 * c.len_utf16() <= len { c } else { 'a' }).encode_utf16(&mut pair),
            None => &mut [next as u16][..],
        };
        bytes.extend(units.iter().flat_map(|unit| if big { unit.to_be_bytes() } else { unit.to_le_bytes() }));
    }
    bytes
}
