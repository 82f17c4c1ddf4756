//! Random texts, and bytes that are nearly texts.

use dethrux::ByteOrder::{self, BigEndian, LittleEndian};

/// The bytes of a code unit.
pub fn bytes_of(order: ByteOrder, unit: u16) -> [u8; 2] {
    match order {
        LittleEndian => unit.to_le_bytes(),
        BigEndian => unit.to_be_bytes(),
    }
}

/// What a conversion reads: bytes, or code units of UTF-32.
pub trait Element: Sized {
    /// Returns input of this kind.
    fn input(random: &mut Random, kind: &str, order: ByteOrder) -> Vec<Self>;
}

impl Element for u8 {
    fn input(random: &mut Random, kind: &str, order: ByteOrder) -> Vec<u8> {
        match kind {
            "utf16" => random.utf16(order),
            _ => random.utf8(),
        }
    }
}

impl Element for u32 {
    fn input(random: &mut Random, _: &str, _: ByteOrder) -> Vec<u32> {
        random.utf32()
    }
}

/// A generator of numbers: xorshift.
pub struct Random(u64);

impl Random {
    pub fn new(seed: u64) -> Self {
        Random(0x9E37_79B9_7F4A_7C15 ^ seed)
    }

    pub fn next(&mut self) -> u64 {
        self.0 ^= self.0 << 13;
        self.0 ^= self.0 >> 7;
        self.0 ^= self.0 << 17;
        self.0
    }

    /// Returns a number below another one.
    pub fn below(&mut self, limit: usize) -> usize {
        (self.next() >> 16) as usize % limit.max(1)
    }

    pub fn order(&mut self) -> ByteOrder {
        [LittleEndian, BigEndian][self.below(2)]
    }

    /// Returns a character of one of the ranges that the code tells apart.
    fn char_of(&mut self, range: usize) -> char {
        let ranges = [(0, 0x80), (0x80, 0x100), (0x80, 0x800), (0x800, 0xD800), (0xE000, 0x10000)];
        let (start, end) = *ranges.get(range).unwrap_or(&(0x10000, 0x11_0000));
        char::from_u32((start + self.below(end - start)) as u32).expect("a character")
    }

    pub fn char(&mut self) -> char {
        let range = self.below(6);
        self.char_of(range)
    }

    /// Returns a text of a few runs, mostly of characters of one range each.
    pub fn text(&mut self) -> String {
        let mut text = String::from(["", "\u{FEFF}"][usize::from(self.below(8) == 0)]);
        for _ in 0..self.below(4) {
            let (range, most) = (self.below(6), [4, 20, 200][self.below(3)]);
            for _ in 0..self.below(most) {
                let is_other = self.below(30) == 0;
                text.push(if is_other { self.char() } else { self.char_of(range) });
            }
        }
        text
    }

    /// Returns code units, some of them surrogates without their pairs.
    pub fn units(&mut self) -> Vec<u16> {
        let mut units: Vec<u16> = self.text().encode_utf16().collect();
        for _ in 0..self.below(4) {
            let at = self.below(units.len() + 1);
            units.insert(at, 0xD800 + self.below(0x800) as u16);
        }
        units
    }

    /// Returns bytes that are nearly UTF-16.
    pub fn utf16(&mut self, order: ByteOrder) -> Vec<u8> {
        let is_text = self.below(2) == 0;
        let units = if is_text { self.text().encode_utf16().collect() } else { self.units() };
        let mut bytes = units.iter().flat_map(|&it| bytes_of(order, it)).collect();
        self.damage_some(&mut bytes);
        bytes
    }

    /// Returns bytes that are nearly UTF-8, or nearly WTF-8.
    pub fn utf8(&mut self) -> Vec<u8> {
        let mut bytes = self.text().into_bytes();
        for _ in 0..self.below(3) {
            // After these first bytes only some bytes may follow, or none.
            let first = [0xC1, 0xE0, 0xED, 0xF0, 0xF4, 0xF5][self.below(6)];
            let mut sequence = vec![first];
            let len = [2, 3, 4][usize::from(first >= 0xE0) + usize::from(first >= 0xF0)];
            sequence.resize_with(len, || 0x80 + self.below(0x40) as u8);
            let mut at = self.below(bytes.len() + 1);
            while bytes.get(at).map_or(false, |byte| byte & 0xC0 == 0x80) {
                at += 1;
            }
            bytes.splice(at..at, sequence);
        }
        self.damage_some(&mut bytes);
        bytes
    }

    /// Returns code units that are nearly UTF-32.
    pub fn utf32(&mut self) -> Vec<u32> {
        let mut units: Vec<u32> = self.text().chars().map(u32::from).collect();
        if !units.is_empty() && self.below(2) == 0 {
            let at = self.below(units.len());
            units[at] = [0xD800, 0xDFFF, 0x11_0000, u32::MAX][self.below(4)];
        }
        units
    }

    /// Returns an offset between two characters.
    pub fn cut(&mut self, text: &str) -> usize {
        let at = self.below(text.len() + 1);
        (0..=at).rev().find(|&at| text.is_char_boundary(at)).unwrap_or(0)
    }

    /// Damages half of the texts.
    fn damage_some(&mut self, bytes: &mut Vec<u8>) {
        if self.below(2) == 0 {
            self.damage(bytes);
        }
    }

    /// Replaces or removes a byte, or cuts off the end.
    pub fn damage(&mut self, bytes: &mut Vec<u8>) {
        if bytes.is_empty() {
            return;
        }
        let at = self.below(bytes.len());
        match self.below(3) {
            0 => bytes[at] = self.next() as u8,
            1 => drop(bytes.remove(at)),
            _ => bytes.truncate(at),
        }
    }
}
