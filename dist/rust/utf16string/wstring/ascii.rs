// packaging/erase wrote this from crates/utf16string/src/wstring/ascii.rt: do not edit it.
//! ASCII letters of a string in lower or upper case, in place.

use crate::proved::kit::Allocator;
use crate::proved::utf16_units::Utf16Order;
use crate::proved::utf16string::retain_blocks::write_unit;
use crate::proved::utf16string::WString;

/// The case that ASCII letters are converted to.
#[derive(Clone, Copy)]
enum AsciiCase {
    Lower,
    Upper,
}

impl AsciiCase {
    // The code unit, in this case if it is an ASCII letter.
    //
    // Proved:
    //
    // - ensures `result ≡ in_case self unit`
    #[inline(always)]
    fn of(self, unit: u16) -> u16 {
        match self {
            AsciiCase::Lower if 0x41 <= unit && unit <= 0x5A => unit + 0x20,
            AsciiCase::Upper if 0x61 <= unit && unit <= 0x7A => unit - 0x20,
            _ => unit,
        }
    }
}

impl<E: Utf16Order, A: Allocator> WString<E, A> {
    /// Converts each ASCII letter to lower case. Other characters and the capacity stay.
    ///
    /// # Complexity
    ///
    /// One pass, in place.
    ///
    /// # Source
    ///
    /// `str::make_ascii_lowercase`.
    ///
    /// Proved:
    ///
    /// - ensures text: `wstring_text self.new ≡ map to_ascii_lowercase (wstring_text self.old)`
    /// - ensures capacity: `wstring_capacity self.new ≡ wstring_capacity self.old`
    pub fn make_ascii_lowercase(&mut self) {
        self.make_case(AsciiCase::Lower);
    }

    /// Converts each ASCII letter to upper case. Other characters and the capacity stay.
    ///
    /// # Complexity
    ///
    /// One pass, in place.
    ///
    /// # Source
    ///
    /// `str::make_ascii_uppercase`.
    ///
    /// Proved:
    ///
    /// - ensures text: `wstring_text self.new ≡ map to_ascii_uppercase (wstring_text self.old)`
    /// - ensures capacity: `wstring_capacity self.new ≡ wstring_capacity self.old`
    pub fn make_ascii_uppercase(&mut self) {
        self.make_case(AsciiCase::Upper);
    }

    // Proved:
    //
    // - ensures text: `wstring_text self.new ≡ map (in_case case) (wstring_text self.old)`
    // - ensures capacity: `wstring_capacity self.new ≡ wstring_capacity self.old`
    fn make_case(&mut self, case: AsciiCase) {
        change_case::<E>(self.raw.as_mut_slice(), case);
    }
}

// Converts the ASCII letters of a text.
//
// Proved:
//
// - requires `IsUtf16 E.BIG raw.old`
// - ensures `Encodes E.BIG (map (in_case case) (text_of E.BIG raw.old)) raw.new`
fn change_case<E: Utf16Order>(raw: &mut [u8], case: AsciiCase) {
    let mut at = 0;
    while raw.len() - at >= 2 {
        change_unit::<E>(raw, at, case);
        at += 2;
    }
}

// Converts the code unit at an index, if it is an ASCII letter.
//
// Proved:
//
// - requires `at + 2 ≤ length raw.old`
// - ensures unit: `take (at + 2) raw.new ≡ take at raw.old ++ unit_bytes E.BIG (in_case case
//   (unit_of E.BIG (slice_index raw.old at) (slice_index raw.old (at + 1))))`
// - ensures rest: `drop (at + 2) raw.new ≡ drop (at + 2) raw.old`
#[inline(always)]
fn change_unit<E: Utf16Order>(raw: &mut [u8], at: usize, case: AsciiCase) {
    let unit = E::read_unit(crate::proved::kit::two(raw, at));
    write_unit::<E>(raw, at, case.of(unit));
}
