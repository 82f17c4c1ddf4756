// packaging/erase wrote this from crates/utf16_transcode/src/chars.rt: do not edit it.
//! The character of two, three or four bytes of UTF-8 (Unicode Standard, table 3-7).

// Returns the character of two bytes.
//
// Proved:
//
// - requires begins: `(is_in_range 0xC2 0xF4 lead && is_in_range (second_byte_min lead)
//   (second_byte_max lead) second) ≡ true`
// - requires two: `lead < 0xE0`
// - ensures `encode_utf8 result ≡ lead ∷ second ∷ []`
#[inline(always)]
pub(crate) fn char_of_two(lead: u8, second: u8) -> char {
    let code = (lead as u32 - 0xC0) * 0x40 + (second as u32 - 0x80);
    unsafe { char::from_u32_unchecked(code) }
}

// Returns the character of three bytes.
//
// Proved:
//
// - requires begins: `(is_in_range 0xC2 0xF4 lead && is_in_range (second_byte_min lead)
//   (second_byte_max lead) second) ≡ true`
// - requires three: `(0xE0 ≤ lead) × (lead < 0xF0)`
// - requires goes_on: `is_in_range 0x80 0xBF third ≡ true`
// - ensures `encode_utf8 result ≡ lead ∷ second ∷ third ∷ []`
#[inline(always)]
pub(crate) fn char_of_three(lead: u8, second: u8, third: u8) -> char {
    let code =
        (lead as u32 - 0xE0) * 0x1000 + (second as u32 - 0x80) * 0x40 + (third as u32 - 0x80);
    unsafe { char::from_u32_unchecked(code) }
}

// Returns the character of four bytes.
//
// Proved:
//
// - requires begins: `(is_in_range 0xC2 0xF4 lead && is_in_range (second_byte_min lead)
//   (second_byte_max lead) second) ≡ true`
// - requires four: `0xF0 ≤ lead`
// - requires goes_on: `is_in_range 0x80 0xBF third ≡ true`
// - requires ends: `is_in_range 0x80 0xBF fourth ≡ true`
// - ensures `encode_utf8 result ≡ lead ∷ second ∷ third ∷ fourth ∷ []`
#[inline(always)]
pub(crate) fn char_of_four(lead: u8, second: u8, third: u8, fourth: u8) -> char {
    let code = (lead as u32 - 0xF0) * 0x4_0000
        + (second as u32 - 0x80) * 0x1000
        + (third as u32 - 0x80) * 0x40
        + (fourth as u32 - 0x80);
    unsafe { char::from_u32_unchecked(code) }
}
