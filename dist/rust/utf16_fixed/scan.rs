// packaging/erase wrote this from crates/utf16_fixed/src/scan.rt: do not edit it.
//! What kind of text bytes are: whether they are well formed, how many characters they have, and
//! the least repertoire that has these.
//!
//! The greatest code units of a text say whether it is ASCII or Latin-1, and its trailing
//! surrogates how many characters it has and whether one is above U+FFFF. So no character is
//! decoded. A text takes one pass, which also validates it. Ill-formed bytes are validated again,
//! for the end of their valid prefix, and then this prefix is passed.

use crate::proved::simd::*;
use crate::proved::utf16_fixed::lanes::are_below;
use crate::proved::utf16_fixed::repertoire::Repertoire;
use crate::proved::utf16_transcode::Stop;
use crate::proved::utf16_units::blocks::units32;
use crate::proved::utf16_units::surrogates::{class_bits, has_no_surrogate, paired};
use crate::proved::utf16_units::{validate_raw_utf16, Utf16Order};

/// What kind of text bytes are.
#[derive(Clone, Copy, Debug, PartialEq, Eq)]
pub struct Inspection {
    /// The length in bytes of the longest valid prefix: of all bytes, if they are well formed.
    pub valid_up_to: usize,
    /// What follows it: `Done` nothing, `IllFormed` an ill-formed sequence, `Incomplete` the
    /// beginning of a character. It is never `NoSpace`.
    pub stop: Stop,
    /// The number of characters of the prefix.
    pub chars: usize,
    /// The least repertoire that has these characters, ASCII if there are none.
    pub repertoire: Repertoire,
}

/// Returns what kind of text bytes are: whether they are well formed, and of their longest valid
/// prefix the number of characters and the least repertoire that has them. Any bytes are allowed.
///
/// # Complexity
///
/// Linear time in the length of the longest valid prefix, in blocks: one pass if the bytes are well
/// formed.
///
/// Proved:
///
/// - ensures stop: `EndsAt E.BIG raw.now result.valid_up_to result.stop`
/// - ensures chars: `result.chars ≡ length (text_of E.BIG (take result.valid_up_to raw.now))`
/// - ensures repertoire: `IsLeast (text_of E.BIG (take result.valid_up_to raw.now))
///   result.repertoire`
pub fn inspect<E: Utf16Order>(raw: &[u8]) -> Inspection {
    let (valid_up_to, stop, units) = scan_prefix::<E>(raw);
    Inspection {
        valid_up_to,
        stop,
        chars: valid_up_to / 2 - units.trailing,
        repertoire: units.repertoire(),
    }
}

// The length of the longest valid prefix, what follows it, and what a pass over its code units
// finds.
//
// Proved:
//
// - ensures stop: `EndsAt E.BIG raw.now result.0 result.1`
// - ensures valid: `IsUtf16 E.BIG (take result.0 raw.now)`
// - ensures within: `result.0 ≤ length raw.now`
// - ensures scan: `IsScanOf (units_of E.BIG (take result.0 raw.now)) result.2.trailing
//   result.2.greatest`
fn scan_prefix<E: Utf16Order>(raw: &[u8]) -> (usize, Stop, ScannedUnits) {
    if let Some(units) = scan_text::<E>(raw) {
        return (raw.len(), Stop::Done, units);
    }
    let (valid_up_to, stop) = validity::<E>(raw);
    let units = scan::<E>(&raw[..valid_up_to]);
    (valid_up_to, stop, units)
}

// The length of the longest valid prefix, and what follows it.
//
// Proved:
//
// - ensures stop: `EndsAt E.BIG raw.now result.0 result.1`
// - ensures valid: `IsUtf16 E.BIG (take result.0 raw.now)`
// - ensures within: `result.0 ≤ length raw.now`
fn validity<E: Utf16Order>(raw: &[u8]) -> (usize, Stop) {
    let Err(error) = validate_raw_utf16::<E>(raw) else {
        return (raw.len(), Stop::Done);
    };
    let stop = match error.error_len() {
        Some(len) => Stop::IllFormed(len as u8),
        None => Stop::Incomplete,
    };
    (error.valid_up_to(), stop)
}

// Passes over the code units of bytes, and returns `None` if these are ill formed.
//
// Proved:
//
// - ensures text: `OnSome result (IsUtf16 E.BIG raw.now)`
// - ensures scan: `IfSome result (λ units. IsScanOf (units_of E.BIG raw.now) units.trailing
//   units.greatest)`
fn scan_text<E: Utf16Order>(raw: &[u8]) -> Option<ScannedUnits> {
    if raw.len() % 2 != 0 {
        return None;
    }
    let (mut at, mut found) = scan_plain::<E>(raw);
    let mut leading = false;
    while raw.len() - at >= 64 {
        let units = units32::<E>(u8x64::from_slice(&raw[at..]));
        leading = paired(units, leading)?;
        found = found.with(units);
        at += 64;
    }
    let last = filled_units::<E>(&raw[at..]);
    paired(last, leading)?;
    Some(found.with(last))
}

// The end of the blocks at the front that have no surrogate, and what a pass over them finds. After
// a surrogate each block is tested for pairs, so that mixed text costs no more than emoji.
//
// Proved:
//
// - ensures paired: `PairedTo E.BIG raw.now result.0 false`
// - ensures scan: `IsScanOf (units_of E.BIG (take result.0 raw.now)) result.1.trailing
//   result.1.greatest`
fn scan_plain<E: Utf16Order>(raw: &[u8]) -> (usize, ScannedUnits) {
    let mut at = 0;
    let mut found = ScannedUnits::none();
    while raw.len() - at >= 64 {
        let units = units32::<E>(u8x64::from_slice(&raw[at..]));
        if !has_no_surrogate(units) {
            break;
        }
        found = found.with_plain(units);
        at += 64;
    }
    (at, found)
}

// Passes over the code units of a text.
//
// Proved:
//
// - requires `IsUtf16 E.BIG text.now`
// - ensures `IsScanOf (units_of E.BIG text.now) result.trailing result.greatest`
fn scan<E: Utf16Order>(text: &[u8]) -> ScannedUnits {
    let mut at = 0;
    let mut found = ScannedUnits::none();
    while text.len() - at >= 64 {
        found = found.with(units32::<E>(u8x64::from_slice(&text[at..])));
        at += 64;
    }
    found.with(filled_units::<E>(&text[at..]))
}

// The units of at most 64 bytes, padded to a block with zeros.
//
// Proved:
//
// - requires few: `length raw.now ≤ 64`
// - requires even: `length raw.now % 2 ≡ 0`
// - ensures len: `length result ≡ 32`
// - ensures units: `result ≡ units_of E.BIG raw.now ++ replicate (32 - length raw.now / 2) 0`
#[inline(always)]
fn filled_units<E: Utf16Order>(raw: &[u8]) -> u16x32 {
    let mut block = [0; 64];
    block[..raw.len()].copy_from_slice(raw);
    units32::<E>(u8x64::from_array(block))
}

// What a pass over code units finds.
#[derive(Clone, Copy)]
struct ScannedUnits {
    // The number of trailing surrogates.
    trailing: usize,
    // The greatest code units, for each position in a block.
    greatest: u16x32,
}

impl ScannedUnits {
    // What a pass over no code unit finds.
    //
    // Proved:
    //
    // - ensures `IsScanOf [] result.trailing result.greatest`
    #[inline(always)]
    fn none() -> ScannedUnits {
        ScannedUnits {
            trailing: 0,
            greatest: u16x32::splat(0),
        }
    }

    // What a pass finds that also goes over these code units.
    //
    // Proved:
    //
    // - requires `self.trailing + 32 < 2 ^ 64`
    // - ensures `(before : List ℕ) → IsScanOf before self.trailing self.greatest → IsScanOf
    //   (before ++ units) result.trailing result.greatest`
    #[inline(always)]
    fn with(self, units: u16x32) -> ScannedUnits {
        ScannedUnits {
            trailing: self.trailing + trailing_bits(units).count_ones() as usize,
            greatest: self.greatest.simd_max(units),
        }
    }

    // What a pass finds that also goes over these code units, none of which is a surrogate.
    //
    // Proved:
    //
    // - requires `HasNoSurrogate units`
    // - ensures `(before : List ℕ) → IsScanOf before self.trailing self.greatest → IsScanOf
    //   (before ++ units) result.trailing result.greatest`
    #[inline(always)]
    fn with_plain(self, units: u16x32) -> ScannedUnits {
        ScannedUnits {
            trailing: self.trailing,
            greatest: self.greatest.simd_max(units),
        }
    }

    // The least repertoire that has the characters of a text, by its code units.
    //
    // Proved:
    //
    // - ensures `(big : Bool) (text : List ℕ) → IsUtf16 big text → IsScanOf (units_of big text)
    //   self.now.trailing self.now.greatest → IsLeast (text_of big text) result`
    fn repertoire(&self) -> Repertoire {
        if self.trailing > 0 {
            return Repertoire::Unicode;
        }
        if !are_below(self.greatest, 0x100) {
            return Repertoire::Bmp;
        }
        if !are_below(self.greatest, 0x80) {
            return Repertoire::Latin1;
        }
        Repertoire::Ascii
    }
}

// A bit for each trailing surrogate.
//
// Proved:
//
// - ensures `result ≡ mask_l (map is_low_surrogate units)`
#[inline(always)]
fn trailing_bits(units: u16x32) -> u64 {
    class_bits(units, 0xFC, 0xDC)
}
