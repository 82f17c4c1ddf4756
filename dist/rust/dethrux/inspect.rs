// packaging/erase wrote this from crates/dethrux/src/inspect.rt: do not edit it.
//! What kind of text bytes are.

use crate::proved::dethrux::byte_order::in_order;
use crate::proved::dethrux::results::status_of;
use crate::proved::utf16_fixed::{inspect, Repertoire};

/// What a text is: `dethrux_inspection` of the header.
#[repr(C)]
#[derive(Clone, Copy)]
pub struct Inspection {
    /// The length of the longest well-formed prefix in bytes.
    pub valid_up_to: usize,
    /// The number of its characters.
    pub chars: usize,
    /// The smallest repertoire that has all of them: 0 ASCII, 1 Latin-1, 2 the BMP, 3 Unicode.
    pub repertoire: u32,
    /// What follows it: 0 nothing, 1 an ill-formed sequence, 2 an incomplete character.
    pub status: u32,
    /// The length in bytes of the ill-formed sequence with status 1, and 0 with any other.
    pub error_len: u32,
}

/// Returns the length of the longest well-formed prefix, the number of its characters, the smallest
/// repertoire that has them, and what follows. One pass, up to the first error.
///
/// Proved:
///
/// - ensures stop: `EndsAt (is_big byte_order) utf16.now result.valid_up_to (stop_of_status
///   result.status result.error_len)`
/// - ensures chars: `result.chars ≡ length (text_of (is_big byte_order) (take result.valid_up_to
///   utf16.now))`
/// - ensures repertoire: `IsLeast (text_of (is_big byte_order) (take result.valid_up_to utf16.now))
///   (repertoire_of result.repertoire)`
/// - ensures known: `result.repertoire ≤ 3`
/// - ensures numbers: `AreNumbers result.status result.error_len`
pub fn dethrux_inspect(byte_order: u32, utf16: &[u8]) -> Inspection {
    inspection_of(in_order!(byte_order, inspect(utf16)))
}

// What C gets as the result of an inspection.
//
// Proved:
//
// - ensures valid_up_to: `result.valid_up_to ≡ found.valid_up_to`
// - ensures chars: `result.chars ≡ found.chars`
// - ensures repertoire: `repertoire_of result.repertoire ≡ found.repertoire`
// - ensures known: `result.repertoire ≤ 3`
// - ensures stop: `stop_of_status result.status result.error_len ≡ found.stop`
// - ensures numbers: `AreNumbers result.status result.error_len`
#[inline(always)]
fn inspection_of(found: crate::proved::utf16_fixed::Inspection) -> Inspection {
    let (status, error_len) = status_of(found.stop);
    Inspection {
        valid_up_to: found.valid_up_to,
        chars: found.chars,
        repertoire: match found.repertoire {
            Repertoire::Ascii => 0,
            Repertoire::Latin1 => 1,
            Repertoire::Bmp => 2,
            Repertoire::Unicode => 3,
        },
        status,
        error_len,
    }
}
