// packaging/erase wrote this from crates/dethrux/src/bom.rt: do not edit it.
//! The byte order mark (BOM) at the start of a stream.

use crate::proved::dethrux::byte_order::{is_big_endian, BIG_ENDIAN, LITTLE_ENDIAN};
use crate::proved::dethrux::results::Bom;
use crate::proved::utf16_units::bom_of;

const ABSENT: u32 = 0;

const PRESENT: u32 = 1;

const UNDECIDED: u32 = 2;

/// Returns the BOM at the start of a stream, and the byte order: the one that the BOM gives, or the
/// default without a BOM. It is undecided if fewer than two bytes have come.
///
/// Proved:
///
/// - ensures incomplete: `(result.status ≡ 2) ↔ (length bytes.now < 2)`
/// - ensures present: `(result.status ≡ 1) ↔ ((take 2 bytes.now ≡ 0xFF ∷ 0xFE ∷ []) ⊎ (take 2
///   bytes.now ≡ 0xFE ∷ 0xFF ∷ []))`
/// - ensures status: `result.status ≤ 2`
/// - ensures little: `take 2 bytes.now ≡ 0xFF ∷ 0xFE ∷ [] → result.byte_order ≡ 0`
/// - ensures big: `take 2 bytes.now ≡ 0xFE ∷ 0xFF ∷ [] → result.byte_order ≡ 1`
/// - ensures default: `result.status ≢ 1 → is_big result.byte_order ≡ is_big default_order`
/// - ensures order: `result.byte_order ≤ 1`
/// - ensures len: `(result.len ≡ 2) ↔ (result.status ≡ 1)`
/// - ensures no_len: `(result.len ≡ 0) ↔ (result.status ≢ 1)`
pub fn dethrux_detect_bom(default_order: u32, bytes: &[u8]) -> Bom {
    if bytes.len() < 2 {
        return without_bom(default_order, UNDECIDED);
    }
    match bom_of([bytes[0], bytes[1]]) {
        Some(is_big) => Bom {
            len: 2,
            byte_order: if is_big { BIG_ENDIAN } else { LITTLE_ENDIAN },
            status: PRESENT,
        },
        None => without_bom(default_order, ABSENT),
    }
}

// The byte order of a stream that has no BOM, or not yet.
//
// Proved:
//
// - ensures len: `result.len ≡ 0`
// - ensures status: `result.status ≡ status`
// - ensures default: `is_big result.byte_order ≡ is_big default_order`
// - ensures order: `result.byte_order ≤ 1`
#[inline(always)]
fn without_bom(default_order: u32, status: u32) -> Bom {
    let byte_order = if is_big_endian(default_order) {
        BIG_ENDIAN
    } else {
        LITTLE_ENDIAN
    };
    Bom {
        len: 0,
        byte_order,
        status,
    }
}
