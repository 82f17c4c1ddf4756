// packaging/erase wrote this from crates/utf16_from_utf8/src/valid.rt: do not edit it.
//! Tests whether bytes are a text, sixteen at a time.

use crate::proved::utf16_from_utf8::lanes::{each, greater};
use crate::proved::utf16_from_utf8::limits::are_below;
use crate::proved::utf16_from_utf8::read::{read_sixteen, whole_len};
use crate::proved::utf16_from_utf8::short::is_short_text;

/// Returns whether at least eight bytes are well formed. From 64 bytes on a validator of blocks is
/// faster.
///
/// # Complexity
///
/// One pass over all bytes.
///
/// Proved:
///
/// - requires `8 ≤ length bytes.now`
/// - ensures `IsTrue result ↔ IsUtf8 bytes.now`
pub fn is_text(bytes: &[u8]) -> bool {
    if bytes.len() <= 16 {
        return is_short_text(bytes);
    }
    let mut faults = each(0);
    let mut read = 0;
    while bytes.len() - read >= 16 {
        faults = greater(faults, read_sixteen::<4>(bytes, read).faults);
        read += 16;
    }
    // The last sixteen bytes, some of which were read before.
    faults = greater(faults, read_sixteen::<4>(bytes, bytes.len() - 16).faults);
    whole_len(bytes) == bytes.len() && are_below(faults, 1)
}
