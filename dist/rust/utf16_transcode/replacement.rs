// packaging/erase wrote this from crates/utf16_transcode/src/replacement.rt: do not edit it.
//! U+FFFD, the replacement character, in both encodings.

/// U+FFFD, the replacement character, in UTF-8.
pub const REPLACEMENT: [u8; 3] = [0xEF, 0xBF, 0xBD];

// U+FFFD as a code unit of UTF-16.
pub(crate) const REPLACEMENT_UNIT: u16 = 0xFFFD;
