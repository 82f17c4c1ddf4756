// packaging/erase wrote this from crates/utf16_to_utf8/src/laws.rt: do not edit it.
//! The law that relates the code units of a text to its UTF-8.

/// The bytes that the code units of a text add are its UTF-8, whatever unit comes before them.
///
/// Proved:
///
/// - ensures `UnitsAddUtf8`
pub fn units_add_utf8() {}
