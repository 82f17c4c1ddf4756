// packaging/erase wrote this from crates/utf16_transcode/src/laws.rt: do not edit it.
//! A law of what is replaced, proved as the contract of a function that does nothing.

/// The lossy text of any bytes has a U+FFFD for each ill-formed sequence, and those that the bytes
/// have themselves.
///
/// Proved:
///
/// - ensures utf16: `(big : Bool) (bytes : List ℕ) → marks (lossy_text big bytes) ≡ own_marks big
///   bytes + ill_formed_count big bytes`
/// - ensures utf8: `(bytes : List ℕ) → marks (utf8_lossy_text bytes) ≡ utf8_own_marks bytes +
///   ill_formed_utf8_count bytes`
pub fn marks_are_counted() {}
