// packaging/erase wrote this from crates/utf16_bytes/src/cut_laws.rt: do not edit it.
//! The laws of boundaries, each proved as the contract of a function that does nothing.
//!
//! The body of a function cites a law by a call of its function, a proof file by the lemma of that
//! name in the modules `CutLemmas` and `PartsLemmas` of `Rattle.utf16_bytes.proofs`.

/// The lossy text of any bytes is the text of the bytes before a boundary, followed by the text of
/// the bytes after it: each part can be decoded by itself.
///
/// Proved:
///
/// - ensures `CutText`
pub fn cut_text() {}

/// The lossy text of any bytes is the texts of their parts between ascending boundaries, one after
/// another, for any number of parts.
///
/// Proved:
///
/// - ensures `CutsText`
pub fn cuts_text() {}
