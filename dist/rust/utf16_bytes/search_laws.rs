// packaging/erase wrote this from crates/utf16_bytes/src/search_laws.rt: do not edit it.
//! The laws of occurrences, each proved as the contract of a function that does nothing.
//!
//! The body of a function cites a law by a call of its function, a proof file by the lemma in the
//! module `Rattle.utf16_bytes.proofs.OccurrenceLemmas`.

/// The encoding of a part occurs in the encoding of a text exactly where the part occurs in the
/// text, as a list of characters.
///
/// Proved:
///
/// - ensures `OccurrenceInText`
pub fn occurrence_in_text() {}

/// If a part occurs at an offset, the text is the characters before it, the part, and the
/// characters after it.
///
/// Proved:
///
/// - ensures `TextAroundPart`
pub fn text_around() {}

/// If the part is not empty, its encoding occurs at each even offset at which its bytes are: in
/// well-formed text they cut no surrogate pair.
///
/// Proved:
///
/// - ensures `UnitsCutNoPair`
pub fn units_cut_no_pair() {}
