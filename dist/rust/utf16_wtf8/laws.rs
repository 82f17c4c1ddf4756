// packaging/erase wrote this from crates/utf16_wtf8/src/laws.rt: do not edit it.
//! The laws of WTF-8, each proved as the contract of a function that does nothing.
//!
//! The body of a function cites a law by a call of its function, a proof file by the lemma of that
//! name in the module `Rattle.utf16_wtf8.proofs.LawProofs`. The statements are in
//! `specs/Laws.antt`. They depend only on the definitions, and hold for all code units.

/// The code units of the code points of any code units are these units: nothing is lost.
///
/// Proved:
///
/// - ensures `ThereAndBack`
pub fn there_and_back() {}

/// The code points of the code units of any code points are these points, if no leading surrogate
/// is directly followed by a trailing one.
///
/// Proved:
///
/// - ensures `BackAndThere`
pub fn back_and_there() {}

/// The WTF-8 of any code units is WTF-8.
///
/// Proved:
///
/// - ensures `UnitsAreWtf8`
pub fn units_are_wtf8() {}

/// Every WTF-8 is the WTF-8 of some code units.
///
/// Proved:
///
/// - ensures `Wtf8HasUnits`
pub fn wtf8_has_units() {}

/// Different code units have different WTF-8.
///
/// Proved:
///
/// - ensures `UnitsAreUnique`
pub fn units_are_unique() {}

/// The WTF-8 of code units is UTF-8 exactly if the units are well-formed UTF-16.
///
/// Proved:
///
/// - ensures `Utf8IfWellFormed`
pub fn utf8_if_well_formed() {}

/// The code points of a stream of UTF-16 cut in two are those that the first chunk decides, and
/// then the points of its tail and the second chunk. So they do not depend on where a stream is
/// cut.
///
/// Proved:
///
/// - ensures `CutAnywhere`
pub fn cut_anywhere() {}

/// The UTF-16 that `from_wtf8` writes for WTF-8 has that WTF-8, so `to_wtf8` writes it again.
///
/// Proved:
///
/// - ensures `ReturnsToWtf8`
pub fn returns_to_wtf8() {}

/// WTF-8 followed by WTF-8 is WTF-8, unless a leading surrogate at the end of the first and a
/// trailing one at the start of the second make a pair.
///
/// Proved:
///
/// - ensures `Concatenates`
pub fn concatenates() {}

/// If WTF-8 begins with WTF-8, the rest is WTF-8 too.
///
/// Proved:
///
/// - ensures `RestIsWtf8`
pub fn rest_is_wtf8() {}

/// If no code point begins the bytes, the ill-formed sequence is as long as the
/// Standard's maximal subpart of an ill-formed subsequence, unless the bytes end before it is
/// decided.
///
/// Proved:
///
/// - ensures `LenIsMaximal`
pub fn len_is_maximal() {}

/// If no code point begins the bytes, more bytes may complete them exactly if all of them are the
/// beginning of one code point.
///
/// Proved:
///
/// - ensures `NoneIfTruncated`
pub fn none_if_truncated() {}

/// The ill-formed sequence at a trailing surrogate after a leading one is its three bytes.
///
/// Proved:
///
/// - ensures `PairHasThree`
pub fn pair_has_three() {}

/// An ill-formed sequence has one to three bytes, and no more than there are.
///
/// Proved:
///
/// - ensures `LenIsFew`
pub fn len_is_few() {}

/// The beginning of a code point is incomplete and not ill-formed, even if it is the beginning of a
/// trailing surrogate after a leading one.
///
/// Proved:
///
/// - ensures `TruncatedHasNone`
pub fn truncated_has_none() {}
