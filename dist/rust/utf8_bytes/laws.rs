// packaging/erase wrote this from crates/utf8_bytes/src/laws.rt: do not edit it.
//! The laws of streams of UTF-8, each proved as the contract of a function that does nothing.
//!
//! The body of a function cites a law by a call of its function, a proof file by the lemma of that
//! name in the module `Rattle.utf8_bytes.proofs.LawProofs`. The statements are in
//! `specs/Laws.antt`. They depend only on the definitions, and hold for all bytes.

/// Any bytes decompose into characters, maximal subparts of ill-formed subsequences and a tail that
/// more bytes could decide. The computed decomposition, the split, is such a decomposition.
///
/// Proved:
///
/// - ensures `SplitExists`
pub fn split_exists() {}

/// Bytes decompose in one way only.
///
/// Proved:
///
/// - ensures `SplitUnique`
pub fn split_unique() {}

/// If more bytes follow, the items of the decomposition stay, and the tail followed by these bytes
/// gives the others: a stream can be decoded in chunks, keeping no more of a chunk than its tail.
///
/// Proved:
///
/// - ensures `SplitExtends`
pub fn split_extends() {}

/// Decoded items never change when more bytes follow.
///
/// Proved:
///
/// - ensures `ItemsStay`
pub fn items_stay() {}

/// The text of a stream cut in two is the text of the first chunk, followed by the text of its tail
/// and the second chunk. This also holds with U+FFFD for a tail that is left at the end. So the
/// text does not depend on where a stream is cut.
///
/// Proved:
///
/// - ensures `CutAnywhere`
pub fn cut_anywhere() {}

/// The lossy text of well-formed bytes is the text that they encode, and their tail is empty.
///
/// Proved:
///
/// - ensures `TextIsShown`
pub fn text_is_shown() {}

/// A reader that resumes decoding with `valid_up_to` and `error_len` of std's `Utf8Error` gets the
/// text of the decomposition, with one U+FFFD (replacement character) for each ill-formed subpart,
/// and what it keeps is the tail.
///
/// Proved:
///
/// - ensures `RecipeIsSplit`
pub fn recipe_is_split() {}

/// A reader that resumes in this way over the chunks of a stream, however it is cut, gets the text
/// of the decomposition of the joined chunks, with one U+FFFD for each ill-formed subpart. What it
/// keeps at the end is the tail.
///
/// Proved:
///
/// - ensures `ResumesIsSplit`
pub fn resumes_is_split() {}

/// The whole lossy text, with one more U+FFFD for a tail that is left, is the text of std's
/// `from_utf8_lossy`.
///
/// Proved:
///
/// - ensures `WholeIsLossy`
pub fn whole_is_lossy() {}

/// n bytes have at most n items, and a tail of at most three bytes; their whole lossy text takes at
/// most 2 n bytes in UTF-16 and 3 n in UTF-8.
///
/// Proved:
///
/// - ensures `ShownWithin`
pub fn shown_within() {}

/// Bytes are the beginning of one character exactly if they do not begin with a character and
/// `error_len` of std's `Utf8Error` is `None`.
///
/// Proved:
///
/// - ensures `TailIsUndecided`
pub fn tail_is_undecided() {}

/// If bytes do not begin with a character, `error_len` of std's `Utf8Error` is the length of the
/// Standard's maximal subpart of an ill-formed subsequence, unless the bytes end before it is
/// decided.
///
/// Proved:
///
/// - ensures `SubpartIsMaximal`
pub fn subpart_is_maximal() {}

/// A tail that was kept is inside the first item of that tail and the bytes after it: no part of it
/// is decoded twice, or kept longer.
///
/// Proved:
///
/// - ensures `TailInFirst`
pub fn tail_in_first() {}

/// A chunk of n bytes after a tail that was kept gives at most 2 n + 2 bytes of UTF-16. This
/// includes a U+FFFD for a tail that is left.
///
/// Proved:
///
/// - ensures `ShownAfter`
pub fn shown_after() {}
