// packaging/erase wrote this from crates/utf16_units/src/laws.rt: do not edit it.
//! The laws of UTF-16 that users of the format rely on, each proved as the contract of a function
//! that does nothing.
//!
//! The body of a function cites a law by a call of its function, a proof file by the lemma of that
//! name in the module `Rattle.utf16_units.proofs.LawProofs`. The statements are in
//! `specs/Laws.antt`. They depend only on the definitions, and hold for all texts, all bytes and
//! both byte orders.

/// Two texts with equal encodings in one byte order are equal.
///
/// Proved:
///
/// - ensures `UniqueText`
pub fn unique_text() {}

/// The encoding of two texts concatenated is the concatenation of their encodings.
///
/// Proved:
///
/// - ensures `JoinedText`
pub fn joined_text() {}

/// If the encoding of a text that is not empty occurs in a text's bytes at an even offset, both
/// ends of the occurrence are boundaries.
///
/// Proved:
///
/// - ensures `FoundAligned`
pub fn found_aligned() {}

/// The encodings of a text in the two byte orders differ exactly by swapping the two bytes of each
/// code unit.
///
/// Proved:
///
/// - ensures `SwappedOrders`
pub fn swapped_orders() {}

/// Inserting a character at a boundary and then removing the character at that boundary gives that
/// character and the original text.
///
/// Proved:
///
/// - ensures `InsertThenRemove`
pub fn insert_then_remove() {}

/// Splitting off the part from a boundary on and then appending it gives the original text.
///
/// Proved:
///
/// - ensures `SplitThenPush`
pub fn split_then_push() {}

/// The characters decoded from a text's UTF-8 are the text.
///
/// Proved:
///
/// - ensures `Utf8Back`
pub fn utf8_back() {}

/// Bytes whose error has length 2 are not a prefix of any text.
///
/// Proved:
///
/// - ensures `TwoNeverContinues`
pub fn two_never_continues() {}

/// Bytes whose error has no length are a prefix of a text: in little endian always; in big endian
/// exactly if the bytes after the longest valid prefix are neither one byte 0xDC to 0xDF nor a
/// leading surrogate and one byte outside 0xDC to 0xDF.
///
/// Proved:
///
/// - ensures `NoneContinues`
pub fn none_continues() {}

/// Any bytes decompose into characters, unpaired surrogates and a tail that more bytes could
/// change. The computed decomposition, the split, is such a decomposition.
///
/// Proved:
///
/// - ensures `SplitExists`
pub fn split_exists() {}

/// Bytes decompose in one way only.
///
/// Proved:
///
/// - ensures `SplitUnique`
pub fn split_unique() {}

/// If more bytes follow, the items of the decomposition stay, and the tail followed by these bytes
/// gives the others: a stream can be decoded in chunks, keeping no more of a chunk than its tail.
///
/// Proved:
///
/// - ensures `SplitExtends`
pub fn split_extends() {}

/// A reader that resumes decoding with `valid_up_to` and `error_len` gets the text of the
/// decomposition, with one U+FFFD (replacement character) for each unpaired surrogate, and what it
/// keeps is the tail.
///
/// Proved:
///
/// - ensures `RecipeIsSplit`
pub fn recipe_is_split() {}

/// A reader that resumes in this way over the chunks of a stream, however it is cut, gets the text
/// of the decomposition of the joined chunks, with one U+FFFD for each unpaired surrogate. What it
/// keeps at the end is the tail.
///
/// Proved:
///
/// - ensures `ResumesIsSplit`
pub fn resumes_is_split() {}

/// The lossy text of well-formed bytes is the text that they encode, and their tail is empty.
///
/// Proved:
///
/// - ensures `TextIsShown`
pub fn text_is_shown() {}

/// Decoded items never change when more bytes follow.
///
/// Proved:
///
/// - ensures `ItemsStay`
pub fn items_stay() {}

/// The text of a stream cut in two is the text of the first chunk, followed by the text of its tail
/// and the second chunk. So the text does not depend on where a stream is cut.
///
/// Proved:
///
/// - ensures `CutAnywhere`
pub fn cut_anywhere() {}

/// n bytes have at most n / 2 items, which take at most 3 n / 2 bytes in UTF-8. With U+FFFD for an
/// incomplete end they take at most (3 n + 3) / 2.
///
/// Proved:
///
/// - ensures `ShownWithin`
pub fn shown_within() {}

/// Of two texts exactly one holds: the first is before the second, they are equal, or the second is
/// before the first.
///
/// Proved:
///
/// - ensures `BeforeTotal`
pub fn before_total() {}

/// If one text is before a second, and the second is before a third, the first is before the third.
///
/// Proved:
///
/// - ensures `BeforeFollows`
pub fn before_follows() {}

/// The start and the end of a text are boundaries, and the substring between them is the text. A
/// boundary is at most the size; the substrings before and after it have the sizes that it gives,
/// and joined they are the text.
///
/// Proved:
///
/// - ensures `BoundaryCuts`
pub fn boundary_cuts() {}

/// If more is appended to a text, its boundaries and the substrings between them stay, and what was
/// appended is the substring after them.
///
/// Proved:
///
/// - ensures `MoreAfter`
pub fn more_after() {}

/// A text that is not empty occurs in another exactly at the even offsets at which its bytes occur
/// in the other's bytes.
///
/// Proved:
///
/// - ensures `FoundExactly`
pub fn found_exactly() {}

/// Bytes that encode a text are well formed, decode to that text, and are as long as its size.
///
/// Proved:
///
/// - ensures `EncodedText`
pub fn encoded_text() {}

/// Bytes are below 256, as the type of their slice says.
///
/// Proved:
///
/// - ensures `All (λ b. b < 256) bytes.now`
#[inline(always)]
pub fn are_bytes(bytes: &[u8]) {}
