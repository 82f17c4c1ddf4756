// packaging/calls wrote this from the header: do not edit it.
//! The functions that only make a call of the library. Each is safe, since the pointers
//! and the lengths that it passes are those of slices that do not overlap.

use core::cmp::Ordering;

use crate::ffi::{self, found};
use crate::*;

/// Returns the number of characters (scalar values).
///
/// The result is the number; for ill-formed input, the number of complete code units that are not
/// trailing surrogates.
#[must_use]
pub fn count_chars(order: ByteOrder, utf16: &[u8]) -> usize {
    unsafe { ffi::count_chars(order, utf16.as_ptr(), utf16.len()) }
}

/// Returns whether the bytes are UTF-16 whose characters are all ASCII, below U+0080.
#[must_use]
pub fn is_ascii(order: ByteOrder, utf16: &[u8]) -> bool {
    unsafe { ffi::is_ascii(order, utf16.as_ptr(), utf16.len()) }
}

/// Returns the length of what [`to_utf8_lossy`] writes for the whole input.
///
/// The result is at most [`to_utf8_max_len`], and at most `utf16.len() / 2 * 3` for UTF-16.
#[must_use]
pub fn to_utf8_lossy_len(order: ByteOrder, utf16: &[u8]) -> usize {
    unsafe { ffi::to_utf8_lossy_len(order, utf16.as_ptr(), utf16.len()) }
}

/// Returns the length of what [`from_utf8`] writes for the longest well-formed prefix.
///
/// The length is the same in either byte order.
///
/// The result is at most [`from_utf8_max_len`].
#[must_use]
pub fn from_utf8_len(utf8: &[u8]) -> usize {
    unsafe { ffi::from_utf8_len(utf8.as_ptr(), utf8.len()) }
}

/// Returns the length of what [`from_utf8_lossy`] writes for the whole input.
///
/// The length is the same in either byte order.
///
/// The result is at most [`from_utf8_max_len`].
#[must_use]
pub fn from_utf8_lossy_len(utf8: &[u8]) -> usize {
    unsafe { ffi::from_utf8_lossy_len(utf8.as_ptr(), utf8.len()) }
}

/// Returns how many U+FFFD [`to_utf8_lossy`] writes for ill-formed sequences of the whole input.
///
/// A U+FFFD of the input is a character, and does not count. [`to_utf32_lossy`] writes as many.
///
/// The result is 0 if and only if the input is well formed.
#[must_use]
pub fn to_utf8_replacements(order: ByteOrder, utf16: &[u8]) -> usize {
    unsafe { ffi::to_utf8_replacements(order, utf16.as_ptr(), utf16.len()) }
}

/// Returns how many U+FFFD [`from_utf8_lossy`] writes for ill-formed sequences of the whole input.
///
/// A U+FFFD of the input is a character, and does not count. The number is the same in either byte
/// order.
///
/// The result is 0 if and only if the input is well formed.
#[must_use]
pub fn from_utf8_replacements(utf8: &[u8]) -> usize {
    unsafe { ffi::from_utf8_replacements(utf8.as_ptr(), utf8.len()) }
}

/// Converts UTF-16 to UTF-8, up to the first ill-formed sequence.
///
/// That is an unpaired surrogate of 2 bytes.
///
/// As the length of `to`, `utf16.len() / 2 * 3` suffices, and so does [`to_utf8_max_len`]; a loop
/// needs 4. The status is [`Status::Done`], [`Status::IllFormed`], [`Status::Incomplete`] or
/// [`Status::NoSpace`].
#[must_use]
pub fn to_utf8<B: Buffer + ?Sized>(order: ByteOrder, utf16: &[u8], to: &mut B) -> Progress {
    let (to, capacity) = to.raw();
    unsafe { ffi::to_utf8(order, utf16.as_ptr(), utf16.len(), to, capacity) }.into()
}

/// Converts UTF-16 to UTF-8 and replaces what is ill formed by U+FFFD.
///
/// The replacement character U+FFFD replaces each unpaired surrogate, and an incomplete character
/// at the end.
///
/// As the length of `to`, [`to_utf8_max_len`] suffices; a loop needs 4. The status is
/// [`Status::Done`] or [`Status::NoSpace`].
#[must_use]
pub fn to_utf8_lossy<B: Buffer + ?Sized>(order: ByteOrder, utf16: &[u8], to: &mut B) -> Progress {
    let (to, capacity) = to.raw();
    unsafe { ffi::to_utf8_lossy(order, utf16.as_ptr(), utf16.len(), to, capacity) }.into()
}

/// Converts the next chunk of a stream to UTF-8, without a decoder.
///
/// This is like [`to_utf8_lossy`], but does not read an incomplete character at the end. The stream
/// may be cut anywhere; no state is kept. However the stream is cut, the same bytes are written in
/// all.
///
/// As the length of `to`, `utf16.len() / 2 * 3` suffices; a loop needs 4. The status is
/// [`Status::Done`], [`Status::Incomplete`] or [`Status::NoSpace`]. With [`Status::Incomplete`], at
/// most 3 bytes follow `read`: put them before the next chunk, and at the end of the stream pass
/// them to [`to_utf8_lossy`].
#[must_use]
pub fn to_utf8_partial<B: Buffer + ?Sized>(order: ByteOrder, utf16: &[u8], to: &mut B) -> Progress {
    let (to, capacity) = to.raw();
    unsafe { ffi::to_utf8_partial(order, utf16.as_ptr(), utf16.len(), to, capacity) }.into()
}

/// Converts UTF-8 to UTF-16, up to the first ill-formed sequence, of 1 to 3 bytes.
///
/// As the length of `to`, [`from_utf8_max_len`] suffices; a loop needs 4. The status is
/// [`Status::Done`], [`Status::IllFormed`], [`Status::Incomplete`] or [`Status::NoSpace`].
#[must_use]
pub fn from_utf8<B: Buffer + ?Sized>(order: ByteOrder, utf8: &[u8], to: &mut B) -> Progress {
    let (to, capacity) = to.raw();
    unsafe { ffi::from_utf8(order, utf8.as_ptr(), utf8.len(), to, capacity) }.into()
}

/// Converts UTF-8 to UTF-16 and replaces what is ill formed by U+FFFD.
///
/// U+FFFD replaces each maximal subpart of an ill-formed subsequence, as the Unicode Standard
/// recommends and Rust's from_utf8_lossy does, and an incomplete character at the end. `read` never
/// ends inside a character or an ill-formed sequence, so with [`Status::NoSpace`] a call with the
/// rest continues correctly.
///
/// As the length of `to`, [`from_utf8_max_len`] suffices; a loop needs 4. The status is
/// [`Status::Done`] or [`Status::NoSpace`].
#[must_use]
pub fn from_utf8_lossy<B: Buffer + ?Sized>(order: ByteOrder, utf8: &[u8], to: &mut B) -> Progress {
    let (to, capacity) = to.raw();
    unsafe { ffi::from_utf8_lossy(order, utf8.as_ptr(), utf8.len(), to, capacity) }.into()
}

/// Converts the next chunk of a stream to UTF-16, without an encoder.
///
/// This is like [`from_utf8_lossy`], but does not read an incomplete character at the end. The
/// stream may be cut anywhere; no state is kept. However the stream is cut, the same bytes are
/// written in all.
///
/// As the length of `to`, [`from_utf8_max_len`] suffices; a loop needs 4. The status is
/// [`Status::Done`], [`Status::Incomplete`] or [`Status::NoSpace`]. With [`Status::Incomplete`], at
/// most 3 bytes follow `read`: put them before the next chunk, and at the end of the stream pass
/// them to [`from_utf8_lossy`].
#[must_use]
pub fn from_utf8_partial<B: Buffer + ?Sized>(
    order: ByteOrder,
    utf8: &[u8],
    to: &mut B,
) -> Progress {
    let (to, capacity) = to.raw();
    unsafe { ffi::from_utf8_partial(order, utf8.as_ptr(), utf8.len(), to, capacity) }.into()
}

/// Returns the length of the longest well-formed prefix, the number of its characters, and the
/// smallest repertoire that has them.
///
/// So a caller can choose a form that holds the text, and knows how much memory it takes. For
/// well-formed input this takes one pass.
///
/// The result is the length and the number.
#[must_use]
pub fn inspect(order: ByteOrder, utf16: &[u8]) -> Inspection {
    unsafe { ffi::inspect(order, utf16.as_ptr(), utf16.len()) }.into()
}

/// Converts UTF-16 to UTF-32, up to the first ill-formed sequence.
///
/// As the length of `to`, `utf16.len() / 2` suffices, and so does [`to_utf32_max_len`]; a loop
/// needs 1. The status is [`Status::Done`], [`Status::IllFormed`], [`Status::Incomplete`] or
/// [`Status::NoSpace`].
#[must_use]
pub fn to_utf32<B: Buffer<u32> + ?Sized>(order: ByteOrder, utf16: &[u8], to: &mut B) -> Progress {
    let (to, capacity) = to.raw();
    unsafe { ffi::to_utf32(order, utf16.as_ptr(), utf16.len(), to, capacity) }.into()
}

/// Converts UTF-16 to UTF-32 and replaces what is ill formed by U+FFFD, as [`to_utf8_lossy`] does.
///
/// As the length of `to`, [`to_utf32_max_len`] suffices; a loop needs 1. The status is
/// [`Status::Done`] or [`Status::NoSpace`].
#[must_use]
pub fn to_utf32_lossy<B: Buffer<u32> + ?Sized>(
    order: ByteOrder,
    utf16: &[u8],
    to: &mut B,
) -> Progress {
    let (to, capacity) = to.raw();
    unsafe { ffi::to_utf32_lossy(order, utf16.as_ptr(), utf16.len(), to, capacity) }.into()
}

/// Returns how many code units of UTF-32 [`to_utf32_lossy`] writes for the whole input.
///
/// For well-formed input this is the number of its characters.
///
/// The result is at most [`to_utf32_max_len`].
#[must_use]
pub fn to_utf32_lossy_len(order: ByteOrder, utf16: &[u8]) -> usize {
    unsafe { ffi::to_utf32_lossy_len(order, utf16.as_ptr(), utf16.len()) }
}

/// Converts UTF-32 to UTF-16, up to the first ill-formed code unit.
///
/// As the length of `to`, [`from_utf32_max_len`] suffices; a loop needs 4. The status is
/// [`Status::Done`], [`Status::IllFormed`] or [`Status::NoSpace`].
#[must_use]
pub fn from_utf32<B: Buffer + ?Sized>(order: ByteOrder, utf32: &[u32], to: &mut B) -> Progress {
    let (to, capacity) = to.raw();
    unsafe { ffi::from_utf32(order, utf32.as_ptr(), utf32.len(), to, capacity) }.into()
}

/// Converts UTF-32 to UTF-16 and replaces each ill-formed code unit by U+FFFD.
///
/// As the length of `to`, [`from_utf32_max_len`] suffices; a loop needs 4. The status is
/// [`Status::Done`] or [`Status::NoSpace`].
#[must_use]
pub fn from_utf32_lossy<B: Buffer + ?Sized>(
    order: ByteOrder,
    utf32: &[u32],
    to: &mut B,
) -> Progress {
    let (to, capacity) = to.raw();
    unsafe { ffi::from_utf32_lossy(order, utf32.as_ptr(), utf32.len(), to, capacity) }.into()
}

/// Returns the length of what [`from_utf32_lossy`] writes for the whole input.
///
/// It counts bytes.
///
/// The result is at most [`from_utf32_max_len`].
#[must_use]
pub fn from_utf32_lossy_len(utf32: &[u32]) -> usize {
    unsafe { ffi::from_utf32_lossy_len(utf32.as_ptr(), utf32.len()) }
}

/// Converts UTF-16 to Latin-1 (ISO 8859-1), up to the first ill-formed sequence or the first
/// character above U+00FF.
///
/// Each character is one byte. Here the bytes of `to` after `written` stay as they were.
///
/// As the length of `to`, `utf16.len() / 2` suffices; a loop needs 1. The status is
/// [`Status::Done`], [`Status::IllFormed`], [`Status::Incomplete`], [`Status::NoSpace`] or
/// [`Status::NotLatin1`].
#[must_use]
pub fn to_latin1<B: Buffer + ?Sized>(order: ByteOrder, utf16: &[u8], to: &mut B) -> Progress {
    let (to, capacity) = to.raw();
    unsafe { ffi::to_latin1(order, utf16.as_ptr(), utf16.len(), to, capacity) }.into()
}

/// Converts Latin-1 (ISO 8859-1) to UTF-16. Latin-1 is never ill formed.
///
/// Here the bytes of `to` after `written` stay as they were.
///
/// As the length of `to`, [`from_utf8_max_len`] suffices; a loop needs 2. The status is
/// [`Status::Done`] or [`Status::NoSpace`].
#[must_use]
pub fn from_latin1<B: Buffer + ?Sized>(order: ByteOrder, latin1: &[u8], to: &mut B) -> Progress {
    let (to, capacity) = to.raw();
    unsafe { ffi::from_latin1(order, latin1.as_ptr(), latin1.len(), to, capacity) }.into()
}

/// Converts all code units of UTF-16 to WTF-8, which keeps unpaired surrogates.
///
/// WTF-8 is UTF-8 that may also have unpaired surrogates, of 3 bytes each. [`from_wtf8`] returns
/// the same code units. Well-formed UTF-16 becomes UTF-8.
///
/// As the length of `to`, [`to_wtf8_max_len`] suffices; a loop needs 4. The status is
/// [`Status::Done`], [`Status::Incomplete`] or [`Status::NoSpace`]. With [`Status::Incomplete`], an
/// odd byte at the end, which is not a code unit, follows `read`.
#[must_use]
pub fn to_wtf8<B: Buffer + ?Sized>(order: ByteOrder, utf16: &[u8], to: &mut B) -> Progress {
    let (to, capacity) = to.raw();
    unsafe { ffi::to_wtf8(order, utf16.as_ptr(), utf16.len(), to, capacity) }.into()
}

/// Returns the length of what [`to_wtf8`] writes for the whole input.
///
/// The result is at most [`to_wtf8_max_len`].
#[must_use]
pub fn to_wtf8_len(order: ByteOrder, utf16: &[u8]) -> usize {
    unsafe { ffi::to_wtf8_len(order, utf16.as_ptr(), utf16.len()) }
}

/// Converts the next chunk of a stream to WTF-8, without a decoder.
///
/// This is like [`to_wtf8`], but does not read a leading surrogate at the end, which a trailing one
/// may follow. The stream may be cut anywhere; no state is kept. However the stream is cut, the
/// same bytes are written in all.
///
/// As the length of `to`, [`to_wtf8_max_len`] suffices; a loop needs 4. The status is
/// [`Status::Done`], [`Status::Incomplete`] or [`Status::NoSpace`]. With [`Status::Incomplete`], at
/// most 3 bytes follow `read`: put them before the next chunk, and at the end of the stream pass
/// them to [`to_wtf8`].
#[must_use]
pub fn to_wtf8_partial<B: Buffer + ?Sized>(order: ByteOrder, utf16: &[u8], to: &mut B) -> Progress {
    let (to, capacity) = to.raw();
    unsafe { ffi::to_wtf8_partial(order, utf16.as_ptr(), utf16.len(), to, capacity) }.into()
}

/// Converts WTF-8 to UTF-16, up to the first ill-formed sequence, of 1 to 3 bytes.
///
/// Each surrogate becomes one code unit. A trailing surrogate directly after a leading one is an
/// ill-formed sequence of 3 bytes: in WTF-8 a pair has the 4 bytes of its character. So do not
/// append one text of WTF-8 to another: convert both to UTF-16 first.
///
/// As the length of `to`, [`from_utf8_max_len`] suffices; a loop needs 4. The status is
/// [`Status::Done`], [`Status::IllFormed`], [`Status::Incomplete`] or [`Status::NoSpace`].
#[must_use]
pub fn from_wtf8<B: Buffer + ?Sized>(order: ByteOrder, wtf8: &[u8], to: &mut B) -> Progress {
    let (to, capacity) = to.raw();
    unsafe { ffi::from_wtf8(order, wtf8.as_ptr(), wtf8.len(), to, capacity) }.into()
}

/// Returns the length of what [`from_wtf8`] writes for the longest well-formed prefix.
///
/// The length is the same in either byte order.
///
/// The result is at most [`from_utf8_max_len`].
#[must_use]
pub fn from_wtf8_len(wtf8: &[u8]) -> usize {
    unsafe { ffi::from_wtf8_len(wtf8.as_ptr(), wtf8.len()) }
}

/// Converts the next chunk of a stream of WTF-8, cut anywhere, to UTF-16.
///
/// This is like [`from_wtf8`], but at the end it does not read a leading surrogate, the beginning
/// of a character or surrogate, or one and then the other.
///
/// As the length of `to`, [`from_utf8_max_len`] suffices; a loop needs 4. The status is
/// [`Status::Done`], [`Status::IllFormed`], [`Status::Incomplete`] or [`Status::NoSpace`]. With
/// [`Status::Incomplete`], at most 6 bytes follow `read`: put them before the next chunk, and at
/// the end of the stream pass them to [`from_wtf8`].
#[must_use]
pub fn from_wtf8_partial<B: Buffer + ?Sized>(
    order: ByteOrder,
    wtf8: &[u8],
    to: &mut B,
) -> Progress {
    let (to, capacity) = to.raw();
    unsafe { ffi::from_wtf8_partial(order, wtf8.as_ptr(), wtf8.len(), to, capacity) }.into()
}

/// Returns whether an offset is a boundary between characters.
///
/// A boundary is `utf16.len()`, or a smaller even offset that is neither inside a surrogate pair
/// nor between a leading surrogate and a single byte at the end. An unpaired surrogate counts as a
/// character, and so does an incomplete one at the end, of 1 to 3 bytes.
///
/// Any bytes may be cut at a boundary: what [`to_utf8_lossy`] writes for all of them is what it
/// writes for those before it, then for those from it on.
///
/// `at`: the offset; only the two bytes before it and the two from it on are read.
#[must_use]
pub fn is_char_boundary(order: ByteOrder, utf16: &[u8], at: usize) -> bool {
    unsafe { ffi::is_char_boundary(order, utf16.as_ptr(), utf16.len(), at) }
}

/// Returns the greatest boundary at or before an offset.
///
/// The result is a boundary at most 3 bytes before the smaller of `at` and `utf16.len()`.
#[must_use]
pub fn floor_char_boundary(order: ByteOrder, utf16: &[u8], at: usize) -> usize {
    unsafe { ffi::floor_char_boundary(order, utf16.as_ptr(), utf16.len(), at) }
}

/// Returns the greatest boundary at or before an offset of a file, from a few of its bytes.
///
/// `around`: the 4 bytes of the file from `(at / 2 * 2).saturating_sub(2)` on, or as many as it
/// has.
///
/// `at`: the offset, at most the length of the file.
///
/// The result is the result of [`floor_char_boundary`] over the whole file; for any other bytes an
/// offset at most 3 bytes before `at`.
#[must_use]
pub fn floor_char_boundary_around(order: ByteOrder, around: &[u8], at: u64) -> u64 {
    unsafe { ffi::floor_char_boundary_around(order, around.as_ptr(), around.len(), at) }
}

/// Returns the offset where part `index` of `count` parts begins in a file of `len` bytes.
///
/// Each part has `len / 2 / count` code units or one more, and the last one also has an odd byte at
/// the end.
///
/// The result is `len` for `index >= count`, else 0 for part 0; the offset may be inside a
/// surrogate pair: move it to a boundary with [`floor_char_boundary_around`].
#[must_use]
pub fn shard_offset(len: u64, count: u64, index: u64) -> u64 {
    unsafe { ffi::shard_offset(len, count, index) }
}

/// Returns the least offset at which a pattern occurs in a text.
///
/// The pattern occurs at a boundary if its bytes are there and end at a boundary. So an occurrence
/// cuts neither a code unit nor a surrogate pair, and a pattern of odd length occurs only at the
/// end of a text of odd length. The empty pattern occurs at each boundary.
///
/// The text and the pattern may be any bytes. The time is linear in both lengths, as measured with
/// the most expensive inputs that are known; this is not proved.
///
/// `pattern`: what is searched for, in the same byte order.
///
/// The result is the offset, 0 for the empty pattern, or `None` if the pattern occurs nowhere.
#[must_use]
pub fn find(order: ByteOrder, utf16: &[u8], pattern: &[u8]) -> Option<usize> {
    found(unsafe { ffi::find(order, utf16.as_ptr(), utf16.len(), pattern.as_ptr(), pattern.len()) })
}

/// Returns the greatest offset at which a pattern occurs in a text.
///
/// It is like [`find`], which returns the least one.
///
/// `pattern`: what is searched for, in the same byte order.
///
/// The result is the offset, `utf16.len()` for the empty pattern, or `None` if the pattern occurs
/// nowhere.
#[must_use]
pub fn rfind(order: ByteOrder, utf16: &[u8], pattern: &[u8]) -> Option<usize> {
    found(unsafe { ffi::rfind(
        order, utf16.as_ptr(), utf16.len(), pattern.as_ptr(), pattern.len()) })
}

/// Returns the offset of the first NUL (U+0000), like strnlen of C.
///
/// The bytes before it are the string in a buffer of fixed size. A NUL is two zero bytes at an even
/// offset, in either byte order; an odd byte at the end is not part of one.
///
/// The result is the offset, or `utf16.len()` if there is no NUL.
#[must_use]
pub fn nul_offset(utf16: &[u8]) -> usize {
    unsafe { ffi::nul_offset(utf16.as_ptr(), utf16.len()) }
}

/// Swaps the two bytes of each code unit in place: UTF-16 in the other byte order.
///
/// An odd byte at the end stays.
pub fn swap_byte_order(utf16: &mut [u8]) {
    unsafe { ffi::swap_byte_order(utf16.as_mut_ptr(), utf16.len()) }
}

/// Replaces each unpaired surrogate by U+FFFD in place.
///
/// Afterwards the whole code units are well formed. A leading surrogate at the end is unpaired; an
/// odd byte at the end stays.
///
/// The result is how many there were.
pub fn make_well_formed(order: ByteOrder, utf16: &mut [u8]) -> usize {
    unsafe { ffi::make_well_formed(order, utf16.as_mut_ptr(), utf16.len()) }
}

/// Compares two texts by their scalar values, each in its byte order.
///
/// An unpaired surrogate, and an incomplete character at the end, counts as U+FFFD; a text is
/// greater than each of its prefixes. What [`to_utf8_lossy`] writes has the same order by bytes:
/// tests compare both orders, but this is not proved.
///
/// The result is `Less`, `Equal` or `Greater` if the first is less than, equal to or greater than
/// the second.
#[must_use]
pub fn compare(
    first_order: ByteOrder,
    first: &[u8],
    second_order: ByteOrder,
    second: &[u8],
) -> Ordering {
    unsafe { ffi::compare(
        first_order, first.as_ptr(), first.len(), second_order, second.as_ptr(),
        second.len()) }.cmp(&0)
}
