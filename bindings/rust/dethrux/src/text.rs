//! Calls that return a `String` or a `Vec`.
//!
//! Each reserves for the longest result, since a count beforehand can take as long as the
//! conversion. Only the number of characters is counted.

use alloc::{string::String, vec::Vec};
use core::mem::{size_of, MaybeUninit};
use core::slice;
#[cfg(all(feature = "std", any(unix, windows)))]
use std::ffi::{OsStr, OsString};

use crate::*;

/// Unused elements that are not worth a call of the allocator.
const FEW: usize = 64;

/// The capacity from which unused memory is kept: most of its pages were never touched, and a
/// smaller block may be a copy.
const LARGE: usize = 65536;

/// Appends the `T` that a conversion writes as `E` to the spare capacity of a vector. Before that, it
/// makes the spare capacity at least `additional`.
///
/// # Safety
///
/// The conversion returns as `written` how many `E` of its buffer it initialized. They are whole and
/// valid `T`, which have the alignment of an `E` or a greater one.
pub(crate) unsafe fn append<T, E>(
    to: &mut Vec<T>,
    additional: usize,
    convert: impl FnOnce(&mut [MaybeUninit<E>]) -> Progress,
) -> Progress {
    to.reserve(additional);
    let (spare, size) = (to.spare_capacity_mut(), size_of::<T>() / size_of::<E>());
    let (start, len) = (spare.as_mut_ptr().cast(), spare.len() * size);
    // SAFETY: the parts of the spare elements may be written.
    let progress = convert(unsafe { slice::from_raw_parts_mut(start, len) });
    // SAFETY: this many elements were initialized after the length.
    unsafe { to.set_len(to.len() + progress.written / size) }
    progress
}

/// Returns what a conversion of the library writes, in a vector for the longest result. If most of
/// the capacity is unused, it returns memory to the allocator. Only the calls below use it: what
/// their conversions write is as `append` needs it.
fn filled<F, E, T>(
    convert: fn(ByteOrder, &[F], &mut [MaybeUninit<E>]) -> Progress,
    max_len: impl FnOnce(usize) -> usize,
    order: ByteOrder,
    from: &[F],
) -> (Vec<T>, Progress) {
    let mut made = Vec::with_capacity(max_len(from.len()));
    // SAFETY: the library initializes what it wrote.
    let progress = unsafe { append(&mut made, 0, |to| convert(order, from, to)) };
    let unused = made.capacity() - made.len();
    if unused > made.len().max(FEW) && made.capacity() < LARGE {
        made.shrink_to_fit();
    }
    (made, progress)
}

/// Returns the text of UTF-16, or the error of [`validate`].
pub fn decode(order: ByteOrder, utf16: &[u8]) -> Result<String, Utf16Error> {
    let (utf8, progress) = filled(to_utf8, to_utf8_max_len, order, utf16);
    // SAFETY: the library writes UTF-8.
    Utf16Error::after(progress, unsafe { String::from_utf8_unchecked(utf8) })
}

/// Appends the text of UTF-16 to a string, or returns the error of [`validate`], and then the
/// string is unchanged. It allocates at most once.
pub fn decode_to(order: ByteOrder, utf16: &[u8], to: &mut String) -> Result<(), Utf16Error> {
    let (len, max_len) = (to.len(), to_utf8_max_len(utf16.len()));
    // SAFETY: the library writes UTF-8, and the length is taken back to one between characters.
    let bytes = unsafe { to.as_mut_vec() };
    // SAFETY: the library initializes what it wrote.
    let progress = unsafe { append(bytes, max_len, |spare| to_utf8(order, utf16, spare)) };
    if progress.status != Status::Done {
        bytes.truncate(len);
    }
    Utf16Error::after(progress, ())
}

/// Returns the text of bytes that may be ill-formed UTF-16, with U+FFFD for each unpaired surrogate
/// and for an incomplete character at the end.
#[must_use]
pub fn decode_lossy(order: ByteOrder, utf16: &[u8]) -> String {
    let (utf8, _) = filled(to_utf8_lossy, to_utf8_max_len, order, utf16);
    // SAFETY: the library writes UTF-8.
    unsafe { String::from_utf8_unchecked(utf8) }
}

/// Returns the UTF-16 of a text.
#[must_use]
pub fn encode(order: ByteOrder, text: &str) -> Vec<u8> {
    filled(from_utf8, from_utf8_max_len, order, text.as_bytes()).0
}

/// Appends the UTF-16 of a text to a vector. It allocates at most once.
pub fn encode_to(order: ByteOrder, text: &str, to: &mut Vec<u8>) {
    let (utf8, max_len) = (text.as_bytes(), from_utf8_max_len(text.len()));
    // SAFETY: the library initializes what it wrote.
    unsafe { append(to, max_len, |spare| from_utf8(order, utf8, spare)) };
}

/// Returns the UTF-16 of bytes that may be ill-formed UTF-8, with U+FFFD for each ill-formed
/// sequence, like `String::from_utf8_lossy`.
#[must_use]
pub fn encode_lossy(order: ByteOrder, utf8: &[u8]) -> Vec<u8> {
    filled(from_utf8_lossy, from_utf8_max_len, order, utf8).0
}

/// Returns the text of code units in the byte order of the machine, or the error of
/// [`validate_units`].
pub fn decode_units(units: &[u16]) -> Result<String, UnitsError> {
    decode(ByteOrder::NATIVE, units_as_bytes(units)).map_err(UnitsError::of_bytes)
}

/// Returns the code units of a text: `str::encode_utf16`, collected.
#[must_use]
pub fn encode_units(text: &str) -> Vec<u16> {
    filled::<_, u8, _>(from_utf8, |len| len, ByteOrder::NATIVE, text.as_bytes()).0
}

/// Returns the characters of UTF-16, or the error of [`validate`].
pub fn decode_to_chars(order: ByteOrder, utf16: &[u8]) -> Result<Vec<char>, Utf16Error> {
    let len = to_utf32_lossy_len(order, utf16);
    let (chars, progress) = filled::<_, u32, _>(to_utf32, |_| len, order, utf16);
    Utf16Error::after(progress, chars)
}

/// Returns the characters of bytes that may be ill-formed UTF-16, with U+FFFD as in
/// [`decode_lossy`].
#[must_use]
pub fn decode_to_chars_lossy(order: ByteOrder, utf16: &[u8]) -> Vec<char> {
    let len = to_utf32_lossy_len(order, utf16);
    filled::<_, u32, _>(to_utf32_lossy, |_| len, order, utf16).0
}

/// Returns UTF-32 in UTF-16, or the error of [`validate_utf32`]. For characters:
/// `encode_from_utf32(order, chars_as_utf32(chars))`.
pub fn encode_from_utf32(order: ByteOrder, utf32: &[u32]) -> Result<Vec<u8>, Utf32Error> {
    let (utf16, progress) = filled(from_utf32, from_utf32_max_len, order, utf32);
    Utf32Error::after(progress, utf16)
}

/// Returns Latin-1 (ISO 8859-1) in UTF-16.
#[must_use]
pub fn encode_from_latin1(order: ByteOrder, latin1: &[u8]) -> Vec<u8> {
    filled(from_latin1, from_utf8_max_len, order, latin1).0
}

/// Returns all code units of UTF-16 in WTF-8. The error, about an odd byte at the end, has its
/// offset, and no `error_len`.
pub fn decode_to_wtf8(order: ByteOrder, utf16: &[u8]) -> Result<Vec<u8>, Utf16Error> {
    let (wtf8, progress) = filled(to_wtf8, to_wtf8_max_len, order, utf16);
    Utf16Error::after(progress, wtf8)
}

/// Returns WTF-8 in UTF-16, with each surrogate as one code unit, or an error if the bytes are not
/// WTF-8.
pub fn encode_from_wtf8(order: ByteOrder, wtf8: &[u8]) -> Result<Vec<u8>, Wtf8Error> {
    let (utf16, progress) = filled(from_wtf8, from_utf8_max_len, order, wtf8);
    Wtf8Error::after(progress, utf16)
}

/// Returns code units, in the byte order of the machine, in WTF-8.
#[must_use]
pub fn units_to_wtf8(units: &[u16]) -> Vec<u8> {
    filled(to_wtf8, to_wtf8_max_len, ByteOrder::NATIVE, units_as_bytes(units)).0
}

/// Returns WTF-8 in code units, or an error if the bytes are not WTF-8.
pub fn units_from_wtf8(wtf8: &[u8]) -> Result<Vec<u16>, Wtf8Error> {
    let (units, progress) = filled::<_, u8, _>(from_wtf8, |len| len, ByteOrder::NATIVE, wtf8);
    Wtf8Error::after(progress, units)
}

/// Returns code units, such as a file name of NTFS, as an `OsString`, without loss: on Unix its
/// bytes are WTF-8, on Windows it is `OsString::from_wide`.
///
/// ```
/// use dethrux::{os_string_from_units, units_from_os_str};
///
/// let name = [0x68, 0xD83D, 0x2E, 0x74, 0x78, 0x74];
/// assert_eq!(units_from_os_str(&os_string_from_units(&name)).unwrap(), name);
/// ```
#[cfg(all(feature = "std", any(unix, windows)))]
#[must_use]
pub fn os_string_from_units(units: &[u16]) -> OsString {
    #[cfg(unix)]
    return std::os::unix::ffi::OsStringExt::from_vec(units_to_wtf8(units));
    #[cfg(windows)]
    return std::os::windows::ffi::OsStringExt::from_wide(units);
}

/// Returns the code units of an `OsStr`: what [`os_string_from_units`] was made of. On Unix it
/// returns an error if the bytes are not WTF-8; on Windows it always succeeds.
#[cfg(all(feature = "std", any(unix, windows)))]
pub fn units_from_os_str(text: &OsStr) -> Result<Vec<u16>, Wtf8Error> {
    #[cfg(unix)]
    return units_from_wtf8(std::os::unix::ffi::OsStrExt::as_bytes(text));
    #[cfg(windows)]
    return Ok(std::os::windows::ffi::OsStrExt::encode_wide(text).collect());
}
