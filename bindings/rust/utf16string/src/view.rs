use std::marker::PhantomData;

use crate::proved::utf16_str::WStr as View;
use crate::{ByteOrder, SliceIndex, Utf16Error, WStrCharIndices, WStrChars};

/// From this length on the assembly of `libdethrux` is faster, as measured.
const LONG: usize = 256;

/// A borrowed UTF-16 string: bytes that are well formed in the byte order `E`. It is to [`WString`]
/// what [`str`] is to [`String`]. [`WStrExt`](crate::WStrExt) has more methods.
///
/// It is ordered by scalar values, like [`str`].
///
/// ```
/// use utf16string::{WStr, LE};
///
/// let text = WStr::from_utf16le(b"h\0i\0").unwrap();
/// assert_eq!(text.len(), 4);
/// assert_eq!(text.chars().rev().collect::<String>(), "ih");
/// assert!(WStr::<LE>::from_utf16(b"h").is_err());
/// ```
///
/// [`WString`]: crate::WString
#[derive(Debug, Eq, Hash, PartialEq)]
#[repr(transparent)]
pub struct WStr<E: 'static + ByteOrder> {
    _endian: PhantomData<&'static E>,
    raw: [u8],
}

/// Returns the byte order of `E`. The compiler evaluates it.
#[inline]
pub(crate) fn byte_order<E: ByteOrder>() -> dethrux::ByteOrder {
    if E::read_u16(&[0, 1]) == 1 {
        dethrux::ByteOrder::BigEndian
    } else {
        dethrux::ByteOrder::LittleEndian
    }
}

/// Tests that the bytes are well formed. The error is of the proved source.
#[inline]
pub(crate) fn validate<E: ByteOrder>(raw: &[u8]) -> Result<(), Utf16Error> {
    if raw.len() < LONG || dethrux::validate(byte_order::<E>(), raw).is_err() {
        View::<E>::from_utf16(raw)?;
    }
    Ok(())
}

impl<E: ByteOrder> WStr<E> {
    unchecked! {
        "UTF-16 in the byte order";
        from_utf16_unchecked(raw: &[u8]) -> &Self = &*(raw as *const [u8] as *const Self);
        from_utf16_unchecked_mut(raw: &mut [u8]) -> &mut Self =
            &mut *(raw as *mut [u8] as *mut Self);
    }

    /// Returns the bytes, mutable.
    ///
    /// # Safety
    ///
    /// They are well formed again when the borrow ends.
    #[inline]
    pub unsafe fn as_bytes_mut(&mut self) -> &mut [u8] {
        &mut self.raw
    }

    /// Returns a substring, without testing the range.
    ///
    /// # Safety
    ///
    /// [`get`](WStr::get) would return `Some`.
    #[inline]
    pub unsafe fn get_unchecked<I: SliceIndex<WStr<E>>>(&self, index: I) -> &I::Output {
        // SAFETY: the caller says it.
        unsafe { index.get_unchecked(self) }
    }

    /// Returns a substring, mutable, without testing the range.
    ///
    /// # Safety
    ///
    /// [`get`](WStr::get) would return `Some`.
    #[inline]
    pub unsafe fn get_unchecked_mut<I: SliceIndex<WStr<E>>>(&mut self, index: I) -> &mut I::Output {
        // SAFETY: the caller says it.
        unsafe { index.get_unchecked_mut(self) }
    }

    methods! {
        /// Returns the proved view of the string.
        pub(crate) fn view(&self) -> View<'_, E> = View::from_utf16_unchecked(&self.raw);
        // SAFETY: the bytes of a view are well formed.
        /// Returns the string of a proved view.
        pub(crate) fn of(view: View<'_, E>) -> &Self =
            unsafe { Self::from_utf16_unchecked(view.as_bytes()) };
        /// Returns the bytes as a string, if they are well formed.
        ///
        /// # Errors
        ///
        /// The length of the longest well-formed prefix, and the length of the ill-formed sequence
        /// after it.
        pub fn from_utf16(raw: &[u8]) -> Result<&Self, Utf16Error> = {
            validate::<E>(raw)?;
            // SAFETY: the bytes are well formed.
            Ok(unsafe { Self::from_utf16_unchecked(raw) })
        };
        /// Returns the bytes as a mutable string, like [`from_utf16`](WStr::from_utf16).
        pub fn from_utf16_mut(raw: &mut [u8]) -> Result<&mut Self, Utf16Error> = {
            validate::<E>(raw)?;
            // SAFETY: the bytes are well formed.
            Ok(unsafe { Self::from_utf16_unchecked_mut(raw) })
        };
        /// Returns the length in bytes.
        pub fn len(&self) -> usize = self.raw.len();
        /// Returns whether the string has no characters.
        pub fn is_empty(&self) -> bool = self.raw.is_empty();
        /// Returns whether the offset is a boundary between characters: 0 and the length are, and
        /// no offset after the length is.
        pub fn is_char_boundary(&self, index: usize) -> bool = self.view().is_char_boundary(index);
        /// Returns the bytes.
        pub fn as_bytes(&self) -> &[u8] = &self.raw;
        /// Returns a pointer to the first byte.
        pub fn as_ptr(&self) -> *const u8 = self.raw.as_ptr();
        /// Returns a mutable pointer to the first byte.
        pub fn as_mut_ptr(&mut self) -> *mut u8 = self.raw.as_mut_ptr();
        /// Returns a substring, or `None` if the range is out of bounds, its start is after its
        /// end, or one of them is not a character boundary.
        pub fn get[I: SliceIndex<WStr<E>>](&self, index: I) -> Option<&I::Output> =
            index.get(self);
        /// Returns a substring, mutable, or `None` like [`get`](WStr::get).
        pub fn get_mut[I: SliceIndex<WStr<E>>](&mut self, index: I) -> Option<&mut I::Output> =
            index.get_mut(self);
        /// Returns an iterator over the characters.
        pub fn chars(&self) -> WStrChars<'_, E> = WStrChars(self.view().chars());
        /// Returns an iterator over the characters and their offsets.
        pub fn char_indices(&self) -> WStrCharIndices<'_, E> =
            WStrCharIndices { chars: self.chars(), index: 0 };
        /// Returns the text in UTF-8.
        pub fn to_utf8(&self) -> String = dethrux::decode_lossy(byte_order::<E>(), &self.raw);
        /// Returns whether all characters are ASCII, below U+0080.
        pub fn is_ascii(&self) -> bool = {
            // Four code units at once, with the bits that no ASCII character has. In most text
            // that is not ASCII the first four have one.
            let mut others = [0; 8];
            E::write_u16_into(&[0xFF80; 4], &mut others);
            let is_ascii = |four: &[u8]| {
                let four = four.try_into().expect("four code units");
                u64::from_ne_bytes(four) & u64::from_ne_bytes(others) == 0
            };
            let mut fours = self.raw.chunks_exact(8);
            let last = fours.remainder().chunks_exact(2);
            if !fours.next().map_or(true, is_ascii) {
                return false;
            }
            if self.len() >= LONG {
                return dethrux::is_ascii(byte_order::<E>(), &self.raw);
            }
            fours.all(is_ascii) && last.map(E::read_u16).all(|unit| unit < 0x80)
        };
    }
}
