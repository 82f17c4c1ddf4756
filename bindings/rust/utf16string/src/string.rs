use std::fmt;
use std::marker::PhantomData;
use std::panic::{catch_unwind, resume_unwind, AssertUnwindSafe};

use crate::error::{refuse, FromUtf16Error};
use crate::proved::kit::{AllocError, Global};
use crate::proved::utf16string;
use crate::{ByteOrder, Utf16Error, WStr};

/// An owned UTF-16 string: a vector of bytes that are well formed in the byte order `E`. It is to
/// [`WStr`] what [`String`] is to [`str`]. [`WStringExt`](crate::WStringExt) has more methods.
///
/// It is ordered by scalar values, like [`String`].
#[derive(Eq, Hash, Ord, PartialEq, PartialOrd)]
pub struct WString<E: 'static + ByteOrder> {
    pub(crate) text: utf16string::WString<E>,
}

impl<E: ByteOrder> WString<E> {
    unchecked! {
        "UTF-16 in the byte order";
        from_utf16_unchecked(buf: Vec<u8>) -> Self =
            WString { text: utf16string::WString::from_utf16_unchecked(buf.into()) };
    }

    /// Returns the vector of bytes, mutable.
    ///
    /// # Safety
    ///
    /// The bytes are well formed again when the borrow ends.
    #[inline]
    pub unsafe fn as_mut_vec(&mut self) -> &mut Vec<u8> {
        self.text.raw.as_mut_vec()
    }

    /// Returns a string that the proved code made, for which there may be no memory.
    #[inline]
    pub(crate) fn made(made: Result<utf16string::WString<E>, AllocError>, len: usize) -> Self {
        match made {
            Ok(text) => WString { text },
            Err(AllocError) => refuse(0, len),
        }
    }

    /// Makes a proved edit, which changes nothing if there is no memory for these additional bytes.
    #[inline(always)]
    pub(crate) fn edit(
        &mut self,
        additional: usize,
        call: impl FnOnce(&mut utf16string::WString<E>) -> Result<(), AllocError>,
    ) {
        if call(&mut self.text).is_err() {
            refuse(self.len(), additional);
        }
    }

    methods! {
        /// Returns an empty string. It does not allocate.
        pub fn new() -> Self = WString { text: utf16string::WString::new(Global) };
        /// Returns an empty string with a capacity in bytes.
        pub fn with_capacity(capacity: usize) -> Self =
            Self::made(utf16string::WString::with_capacity(Global, capacity), capacity);
        /// Like [`WStr::from_utf16`]. An error drops the vector; that of `TryFrom` has it.
        pub fn from_utf16(buf: Vec<u8>) -> Result<Self, Utf16Error> =
            Self::try_from(buf).map_err(|error: FromUtf16Error| error.utf16_error());
        /// Returns the bytes.
        pub fn into_bytes(self) -> Vec<u8> = self.text.into_bytes().into();
        /// Returns the whole string, borrowed.
        pub fn as_wstr(&self) -> &WStr<E> = self;
        /// Returns the whole string, borrowed and mutable.
        pub fn as_mut_wstr(&mut self) -> &mut WStr<E> = self;
        /// Returns the capacity in bytes.
        pub fn capacity(&self) -> usize = self.text.capacity();
        /// Makes the capacity at least the length plus `additional` bytes.
        pub fn reserve(&mut self, additional: usize) =
            self.edit(additional, |text| text.reserve(additional));
        /// Makes the capacity as small as the allocator allows.
        // An error only says that the allocator left more.
        pub fn shrink_to_fit(&mut self) = self.text.shrink_to_fit().unwrap_or_default();
        /// Returns the length in bytes.
        pub fn len(&self) -> usize = self.text.len();
        /// Returns whether the string has no characters.
        pub fn is_empty(&self) -> bool = self.text.is_empty();
        /// Appends a character.
        #[doc = example!("a", "text.push('😀');", "a😀")]
        pub fn push(&mut self, ch: char) = self.edit(4, |text| text.push(ch));
        /// Appends a string.
        #[doc = example!("a", "text.push_wstr(&WString::from(\"b😀\"));", "ab😀")]
        pub fn push_wstr(&mut self, string: &WStr<E>) =
            self.edit(string.len(), |text| text.push_wstr(string.view()));
        /// Inserts a character at an offset. It moves the bytes after it. Panics if the offset is
        /// not a character boundary.
        #[doc = example!("ab", "text.insert(2, '😀');", "a😀b")]
        pub fn insert(&mut self, idx: usize, ch: char) = {
            assert!(self.is_char_boundary(idx), "insert not on char boundary");
            self.edit(4, |text| text.insert(idx, ch))
        };
        /// Inserts a string at an offset. It moves the bytes after it. Panics if the offset is not
        /// a character boundary.
        #[doc = example!("ad", "text.insert_wstr(2, &WString::from(\"bc\"));", "abcd")]
        pub fn insert_wstr(&mut self, idx: usize, string: &WStr<E>) = {
            assert!(self.is_char_boundary(idx));
            self.edit(string.len(), |text| text.insert_wstr(idx, string.view()))
        };
        /// Removes the last character and returns it, or returns `None` if the string is empty.
        #[doc = example!("a😀", "assert_eq!(text.pop(), Some('😀'));", "a")]
        pub fn pop(&mut self) -> Option<char> = self.text.pop();
        /// Removes the character at an offset and returns it. It moves the bytes after it. Panics
        /// if the offset is not a character boundary below the length.
        #[doc = example!("a😀b", "assert_eq!(text.remove(2), '😀');", "ab")]
        pub fn remove(&mut self, idx: usize) -> char = {
            let is_end = self[idx..].is_empty();
            assert!(!is_end, "cannot remove a char from the end of a string");
            self.text.remove(idx)
        };
        /// Shortens the string to `new_len` bytes. If this is its length or more, nothing changes.
        /// Panics if `new_len` is below the length and not a character boundary.
        #[doc = example!("abc", "text.truncate(4);", "ab")]
        pub fn truncate(&mut self, new_len: usize) = if new_len < self.len() {
            let is_boundary = self.is_char_boundary(new_len);
            assert!(is_boundary, "new WString length not on char boundary");
            self.text.truncate(new_len)
        };
        /// Removes what follows an offset, and returns it as a string. Panics if the offset is not
        /// a character boundary.
        #[doc = example!("abc", "assert_eq!(text.split_off(2), \"bc\");", "a")]
        #[must_use = "`truncate` drops what follows"]
        pub fn split_off(&mut self, at: usize) -> WString<E> = {
            assert!(self.is_char_boundary(at), "split_off not on a char boundary");
            let len = self.len() - at;
            Self::made(self.text.split_off(at), len)
        };
        /// Removes all characters. The capacity is unchanged.
        #[doc = example!("abc", "text.clear();", "")]
        pub fn clear(&mut self) = self.text.clear();
        /// Keeps the characters for which `f`, called on each from the first to the last, returns
        /// true. If `f` panics, the characters from that one on are kept.
        #[doc = example!("a-b-c", "text.retain(|c| c != '-');", "abc")]
        pub fn retain[F: FnMut(char) -> bool](&mut self, mut f: F) = {
            let mut panic = None;
            // No panic may leave the proved code before it has moved all characters.
            self.text.retain(|ch| {
                panic.is_some()
                    || catch_unwind(AssertUnwindSafe(|| f(ch))).unwrap_or_else(|payload| {
                        panic = Some(payload);
                        true
                    })
            });
            if let Some(payload) = panic {
                resume_unwind(payload);
            }
        };
    }
}

/// Shows the fields of `utf16string` 0.2.0.
impl<E: ByteOrder> fmt::Debug for WString<E> {
    fn fmt(&self, f: &mut fmt::Formatter<'_>) -> fmt::Result {
        f.debug_struct("WString")
            .field("buf", &self.as_bytes())
            .field("_endian", &PhantomData::<&'static E>)
            .finish()
    }
}
