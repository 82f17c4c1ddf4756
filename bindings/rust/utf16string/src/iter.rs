use std::fmt;
use std::iter::FusedIterator;
use std::marker::PhantomData;

use crate::proved::utf16_str::{self, WStr as View};
use crate::proved::utf16_units::text::trailing_units;
use crate::proved::utf16_units::{is_leading_surrogate, is_trailing_surrogate};
use crate::ByteOrder;

/// An iterator over the characters of a [`WStr`](crate::WStr), from both ends.
/// [`WStr::chars`](crate::WStr::chars) returns it.
#[derive(Clone)]
pub struct WStrChars<'a, E: 'static + ByteOrder>(pub(crate) utf16_str::WStrChars<'a, E>);

/// An iterator over the characters of a [`WStr`](crate::WStr) and their offsets, from both ends.
/// [`WStr::char_indices`](crate::WStr::char_indices) returns it.
#[derive(Clone, Debug)]
pub struct WStrCharIndices<'a, E: 'static + ByteOrder> {
    pub(crate) chars: WStrChars<'a, E>,
    pub(crate) index: usize,
}

impl<'a, E: ByteOrder> WStrChars<'a, E> {
    /// Keeps the rest, and returns an iterator over one character. Each length has its own code, so
    /// that the compiler knows it.
    #[inline(always)]
    fn keep(&mut self, rest: &'a [u8], character: &'a [u8]) -> utf16_str::WStrChars<'a, E> {
        self.0 = View::from_utf16_unchecked(rest).chars();
        View::from_utf16_unchecked(character).chars()
    }
}

impl<E: ByteOrder> Iterator for WStrChars<'_, E> {
    type Item = char;

    methods! {
        fn next(&mut self) -> Option<char> = {
            let bytes = self.0.as_wstr().as_bytes();
            let (two, rest) = bytes.split_first_chunk::<2>()?;
            if !is_leading_surrogate(E::read_u16(two)) {
                return self.keep(rest, two).next();
            }
            let (four, rest) = bytes.split_first_chunk::<4>()?;
            self.keep(rest, four).next()
        };
        fn count(self) -> usize = {
            let bytes = self.0.as_wstr().as_bytes();
            bytes.len() / 2 - trailing_units::<E>(bytes)
        };
        fn last(self) -> Option<char> = self.0.last();
    }
}

impl<E: ByteOrder> DoubleEndedIterator for WStrChars<'_, E> {
    methods! {
        fn next_back(&mut self) -> Option<char> = {
            let bytes = self.0.as_wstr().as_bytes();
            let (rest, two) = bytes.split_last_chunk::<2>()?;
            if !is_trailing_surrogate(E::read_u16(two)) {
                return self.keep(rest, two).next_back();
            }
            let (rest, four) = bytes.split_last_chunk::<4>()?;
            self.keep(rest, four).next_back()
        };
    }
}

impl<E: ByteOrder> FusedIterator for WStrChars<'_, E> {}

impl<E: ByteOrder> Iterator for WStrCharIndices<'_, E> {
    type Item = (usize, char);

    methods! {
        fn next(&mut self) -> Option<(usize, char)> = {
            let (index, c) = (self.index, self.chars.next()?);
            self.index += 2 * c.len_utf16();
            Some((index, c))
        };
        fn count(self) -> usize = self.chars.count();
        fn last(mut self) -> Option<(usize, char)> = self.next_back();
    }
}

impl<E: ByteOrder> DoubleEndedIterator for WStrCharIndices<'_, E> {
    methods! {
        fn next_back(&mut self) -> Option<(usize, char)> = {
            let c = self.chars.next_back()?;
            Some((self.index + self.chars.0.as_wstr().len(), c))
        };
    }
}

impl<E: ByteOrder> FusedIterator for WStrCharIndices<'_, E> {}

/// Shows the fields of `utf16string` 0.2.0.
impl<E: ByteOrder> fmt::Debug for WStrChars<'_, E> {
    fn fmt(&self, f: &mut fmt::Formatter<'_>) -> fmt::Result {
        f.debug_struct("WStrChars")
            .field("chunks", &self.0.as_wstr().as_bytes().chunks_exact(2))
            .field("_endian", &PhantomData::<&'static E>)
            .finish()
    }
}
