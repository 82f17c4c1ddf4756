//! Slicing with brackets and with `get`. The proved source says which bytes a range has.

use std::ops::{Index, IndexMut, Range};

use crate::proved::utf16_str;
use crate::{ByteOrder, WStr, WString};

/// Nobody else can name this trait, so nobody else can implement [`SliceIndex`].
pub trait Sealed<T: ?Sized> {}

impl<I: utf16_str::SliceIndex<E>, E: 'static + ByteOrder> Sealed<WStr<E>> for I {}

/// A range of offsets, like [`std::slice::SliceIndex`]. The trait is sealed: only the ranges of
/// `usize` implement it.
pub trait SliceIndex<T: ?Sized>: Sealed<T> {
    /// The type of a substring: the same as the type of the string.
    type Output: ?Sized;

    /// Returns the substring, or `None` if the range is out of bounds, its start is after its end,
    /// or one of them is not a character boundary.
    fn get(self, slice: &T) -> Option<&Self::Output>;

    /// Returns the substring, mutable, or `None` like [`get`](SliceIndex::get).
    fn get_mut(self, slice: &mut T) -> Option<&mut Self::Output>;

    /// Returns the substring, without testing the range.
    ///
    /// # Safety
    ///
    /// [`get`](SliceIndex::get) would return `Some`.
    unsafe fn get_unchecked(self, slice: &T) -> &Self::Output;

    /// Returns the substring, mutable, without testing the range.
    ///
    /// # Safety
    ///
    /// [`get`](SliceIndex::get) would return `Some`.
    unsafe fn get_unchecked_mut(self, slice: &mut T) -> &mut Self::Output;

    /// Returns the substring. Panics if [`get`](SliceIndex::get) would return `None`.
    fn index(self, slice: &T) -> &Self::Output;

    /// Returns the substring, mutable. Panics if [`get`](SliceIndex::get) would return `None`.
    fn index_mut(self, slice: &mut T) -> &mut Self::Output;
}

/// Returns the bytes of a range in a string, in bounds or not, or panics if its end is no `usize`.
#[inline]
fn window<E: ByteOrder>(range: impl utf16_str::SliceIndex<E>, text: &WStr<E>) -> Range<usize> {
    let (start, end) = range.window(text.len()).unwrap_or_else(|| panic!("index overflow"));
    start..end
}

/// Returns the bytes of a range, or panics as brackets do if it is none of the string.
#[inline]
pub(crate) fn part<E: ByteOrder>(
    range: impl utf16_str::SliceIndex<E>,
    text: &WStr<E>,
) -> Range<usize> {
    let window = window(range, text);
    window.clone().index(text);
    window
}

impl<I: utf16_str::SliceIndex<E>, E: 'static + ByteOrder> SliceIndex<WStr<E>> for I {
    type Output = WStr<E>;

    #[inline]
    unsafe fn get_unchecked(self, slice: &WStr<E>) -> &WStr<E> {
        let window = window(self, slice);
        // SAFETY: the caller says that the range is a substring.
        unsafe { WStr::from_utf16_unchecked(slice.as_bytes().get_unchecked(window)) }
    }

    #[inline]
    unsafe fn get_unchecked_mut(self, slice: &mut WStr<E>) -> &mut WStr<E> {
        let window = window(self, slice);
        // SAFETY: the caller says that the range is a substring.
        unsafe { WStr::from_utf16_unchecked_mut(slice.as_bytes_mut().get_unchecked_mut(window)) }
    }

    methods! {
        fn get(self, slice: &WStr<E>) -> Option<&WStr<E>> = {
            let (start, end) = self.window(slice.len())?;
            slice.view().part(start, end).map(WStr::of)
        };
        fn get_mut(self, slice: &mut WStr<E>) -> Option<&mut WStr<E>> = {
            let (start, end) = self.window(slice.len())?;
            slice.view().part(start, end)?;
            // SAFETY: the range is a substring.
            Some(unsafe { (start..end).get_unchecked_mut(slice) })
        };
        fn index(self, slice: &WStr<E>) -> &WStr<E> =
            window(self, slice).get(slice).expect("slice index out of bounds");
        fn index_mut(self, slice: &mut WStr<E>) -> &mut WStr<E> =
            window(self, slice).get_mut(slice).expect("slice index out of bounds");
    }
}

macro_rules! index_by_ranges {
    ($($Text:ident)*) => {$(
        impl<I: SliceIndex<WStr<E>>, E: ByteOrder> Index<I> for $Text<E> {
            type Output = I::Output;

            methods! {
                fn index(&self, index: I) -> &I::Output = index.index(self);
            }
        }

        impl<I: SliceIndex<WStr<E>>, E: ByteOrder> IndexMut<I> for $Text<E> {
            methods! {
                fn index_mut(&mut self, index: I) -> &mut I::Output = index.index_mut(self);
            }
        }
    )*};
}

index_by_ranges!(WStr WString);
