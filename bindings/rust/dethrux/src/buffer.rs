use core::mem::MaybeUninit;

mod sealed {
    pub trait Sealed<T> {
        /// Returns where the elements are, and how many.
        fn raw(&mut self) -> (*mut T, usize);
    }

    /// What a call writes: a byte, or a code unit of UTF-32.
    pub trait Element {}
    impl Element for u8 {}
    impl Element for u32 {}
}

pub(crate) use sealed::{Element, Sealed};

/// Elements that a call writes to: a slice or an array of `T` or of `MaybeUninit<T>`. `T` is `u8`,
/// or for UTF-32 `u32`.
///
/// After a call only the first `written` elements have a meaning, and these are initialized. Pass a
/// vector as `&mut vec[..]`, or its `spare_capacity_mut()`.
pub trait Buffer<T = u8>: Sealed<T> {}

impl<T, B: Sealed<T> + ?Sized> Buffer<T> for B {}

impl<T: Element> Sealed<T> for [T] {
    fn raw(&mut self) -> (*mut T, usize) {
        (self.as_mut_ptr(), self.len())
    }
}

impl<T: Element> Sealed<T> for [MaybeUninit<T>] {
    fn raw(&mut self) -> (*mut T, usize) {
        if cfg!(dethrux_pure) {
            // SAFETY: zeros are an element, and the source takes initialized ones.
            unsafe { self.as_mut_ptr().write_bytes(0, self.len()) }
        }
        (self.as_mut_ptr().cast(), self.len())
    }
}

impl<T: Element, E, const N: usize> Sealed<T> for [E; N]
where
    [E]: Sealed<T>,
{
    fn raw(&mut self) -> (*mut T, usize) {
        self[..].raw()
    }
}
