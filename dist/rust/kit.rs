//! What the kit's `std` has and Rust's does not: an allocation that fails returns an error. This is
//! written by hand over `alloc`, and tested, not proved.

use alloc::string::String as Text;
use alloc::vec::Vec as Items;
use core::alloc::Layout;
use core::fmt;
use core::ops::{Deref, DerefMut};

/// The error of an allocation that failed, or of a capacity that a vector cannot have.
#[derive(Clone, Copy, Debug, PartialEq, Eq)]
pub struct AllocError;

impl fmt::Display for AllocError {
    fn fmt(&self, f: &mut fmt::Formatter<'_>) -> fmt::Result {
        f.write_str("memory allocation failed")
    }
}

impl From<AllocError> for fmt::Error {
    fn from(_: AllocError) -> Self {
        fmt::Error
    }
}

/// An allocator. The global one is the only one, since a vector of stable Rust has no other.
pub trait Allocator {}

/// The global allocator.
#[derive(Clone, Copy, Debug, Default)]
pub struct Global;

impl Allocator for Global {}

/// Returns two bytes in a row.
#[inline(always)]
pub fn two(bytes: &[u8], at: usize) -> [u8; 2] {
    bytes[at..at + 2].try_into().expect("two bytes")
}

/// Writes two bytes in a row.
#[inline(always)]
pub fn put_two(bytes: &mut [u8], at: usize, two: [u8; 2]) {
    bytes[at..at + 2].copy_from_slice(&two);
}

/// Returns an empty vector with a capacity. It is faster than `try_reserve_exact`.
#[inline]
fn allocate<T>(capacity: usize) -> Result<Items<T>, AllocError> {
    let layout = Layout::array::<T>(capacity).map_err(|_| AllocError)?;
    if layout.size() == 0 {
        return Ok(Items::new());
    }
    // SAFETY: the layout has a size, and is the one with which a vector frees its memory.
    unsafe {
        let items = alloc::alloc::alloc(layout).cast::<T>();
        if items.is_null() {
            return Err(AllocError);
        }
        Ok(Items::from_raw_parts(items, 0, capacity))
    }
}

/// Types whose values can be copied, which may fail.
pub trait Clone: Sized {
    /// Returns a copy.
    fn clone(&self) -> Result<Self, AllocError>;
}

impl Clone for Global {
    fn clone(&self) -> Result<Self, AllocError> {
        Ok(Global)
    }
}

/// Collections to which the items of an iterator can be appended, which may fail.
pub trait Extend<T> {
    /// Appends the items.
    fn extend<U: IntoIterator<Item = T>>(&mut self, iter: U) -> Result<(), AllocError>;
}

/// Collections that can be made of the items of an iterator, which may fail.
pub trait FromIterator<T>: Sized {
    /// The type of the allocator.
    type Alloc;

    /// Collects the items.
    fn from_iter<U: IntoIterator<Item = T>>(
        alloc: Self::Alloc,
        iter: U,
    ) -> Result<Self, AllocError>;
}

/// `str::floor_char_boundary` for Rust before 1.91.
#[inline]
pub fn floor_char_boundary(text: &str, index: usize) -> usize {
    let indices = (0..=index.min(text.len())).rev();
    let mut boundaries = indices.filter(|at| text.is_char_boundary(*at));
    boundaries.next().unwrap_or(0)
}

/// Rust's `Vec` with the methods of the kit's.
#[derive(Debug)]
pub struct Vec<T, A: Allocator = Global> {
    items: Items<T>,
    alloc: A,
}

impl<T> From<Items<T>> for Vec<T> {
    #[inline]
    fn from(items: Items<T>) -> Self {
        Vec {
            items,
            alloc: Global,
        }
    }
}

impl<T> From<Vec<T>> for Items<T> {
    #[inline]
    fn from(vec: Vec<T>) -> Self {
        vec.items
    }
}

impl<T, A: Allocator> Deref for Vec<T, A> {
    type Target = [T];

    #[inline]
    fn deref(&self) -> &[T] {
        &self.items
    }
}

impl<T, A: Allocator> DerefMut for Vec<T, A> {
    #[inline]
    fn deref_mut(&mut self) -> &mut [T] {
        &mut self.items
    }
}

impl<T, A: Allocator> Vec<T, A> {
    #[inline]
    pub fn new(alloc: A) -> Self {
        let items = Items::new();
        Vec { items, alloc }
    }

    #[inline]
    pub fn with_capacity(alloc: A, capacity: usize) -> Result<Self, AllocError> {
        let items = allocate(capacity)?;
        Ok(Vec { items, alloc })
    }

    #[inline]
    pub fn allocator(&self) -> &A {
        &self.alloc
    }

    #[inline]
    pub fn capacity(&self) -> usize {
        self.items.capacity()
    }

    #[inline]
    pub fn as_mut_slice(&mut self) -> &mut [T] {
        &mut self.items
    }

    /// Returns Rust's vector.
    #[inline]
    pub fn as_mut_vec(&mut self) -> &mut Items<T> {
        &mut self.items
    }

    #[inline]
    pub fn reserve(&mut self, additional: usize) -> Result<(), AllocError> {
        self.items.try_reserve(additional).map_err(|_| AllocError)
    }

    #[inline]
    pub fn reserve_exact(&mut self, additional: usize) -> Result<(), AllocError> {
        let reserved = self.items.try_reserve_exact(additional);
        reserved.map_err(|_| AllocError)
    }

    /// Appends an item for which there is capacity. Unlike `push` it has no code that allocates.
    #[inline]
    pub fn push_reserved(&mut self, item: T) {
        self.items.spare_capacity_mut()[0].write(item);
        let len = self.items.len() + 1;
        // SAFETY: the item is written.
        unsafe { self.items.set_len(len) };
    }

    #[inline]
    pub fn push(&mut self, item: T) -> Result<(), AllocError> {
        self.reserve(1)?;
        self.items.push(item);
        Ok(())
    }

    #[inline]
    pub fn truncate(&mut self, len: usize) {
        self.items.truncate(len);
    }

    #[inline]
    pub fn clear(&mut self) {
        self.items.clear();
    }

    #[inline]
    pub fn shrink_to_fit(&mut self) {
        self.items.shrink_to_fit();
    }

    #[inline]
    pub fn shrink_to(&mut self, min_capacity: usize) {
        self.items.shrink_to(min_capacity);
    }
}

impl<T: Copy, A: Allocator> Vec<T, A> {
    #[inline]
    pub fn from_slice(alloc: A, items: &[T]) -> Result<Self, AllocError> {
        let mut vec = Self::with_capacity(alloc, items.len())?;
        vec.items.extend_from_slice(items);
        Ok(vec)
    }

    #[inline]
    pub fn extend_from_slice(&mut self, items: &[T]) -> Result<(), AllocError> {
        self.reserve(items.len())?;
        self.items.extend_from_slice(items);
        Ok(())
    }

    /// Inserts items at an index, and moves what follows once.
    #[inline]
    pub fn insert_from_slice(&mut self, index: usize, items: &[T]) -> Result<(), AllocError> {
        let (len, count) = (self.items.len(), items.len());
        assert!(index <= len);
        self.reserve(count)?;
        // SAFETY: the capacity is enough, and each item up to the new length is written.
        unsafe {
            let at = self.items.as_mut_ptr().add(index);
            at.copy_to(at.add(count), len - index);
            at.copy_from_nonoverlapping(items.as_ptr(), count);
            self.items.set_len(len + count);
        }
        Ok(())
    }

    #[inline]
    pub fn split_off(&mut self, at: usize) -> Result<Self, AllocError>
    where
        A: Clone,
    {
        let back = Self::from_slice(self.alloc.clone()?, &self.items[at..])?;
        self.items.truncate(at);
        Ok(back)
    }
}

/// Rust's `String` with the methods of the kit's.
#[derive(Debug)]
pub struct String<A: Allocator = Global> {
    text: Text,
    _alloc: A,
}

impl From<Text> for String {
    #[inline]
    fn from(text: Text) -> Self {
        let _alloc = Global;
        String { text, _alloc }
    }
}

impl From<String> for Text {
    #[inline]
    fn from(string: String) -> Self {
        string.text
    }
}

impl<A: Allocator> Deref for String<A> {
    type Target = str;

    #[inline]
    fn deref(&self) -> &str {
        &self.text
    }
}

impl<A: Allocator> String<A> {
    #[inline]
    pub fn with_capacity(alloc: A, capacity: usize) -> Result<Self, AllocError> {
        let mut text = Text::new();
        text.try_reserve_exact(capacity).map_err(|_| AllocError)?;
        Ok(String {
            text,
            _alloc: alloc,
        })
    }

    #[inline]
    pub fn capacity(&self) -> usize {
        self.text.capacity()
    }

    #[inline]
    pub fn reserve(&mut self, additional: usize) -> Result<(), AllocError> {
        self.text.try_reserve(additional).map_err(|_| AllocError)
    }

    #[inline]
    pub fn push(&mut self, c: char) -> Result<(), AllocError> {
        self.reserve(c.len_utf8())?;
        self.text.push(c);
        Ok(())
    }

    #[inline]
    pub fn push_str(&mut self, text: &str) -> Result<(), AllocError> {
        self.reserve(text.len())?;
        self.text.push_str(text);
        Ok(())
    }
}
