// packaging/erase wrote this from crates/utf16string/src/wstring/extends.rt: do not edit it.
//! The characters or the texts of an iterator, appended to a string or collected into one.

use crate::proved::kit::{Extend, FromIterator};

use crate::proved::kit::{AllocError, Allocator};
use crate::proved::utf16_str::WStr;
use crate::proved::utf16_units::Utf16Order;
use crate::proved::utf16string::WString;

impl<E: Utf16Order, A: Allocator> WString<E, A> {
    /// Appends the characters of an iterator, in order, like `push`.
    ///
    /// # Errors
    ///
    /// `AllocError`, if allocation fails for a character. The characters appended so far stay, and
    /// the iterator is not advanced further.
    ///
    /// # Complexity
    ///
    /// Allocates nothing, and leaves the capacity as it is, if all characters fit or there are
    /// none.
    ///
    /// Proved:
    ///
    /// - requires `(it : U.IntoIter) → U.into_iter_gives iter it → U.IntoIter.can_next it ×
    ///   IsFinite (U.IntoIter.remaining it)`
    /// - ensures ran: `ExtendsWithItems U.into_iter_gives U.IntoIter.next_gives Extends iter
    ///   self.old self.new result`
    /// - ensures runs: `OnOk result ((it : U.IntoIter) × U.into_iter_gives iter it × WholeRun
    ///   U.IntoIter.next_gives it (λ p. Extends self.old p.items self.new))`
    /// - ensures err: `OnErr result ((it : U.IntoIter) × (front : List ℕ) × (c : ℕ) × (rest :
    ///   U.IntoIter) × U.into_iter_gives iter it × YieldsThen U.IntoIter.next_gives it front (Some
    ///   c) rest × Extends self.old front self.new × (wstring_capacity self.new < length
    ///   (wstring_bytes self.new) + char_size c))`
    /// - ensures stays: `length (wstring_bytes self.new) ≤ wstring_capacity self.old →
    ///   wstring_capacity self.new ≡ wstring_capacity self.old`
    /// - ensures grows: `wstring_capacity self.old ≤ wstring_capacity self.new`
    pub fn extend<U: IntoIterator<Item = char>>(&mut self, iter: U) -> Result<(), AllocError> {
        for ch in iter {
            self.push(ch)?;
        }
        Ok(())
    }
}

impl<E: Utf16Order, A: Allocator> Extend<char> for WString<E, A> {
    /// The clauses of the inherent `extend` hold here as well.
    ///
    /// Proved:
    ///
    /// - requires `(it : U.IntoIter) → U.into_iter_gives iter it → U.IntoIter.can_next it ×
    ///   IsFinite (U.IntoIter.remaining it)`
    /// - ensures ran: `ExtendsWithItems U.into_iter_gives U.IntoIter.next_gives Extends iter
    ///   self.old self.new result`
    /// - ensures runs: `OnOk result ((it : U.IntoIter) × U.into_iter_gives iter it × WholeRun
    ///   U.IntoIter.next_gives it (λ p. Extends self.old p.items self.new))`
    /// - ensures err: `OnErr result ((it : U.IntoIter) × (front : List ℕ) × (c : ℕ) × (rest :
    ///   U.IntoIter) × U.into_iter_gives iter it × YieldsThen U.IntoIter.next_gives it front (Some
    ///   c) rest × Extends self.old front self.new × (wstring_capacity self.new < length
    ///   (wstring_bytes self.new) + char_size c))`
    /// - ensures stays: `length (wstring_bytes self.new) ≤ wstring_capacity self.old →
    ///   wstring_capacity self.new ≡ wstring_capacity self.old`
    /// - ensures grows: `wstring_capacity self.old ≤ wstring_capacity self.new`
    fn extend<U: IntoIterator<Item = char>>(&mut self, iter: U) -> Result<(), AllocError> {
        WString::extend(self, iter)
    }
}

impl<E: Utf16Order, A: Allocator> FromIterator<char> for WString<E, A> {
    type Alloc = A;

    /// Collects the characters of an iterator into a new string.
    ///
    /// # Errors
    ///
    /// `AllocError`, if allocation fails for a character. The iterator is not advanced further.
    /// Nothing is allocated if the iterator has no characters.
    ///
    /// Proved:
    ///
    /// - requires `(it : U.IntoIter) → U.into_iter_gives iter it → U.IntoIter.can_next it ×
    ///   IsFinite (U.IntoIter.remaining it)`
    /// - ensures ran: `IfOk result (λ s. (it : U.IntoIter) × (text : List ℕ) × U.into_iter_gives
    ///   iter it × Drains U.IntoIter.next_gives it text × (wstring_text s ≡ text))`
    /// - ensures err: `OnErr result ((it : U.IntoIter) × (front : List ℕ) × (c : ℕ) × (rest :
    ///   U.IntoIter) × U.into_iter_gives iter it × YieldsThen U.IntoIter.next_gives it front (Some
    ///   c) rest)`
    /// - ensures empty: `IfOk result (λ s. wstring_bytes s ≡ [] → wstring_capacity s ≡ 0)`
    fn from_iter<U: IntoIterator<Item = char>>(alloc: A, iter: U) -> Result<Self, AllocError> {
        let mut text = Self::new(alloc);
        text.extend(iter)?;
        Ok(text)
    }
}

impl<'x, E: Utf16Order, A: Allocator> Extend<WStr<'x, E>> for WString<E, A> {
    /// Appends the texts of an iterator, in order, like `push_wstr`.
    ///
    /// # Errors
    ///
    /// `AllocError`, if allocation fails for a text, which did not fit. The texts appended so far
    /// stay, and the iterator is not advanced further.
    ///
    /// # Complexity
    ///
    /// Allocates only if a text does not fit. The capacity stays if all texts are empty.
    ///
    /// Proved:
    ///
    /// - requires `(it : U.IntoIter) → U.into_iter_gives iter it → U.IntoIter.can_next it ×
    ///   IsFinite (U.IntoIter.remaining it)`
    /// - ensures ran: `ExtendsWithItems U.into_iter_gives U.IntoIter.next_gives ExtendsViews iter
    ///   self.old self.new result`
    /// - ensures runs: `OnOk result ((it : U.IntoIter) × U.into_iter_gives iter it × WholeRun
    ///   U.IntoIter.next_gives it (λ p. ExtendsViews self.old p.items self.new))`
    /// - ensures err: `OnErr result ((it : U.IntoIter) × U.into_iter_gives iter it × StopsAt
    ///   U.IntoIter.next_gives it wstr_text self.old self.new)`
    /// - ensures stays: `wstring_bytes self.new ≡ wstring_bytes self.old → wstring_capacity
    ///   self.new ≡ wstring_capacity self.old`
    /// - ensures grows: `wstring_capacity self.old ≤ wstring_capacity self.new`
    fn extend<U: IntoIterator<Item = WStr<'x, E>>>(&mut self, iter: U) -> Result<(), AllocError> {
        // `Vec` does not promise that it keeps the capacity if nothing is appended, so an empty
        // text is not passed to it.
        for text in iter {
            if text.is_empty() {
                continue;
            }
            self.push_wstr(text)?;
        }
        Ok(())
    }
}

impl<'x, E: Utf16Order, A: Allocator> FromIterator<WStr<'x, E>> for WString<E, A> {
    type Alloc = A;

    /// Collects the texts of an iterator into a new string.
    ///
    /// # Errors
    ///
    /// `AllocError`, if allocation fails for a text. The iterator is not advanced further. Nothing
    /// is allocated if all texts are empty.
    ///
    /// Proved:
    ///
    /// - requires `(it : U.IntoIter) → U.into_iter_gives iter it → U.IntoIter.can_next it ×
    ///   IsFinite (U.IntoIter.remaining it)`
    /// - ensures ran: `IfOk result (λ s. (it : U.IntoIter) × (views : List _) × U.into_iter_gives
    ///   iter it × Drains U.IntoIter.next_gives it views × (wstring_text s ≡ view_texts views))`
    /// - ensures err: `OnErr result ((it : U.IntoIter) × U.into_iter_gives iter it × StopsFrom
    ///   U.IntoIter.next_gives it wstr_text)`
    /// - ensures empty: `IfOk result (λ s. wstring_bytes s ≡ [] → wstring_capacity s ≡ 0)`
    fn from_iter<U: IntoIterator<Item = WStr<'x, E>>>(
        alloc: A,
        iter: U,
    ) -> Result<Self, AllocError> {
        let mut text = Self::new(alloc);
        Extend::extend(&mut text, iter)?;
        Ok(text)
    }
}

impl<'x, E: Utf16Order, A: Allocator> Extend<&'x str> for WString<E, A> {
    /// Appends the characters of UTF-8 strings, in order, like `push_str`.
    ///
    /// # Errors
    ///
    /// `AllocError`, if allocation fails for a string, which did not fit. The characters of the
    /// strings before it stay, and the iterator is not advanced further.
    ///
    /// # Complexity
    ///
    /// Allocates only if a string does not fit. The capacity stays if all strings are empty.
    ///
    /// Proved:
    ///
    /// - requires `(it : U.IntoIter) → U.into_iter_gives iter it → U.IntoIter.can_next it ×
    ///   IsFinite (U.IntoIter.remaining it)`
    /// - ensures ran: `ExtendsWithItems U.into_iter_gives U.IntoIter.next_gives ExtendsStrs iter
    ///   self.old self.new result`
    /// - ensures runs: `OnOk result ((it : U.IntoIter) × U.into_iter_gives iter it × WholeRun
    ///   U.IntoIter.next_gives it (λ p. ExtendsStrs self.old p.items self.new))`
    /// - ensures err: `OnErr result ((it : U.IntoIter) × U.into_iter_gives iter it × StopsAt
    ///   U.IntoIter.next_gives it (λ string. chars string.now) self.old self.new)`
    /// - ensures stays: `wstring_bytes self.new ≡ wstring_bytes self.old → wstring_capacity
    ///   self.new ≡ wstring_capacity self.old`
    /// - ensures grows: `wstring_capacity self.old ≤ wstring_capacity self.new`
    fn extend<U: IntoIterator<Item = &'x str>>(&mut self, iter: U) -> Result<(), AllocError> {
        for string in iter {
            if string.is_empty() {
                continue;
            }
            self.push_str(string)?;
        }
        Ok(())
    }
}

impl<'x, E: Utf16Order, A: Allocator> FromIterator<&'x str> for WString<E, A> {
    type Alloc = A;

    /// Collects the characters of UTF-8 strings into a new string.
    ///
    /// # Errors
    ///
    /// `AllocError`, if allocation fails for a string. The iterator is not advanced further.
    /// Nothing is allocated if all strings are empty.
    ///
    /// Proved:
    ///
    /// - requires `(it : U.IntoIter) → U.into_iter_gives iter it → U.IntoIter.can_next it ×
    ///   IsFinite (U.IntoIter.remaining it)`
    /// - ensures ran: `IfOk result (λ s. (it : U.IntoIter) × (strings : List _) × U.into_iter_gives
    ///   iter it × Drains U.IntoIter.next_gives it strings × (wstring_text s ≡ str_texts strings))`
    /// - ensures err: `OnErr result ((it : U.IntoIter) × U.into_iter_gives iter it × StopsFrom
    ///   U.IntoIter.next_gives it (λ string. chars string.now))`
    /// - ensures empty: `IfOk result (λ s. wstring_bytes s ≡ [] → wstring_capacity s ≡ 0)`
    fn from_iter<U: IntoIterator<Item = &'x str>>(alloc: A, iter: U) -> Result<Self, AllocError> {
        let mut text = Self::new(alloc);
        Extend::extend(&mut text, iter)?;
        Ok(text)
    }
}
