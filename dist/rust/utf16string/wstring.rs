// packaging/erase wrote this from crates/utf16string/src/wstring.rt: do not edit it.
//! An owned UTF-16 string.

use crate::proved::kit::{String, Vec};

mod ascii;
mod byte_order;
mod capacity;
mod cmp;
mod copies;
mod cuts;
mod extends;
mod inserts;
mod overwrites;
mod ranges;
mod repeats;
mod replaces;
mod retains;
mod utf8;
mod writes;

use crate::proved::kit::{AllocError, Allocator, Global};
use crate::proved::utf16_str::{SliceIndex, WStr, WStrCharIndices, WStrChars};
use crate::proved::utf16_units::{
    validate_raw_utf16, BigEndian, LittleEndian, Utf16Error, Utf16Order,
};
use core::fmt;
use core::hash::{Hash, Hasher};
use core::marker::PhantomData;

/// An owned UTF-16 string in the byte order `E`, in memory of the allocator `A`. It is always well
/// formed. Lengths, offsets and capacities count bytes. A capacity larger than a vector can have
/// counts as a failed allocation.

pub struct WString<E: Utf16Order, A: Allocator = Global> {
    pub(crate) raw: Vec<u8, A>,
    order: PhantomData<E>,
}

impl<E: Utf16Order, A: Allocator> WString<E, A> {
    /// Returns an empty string, which keeps the allocator for later.
    ///
    /// # Complexity
    ///
    /// Allocates nothing.
    ///
    /// Proved:
    ///
    /// - ensures text: `wstring_text result ≡ []`
    /// - ensures bytes: `wstring_bytes result ≡ []`
    /// - ensures capacity: `wstring_capacity result ≡ 0`
    #[inline]
    pub fn new(alloc: A) -> Self {
        Self::from_utf16_unchecked(Vec::new(alloc))
    }

    /// Returns an empty string with a capacity of at least `capacity` bytes.
    ///
    /// # Errors
    ///
    /// `AllocError`, if allocation fails. It does not fail, and allocates nothing, if `capacity` is
    /// 0.
    ///
    /// Proved:
    ///
    /// - ensures text: `IfOk result (λ s. wstring_text s ≡ [])`
    /// - ensures bytes: `IfOk result (λ s. wstring_bytes s ≡ [])`
    /// - ensures reserved: `IfOk result (λ s. capacity ≤ wstring_capacity s)`
    /// - ensures nothing: `capacity ≡ 0 → IsOk result`
    /// - ensures empty: `capacity ≡ 0 → IfOk result (λ s. wstring_capacity s ≡ 0)`
    #[inline]
    pub fn with_capacity(alloc: A, capacity: usize) -> Result<Self, AllocError> {
        let buf = Vec::with_capacity(alloc, capacity)?;
        Ok(Self::from_utf16_unchecked(buf))
    }

    /// Converts a vector of bytes to a string if the bytes are well formed in byte order `E`.
    ///
    /// # Errors
    ///
    /// [`Utf16Error`], if the bytes are ill-formed: the length of the longest valid prefix and what
    /// follows it. The vector is dropped.
    ///
    /// # Complexity
    ///
    /// One pass over the bytes. Copies nothing.
    ///
    /// Proved:
    ///
    /// - ensures ok: `IsOk result ↔ IsUtf16 E.BIG buf.items`
    /// - ensures vec: `IfOk result (λ s. wstring_vec s ≡ buf)`
    /// - ensures encoding: `IfOk result (λ s. Encodes E.BIG (wstring_text s) buf.items)`
    /// - ensures error: `IfErr result (IsErrorOf E.BIG buf.items)`
    #[inline]
    pub fn from_utf16(buf: Vec<u8, A>) -> Result<Self, Utf16Error> {
        validate_raw_utf16::<E>(&buf)?;
        Ok(Self::from_utf16_unchecked(buf))
    }

    /// Converts a vector of bytes to a string without validation.
    ///
    /// # Precondition
    ///
    /// The bytes are well formed in byte order `E` (check with `WStr::from_utf16`).
    ///
    /// Proved:
    ///
    /// - requires `IsUtf16 E.BIG buf.items`
    /// - ensures vec: `wstring_vec result ≡ buf`
    /// - ensures encoding: `Encodes E.BIG (wstring_text result) buf.items`
    #[inline]
    pub fn from_utf16_unchecked(buf: Vec<u8, A>) -> Self {
        WString {
            raw: buf,
            order: PhantomData,
        }
    }

    /// Returns the bytes, which encode the text, in the vector of the string.
    ///
    /// Proved:
    ///
    /// - ensures vec: `result ≡ wstring_vec self`
    /// - ensures encoding: `Encodes E.BIG (wstring_text self) result.items`
    #[inline]
    pub fn into_bytes(self) -> Vec<u8, A> {
        self.raw
    }

    /// Returns a view of the whole text.
    ///
    /// Proved:
    ///
    /// - ensures bytes: `wstr_bytes result ≡ wstring_bytes self.now`
    /// - ensures text: `wstr_text result ≡ wstring_text self.now`
    #[inline]
    pub fn as_wstr(&self) -> WStr<'_, E> {
        WStr::from_utf16_unchecked(&self.raw)
    }

    /// Returns the capacity: how many bytes the string can hold without allocation, including the
    /// bytes of the text.
    ///
    /// Proved:
    ///
    /// - ensures capacity: `result ≡ wstring_capacity self.now`
    /// - ensures held: `length (wstring_bytes self.now) ≤ result`
    #[inline]
    pub fn capacity(&self) -> usize {
        self.raw.capacity()
    }

    /// Returns the length of the text in bytes, which is a character boundary.
    ///
    /// Proved:
    ///
    /// - ensures bytes: `result ≡ length (wstring_bytes self.now)`
    /// - ensures size: `result ≡ size (wstring_text self.now)`
    /// - ensures boundary: `IsBoundary (wstring_text self.now) result`
    #[inline]
    pub fn len(&self) -> usize {
        self.as_wstr().len()
    }

    /// Returns whether the text is empty.
    ///
    /// Proved:
    ///
    /// - ensures empty: `IsTrue result ↔ (wstring_text self.now ≡ [])`
    /// - ensures value: `result ≡ (length (wstring_text self.now) == 0)`
    #[inline]
    pub fn is_empty(&self) -> bool {
        self.as_wstr().is_empty()
    }

    /// Returns the bytes, which encode the text.
    ///
    /// Proved:
    ///
    /// - ensures bytes: `result.now ≡ wstring_bytes self.now`
    /// - ensures encoding: `Encodes E.BIG (wstring_text self.now) result.now`
    #[inline]
    pub fn as_bytes(&self) -> &[u8] {
        self.as_wstr().as_bytes()
    }

    /// Returns whether a byte offset is a character boundary: the start, the end, or an offset
    /// between two characters. Any offset is allowed.
    ///
    /// Proved:
    ///
    /// - ensures `IsTrue result ↔ IsBoundary (wstring_text self.now) index`
    #[inline]
    pub fn is_char_boundary(&self, index: usize) -> bool {
        self.as_wstr().is_char_boundary(index)
    }

    /// Returns the substring at a range of byte offsets, or `None` if its start is after its end,
    /// or an end is not a character boundary.
    ///
    /// Proved:
    ///
    /// - ensures some: `IsSome result ↔ IsRangeOf E.BIG (wstring_bytes self.now) (I.window index)`
    /// - ensures part: `IfSome result (λ part. wstr_text part ≡ range_text E.BIG (wstring_bytes
    ///   self.now) (I.window index))`
    /// - ensures bytes: `IfSome result (λ part. wstr_bytes part ≡ range_bytes (wstring_bytes
    ///   self.now) (I.window index))`
    #[inline]
    pub fn get<I: SliceIndex<E>>(&self, index: I) -> Option<WStr<'_, E>> {
        self.as_wstr().get(index)
    }

    /// Returns the substring at a range of byte offsets.
    ///
    /// # Precondition
    ///
    /// The start is at most the end, and both are character boundaries (check with `get`).
    ///
    /// Proved:
    ///
    /// - requires `IsRangeOf E.BIG (wstring_bytes self.now) (I.window index)`
    /// - ensures text: `wstr_text result ≡ range_text E.BIG (wstring_bytes self.now) (I.window
    ///   index)`
    /// - ensures bytes: `wstr_bytes result ≡ range_bytes (wstring_bytes self.now) (I.window index)`
    #[inline]
    pub fn get_unchecked<I: SliceIndex<E>>(&self, index: I) -> WStr<'_, E> {
        self.as_wstr().get_unchecked(index)
    }

    /// Returns the substring at a range of byte offsets. This replaces `s[a..b]`.
    ///
    /// # Precondition
    ///
    /// The start is at most the end, and both are character boundaries (check with `get`).
    ///
    /// Proved:
    ///
    /// - requires `IsRangeOf E.BIG (wstring_bytes self.now) (I.window index)`
    /// - ensures text: `wstr_text result ≡ range_text E.BIG (wstring_bytes self.now) (I.window
    ///   index)`
    /// - ensures bytes: `wstr_bytes result ≡ range_bytes (wstring_bytes self.now) (I.window index)`
    #[inline]
    pub fn index<I: SliceIndex<E>>(&self, index: I) -> WStr<'_, E> {
        self.as_wstr().index(index)
    }

    /// Returns an iterator over the characters, in order. The clauses of `WStr::chars` hold here as
    /// well.
    ///
    /// Proved:
    ///
    /// - ensures text: `result ≡ wstring_text self.now`
    /// - ensures bound: `length result < 2 ^ 64`
    /// - ensures runs: `YieldsInOrder (YieldsFirst (λ (rest : List ℕ). rest)) (λ rest. rest)`
    /// - ensures runs_back: `YieldsInReverse (YieldsLast (λ (rest : List ℕ). rest)) (λ rest. rest)`
    #[inline]
    pub fn chars(&self) -> WStrChars<'_, E> {
        self.as_wstr().chars()
    }

    /// Returns an iterator over the characters, in order, each with its byte offset. The clauses of
    /// `WStr::char_indices` hold here as well.
    ///
    /// Proved:
    ///
    /// - ensures text: `result ≡ char_offsets 0 (wstring_text self.now)`
    /// - ensures offsets: `All (IsCharAt (wstring_text self.now)) result`
    /// - ensures bound: `length result < 2 ^ 64`
    /// - ensures runs: `YieldsInOrder (YieldsFirst (λ (rest : List (ℕ × ℕ)). rest)) (λ rest. rest)`
    /// - ensures runs_back: `YieldsInReverse (YieldsLast (λ (rest : List (ℕ × ℕ)). rest)) (λ rest.
    ///   rest)`
    #[inline]
    pub fn char_indices(&self) -> WStrCharIndices<'_, E> {
        self.as_wstr().char_indices()
    }

    /// Returns whether all characters are ASCII, below U+0080.
    ///
    /// Proved:
    ///
    /// - ensures `IsTrue result ↔ All (λ c. c < 0x80) (wstring_text self.now)`
    #[inline]
    pub fn is_ascii(&self) -> bool {
        self.as_wstr().is_ascii()
    }

    /// Returns a new `String` with the same characters, in UTF-8.
    ///
    /// # Errors
    ///
    /// `AllocError`, if allocation fails. It does not fail for the empty text.
    ///
    /// # Complexity
    ///
    /// Allocates once, for as many bytes as the characters take, but at least eight, and not at all
    /// for the empty text.
    ///
    /// Proved:
    ///
    /// - ensures text: `IfOk result (λ s. string_bytes s ≡ encode_utf8_all (wstring_text
    ///   self.now))`
    /// - ensures nothing: `wstring_text self.now ≡ [] → IsOk result`
    #[inline]
    pub fn to_utf8<B: Allocator>(&self, alloc: B) -> Result<String<B>, AllocError> {
        self.as_wstr().to_utf8(alloc)
    }
}

impl<A: Allocator> WString<LittleEndian, A> {
    /// Converts a vector of little-endian bytes, like `from_utf16`.
    ///
    /// Proved:
    ///
    /// - ensures ok: `IsOk result ↔ IsUtf16 false buf.items`
    /// - ensures vec: `IfOk result (λ s. wstring_vec s ≡ buf)`
    /// - ensures encoding: `IfOk result (λ s. Encodes false (wstring_text s) buf.items)`
    /// - ensures error: `IfErr result (IsErrorOf false buf.items)`
    #[inline]
    pub fn from_utf16le(buf: Vec<u8, A>) -> Result<Self, Utf16Error> {
        WString::<LittleEndian, A>::from_utf16(buf)
    }

    /// Converts a vector of little-endian bytes without validation, like `from_utf16_unchecked`.
    ///
    /// Proved:
    ///
    /// - requires `IsUtf16 false buf.items`
    /// - ensures vec: `wstring_vec result ≡ buf`
    /// - ensures encoding: `Encodes false (wstring_text result) buf.items`
    #[inline]
    pub fn from_utf16le_unchecked(buf: Vec<u8, A>) -> Self {
        WString::<LittleEndian, A>::from_utf16_unchecked(buf)
    }
}

impl<A: Allocator> WString<BigEndian, A> {
    /// Converts a vector of big-endian bytes, like `from_utf16`.
    ///
    /// Proved:
    ///
    /// - ensures ok: `IsOk result ↔ IsUtf16 true buf.items`
    /// - ensures vec: `IfOk result (λ s. wstring_vec s ≡ buf)`
    /// - ensures encoding: `IfOk result (λ s. Encodes true (wstring_text s) buf.items)`
    /// - ensures error: `IfErr result (IsErrorOf true buf.items)`
    #[inline]
    pub fn from_utf16be(buf: Vec<u8, A>) -> Result<Self, Utf16Error> {
        WString::<BigEndian, A>::from_utf16(buf)
    }

    /// Converts a vector of big-endian bytes without validation, like `from_utf16_unchecked`.
    ///
    /// Proved:
    ///
    /// - requires `IsUtf16 true buf.items`
    /// - ensures vec: `wstring_vec result ≡ buf`
    /// - ensures encoding: `Encodes true (wstring_text result) buf.items`
    #[inline]
    pub fn from_utf16be_unchecked(buf: Vec<u8, A>) -> Self {
        WString::<BigEndian, A>::from_utf16_unchecked(buf)
    }
}

impl<E: Utf16Order, A: Allocator> fmt::Display for WString<E, A> {
    fn fmt(&self, f: &mut fmt::Formatter<'_>) -> fmt::Result {
        fmt::Display::fmt(&self.as_wstr(), f)
    }
}

impl<E: Utf16Order, A: Allocator> fmt::Debug for WString<E, A> {
    fn fmt(&self, f: &mut fmt::Formatter<'_>) -> fmt::Result {
        f.debug_struct("WString")
            .field("raw", &self.as_bytes())
            .finish()
    }
}

impl<E: Utf16Order, A: Allocator> PartialEq for WString<E, A> {
    // Proved:
    //
    // - ensures bytes: `result ≡ pointwise nat_eq (wstring_bytes self.now) (wstring_bytes
    //   other.now)`
    // - ensures texts: `IsTrue result ↔ (wstring_text self.now ≡ wstring_text other.now)`
    #[inline]
    fn eq(&self, other: &Self) -> bool {
        self.as_wstr() == other.as_wstr()
    }
}

impl<E: Utf16Order, A: Allocator> Eq for WString<E, A> {}

impl<E: Utf16Order, A: Allocator> Hash for WString<E, A> {
    #[inline]
    fn hash<H: Hasher>(&self, state: &mut H) {
        self.as_wstr().hash(state);
    }
}
