// packaging/erase wrote this from crates/utf16_str/src/wstr.rt: do not edit it.
//! A borrowed UTF-16 string slice.

use crate::proved::kit::AllocError;
use crate::proved::utf16_str::{WStrCharIndices, WStrChars};
use crate::proved::utf16_units::compare::compare;
use crate::proved::utf16_units::{
    is_trailing_surrogate, text, validate_raw_utf16, BigEndian, LittleEndian, Utf16Error,
    Utf16Order,
};
use core::cmp::Ordering;
use core::fmt::{self, Write as _};
use core::hash::{Hash, Hasher};
use core::marker::PhantomData;

/// A UTF-16 string slice in the byte order `E`: a view of borrowed bytes.
///
/// The bytes are always well-formed UTF-16. The type is `Copy`. Lengths and offsets are in bytes.
pub struct WStr<'a, E: Utf16Order> {
    raw: &'a [u8],
    order: PhantomData<E>,
}

impl<'a, E: Utf16Order> Copy for WStr<'a, E> {}

impl<'a, E: Utf16Order> core::clone::Clone for WStr<'a, E> {
    fn clone(&self) -> Self {
        *self
    }
}

impl<'a, E: Utf16Order> WStr<'a, E> {
    /// Returns a view of `raw`, if it is well-formed UTF-16 in the byte order `E`.
    ///
    /// # Errors
    ///
    /// [`Utf16Error`], if `raw` is ill-formed.
    ///
    /// # Complexity
    ///
    /// One pass over the bytes. Copies nothing.
    ///
    /// Proved:
    ///
    /// - ensures ok: `IsOk result ↔ IsUtf16 E.BIG raw.now`
    /// - ensures bytes: `IfOk result (λ s. wstr_bytes s ≡ raw.now)`
    /// - ensures encoding: `IfOk result (λ s. Encodes E.BIG (wstr_text s) raw.now)`
    /// - ensures error: `IfErr result (IsErrorOf E.BIG raw.now)`
    #[inline]
    pub fn from_utf16(raw: &'a [u8]) -> Result<Self, Utf16Error> {
        validate_raw_utf16::<E>(raw)?;
        Ok(Self::from_utf16_unchecked(raw))
    }

    /// Returns a view of `raw` without a test.
    ///
    /// # Precondition
    ///
    /// `raw` is well-formed UTF-16 in the byte order `E` (check with `from_utf16`).
    ///
    /// Proved:
    ///
    /// - requires `IsUtf16 E.BIG raw.now`
    /// - ensures bytes: `wstr_bytes result ≡ raw.now`
    /// - ensures encoding: `Encodes E.BIG (wstr_text result) raw.now`
    #[inline]
    pub fn from_utf16_unchecked(raw: &'a [u8]) -> Self {
        WStr {
            raw,
            order: PhantomData,
        }
    }

    /// Returns the length of the text in bytes. It is a character boundary.
    ///
    /// Proved:
    ///
    /// - ensures bytes: `result ≡ length (wstr_bytes self.now)`
    /// - ensures size: `result ≡ size (wstr_text self.now)`
    /// - ensures boundary: `IsBoundary (wstr_text self.now) result`
    #[inline]
    pub fn len(&self) -> usize {
        self.as_bytes().len()
    }

    /// Returns `true` if the text has no characters.
    ///
    /// Proved:
    ///
    /// - ensures empty: `IsTrue result ↔ (wstr_text self.now ≡ [])`
    /// - ensures value: `result ≡ (length (wstr_text self.now) == 0)`
    #[inline]
    pub fn is_empty(&self) -> bool {
        self.as_bytes().is_empty()
    }

    /// Returns `true` if `index`, an offset in bytes, is a character boundary.
    ///
    /// A boundary is the start of the text, its end, or an offset at which one character ends and
    /// the next begins. Any offset may be given.
    ///
    /// # Complexity
    ///
    /// Constant time: reads at most one code unit.
    ///
    /// Proved:
    ///
    /// - ensures `IsTrue result ↔ IsBoundary (wstr_text self.now) index`
    #[inline]
    pub fn is_char_boundary(&self, index: usize) -> bool {
        let raw = self.as_bytes();
        if index >= raw.len() {
            return index == raw.len();
        }
        if index % 2 != 0 {
            return false;
        }
        !is_trailing_surrogate(E::read_unit([raw[index], raw[index + 1]]))
    }

    /// Returns `true` if `text` can overwrite the bytes starting at the byte offset `idx`.
    ///
    /// It can if `idx` and `idx + text.len()` are both character boundaries. Any offset may be
    /// given.
    ///
    /// Proved:
    ///
    /// - ensures `IsTrue result ↔ (IsBoundary (wstr_text self.entry) idx × IsBoundary (wstr_text
    ///   self.entry) (idx + size (wstr_text text.entry)))`
    #[inline]
    pub fn fits(self, idx: usize, text: WStr<E>) -> bool {
        let Some(end) = idx.checked_add(text.len()) else {
            return false;
        };
        self.is_char_boundary(idx) && self.is_char_boundary(end)
    }

    /// Returns the bytes that encode the text, borrowed for `'a`.
    ///
    /// Proved:
    ///
    /// - ensures bytes: `result.now ≡ wstr_bytes self.entry`
    /// - ensures encoding: `Encodes E.BIG (wstr_text self.entry) result.now`
    #[inline]
    pub fn as_bytes(self) -> &'a [u8] {
        self.raw
    }

    /// Returns an iterator over the characters, in order.
    ///
    /// The clause `text` determines the result. The clauses `runs` and `runs_back` restate it for
    /// the prover at the start of an iterator chain, forwards and backwards: from them a caller's
    /// proof knows what `collect`, `rev`, `position` and other calls of the chain return.
    ///
    /// Proved:
    ///
    /// - ensures text: `result ≡ wstr_text self.entry`
    /// - ensures bound: `length result < 2 ^ 64`
    /// - ensures runs: `YieldsInOrder (YieldsFirst (λ (rest : List ℕ). rest)) (λ rest. rest)`
    /// - ensures runs_back: `YieldsInReverse (YieldsLast (λ (rest : List ℕ). rest)) (λ rest. rest)`
    #[inline]
    pub fn chars(self) -> WStrChars<'a, E> {
        WStrChars { rest: self }
    }

    /// Returns an iterator over the characters, in order, each with its byte offset.
    ///
    /// The clauses of `chars` hold here as well. In addition, `offsets` says where each character
    /// is: between two boundaries, the first of which is its offset.
    ///
    /// Proved:
    ///
    /// - ensures text: `result ≡ char_offsets 0 (wstr_text self.entry)`
    /// - ensures offsets: `All (IsCharAt (wstr_text self.entry)) result`
    /// - ensures bound: `length result < 2 ^ 64`
    /// - ensures runs: `YieldsInOrder (YieldsFirst (λ (rest : List (ℕ × ℕ)). rest)) (λ rest. rest)`
    /// - ensures runs_back: `YieldsInReverse (YieldsLast (λ (rest : List (ℕ × ℕ)). rest)) (λ rest.
    ///   rest)`
    #[inline]
    pub fn char_indices(self) -> WStrCharIndices<'a, E> {
        WStrCharIndices {
            offset: 0,
            chars: self.chars(),
        }
    }

    /// Returns `true` if the text has the same characters as `s`.
    ///
    /// # Complexity
    ///
    /// One pass over both, up to the first character that differs, in constant memory.
    ///
    /// Proved:
    ///
    /// - ensures `IsTrue result ↔ (wstr_text self.now ≡ chars s.now)`
    pub fn eq_str(&self, s: &str) -> bool {
        let mut theirs = s.chars();
        for c in self.chars() {
            if theirs.next() != Some(c) {
                return false;
            }
        }
        theirs.next().is_none()
    }

    /// Returns `true` if every character is ASCII, below U+0080. It tests characters, not bytes.
    ///
    /// # Complexity
    ///
    /// One pass, up to the first block that has a non-ASCII character.
    ///
    /// Proved:
    ///
    /// - ensures `IsTrue result ↔ All (λ c. c < 0x80) (wstr_text self.now)`
    pub fn is_ascii(&self) -> bool {
        text::is_ascii::<E>(self.as_bytes())
    }
}

impl<'a, E: Utf16Order> fmt::Display for WStr<'a, E> {
    fn fmt(&self, f: &mut fmt::Formatter<'_>) -> fmt::Result {
        for c in self.chars() {
            f.write_char(c)?;
        }
        Ok(())
    }
}

impl<'a, E: Utf16Order> fmt::Debug for WStr<'a, E> {
    fn fmt(&self, f: &mut fmt::Formatter<'_>) -> fmt::Result {
        f.debug_struct("WStr")
            .field("raw", &self.as_bytes())
            .finish()
    }
}

impl<'a, E: Utf16Order> PartialEq for WStr<'a, E> {
    // Proved:
    //
    // - ensures bytes: `result ≡ pointwise nat_eq (wstr_bytes self.now) (wstr_bytes other.now)`
    // - ensures texts: `IsTrue result ↔ (wstr_text self.now ≡ wstr_text other.now)`
    #[inline]
    fn eq(&self, other: &Self) -> bool {
        self.as_bytes() == other.as_bytes()
    }
}

impl<'a, E: Utf16Order> Eq for WStr<'a, E> {}

/// Compares by scalar values, character by character, like `str`. In both byte orders the result
/// can differ from a comparison of the bytes or of the code units.
impl<'a, E: Utf16Order> PartialOrd for WStr<'a, E> {
    #[inline]
    fn partial_cmp(&self, other: &Self) -> Option<Ordering> {
        Some(self.cmp(other))
    }
}

impl<'a, E: Utf16Order> Ord for WStr<'a, E> {
    // Proved:
    //
    // - ensures cmp: `result ≡ slice_cmp nat_cmp (wstr_text self.now) (wstr_text other.now)`
    // - ensures less: `result ≡ Less ↔ IsBefore (wstr_text self.now) (wstr_text other.now)`
    // - ensures equal: `result ≡ Equal ↔ (wstr_text self.now ≡ wstr_text other.now)`
    // - ensures greater: `result ≡ Greater ↔ IsBefore (wstr_text other.now) (wstr_text self.now)`
    #[inline]
    fn cmp(&self, other: &Self) -> Ordering {
        compare::<E>(self.as_bytes(), other.as_bytes())
    }
}

impl<'a, E: Utf16Order> Hash for WStr<'a, E> {
    #[inline]
    fn hash<H: Hasher>(&self, state: &mut H) {
        state.write_usize(self.len());
        state.write(self.as_bytes());
    }
}

impl<'a> WStr<'a, LittleEndian> {
    /// Returns a view of `raw`, if it is well-formed UTF-16LE: `from_utf16` in little endian.
    ///
    /// # Errors
    ///
    /// [`Utf16Error`], if `raw` is ill-formed.
    ///
    /// Proved:
    ///
    /// - ensures ok: `IsOk result ↔ IsUtf16 false raw.now`
    /// - ensures bytes: `IfOk result (λ s. wstr_bytes s ≡ raw.now)`
    /// - ensures encoding: `IfOk result (λ s. Encodes false (wstr_text s) raw.now)`
    /// - ensures error: `IfErr result (IsErrorOf false raw.now)`
    #[inline]
    pub fn from_utf16le(raw: &'a [u8]) -> Result<Self, Utf16Error> {
        WStr::<LittleEndian>::from_utf16(raw)
    }

    /// Returns a view of `raw` without a test: `from_utf16_unchecked` in little endian.
    ///
    /// # Precondition
    ///
    /// `raw` is well-formed UTF-16LE (check with `from_utf16le`).
    ///
    /// Proved:
    ///
    /// - requires `IsUtf16 false raw.now`
    /// - ensures bytes: `wstr_bytes result ≡ raw.now`
    /// - ensures encoding: `Encodes false (wstr_text result) raw.now`
    #[inline]
    pub fn from_utf16le_unchecked(raw: &'a [u8]) -> Self {
        WStr::<LittleEndian>::from_utf16_unchecked(raw)
    }
}

impl<'a> WStr<'a, BigEndian> {
    /// Returns a view of `raw`, if it is well-formed UTF-16BE: `from_utf16` in big endian.
    ///
    /// # Errors
    ///
    /// [`Utf16Error`], if `raw` is ill-formed.
    ///
    /// Proved:
    ///
    /// - ensures ok: `IsOk result ↔ IsUtf16 true raw.now`
    /// - ensures bytes: `IfOk result (λ s. wstr_bytes s ≡ raw.now)`
    /// - ensures encoding: `IfOk result (λ s. Encodes true (wstr_text s) raw.now)`
    /// - ensures error: `IfErr result (IsErrorOf true raw.now)`
    #[inline]
    pub fn from_utf16be(raw: &'a [u8]) -> Result<Self, Utf16Error> {
        WStr::<BigEndian>::from_utf16(raw)
    }

    /// Returns a view of `raw` without a test: `from_utf16_unchecked` in big endian.
    ///
    /// # Precondition
    ///
    /// `raw` is well-formed UTF-16BE (check with `from_utf16be`).
    ///
    /// Proved:
    ///
    /// - requires `IsUtf16 true raw.now`
    /// - ensures bytes: `wstr_bytes result ≡ raw.now`
    /// - ensures encoding: `Encodes true (wstr_text result) raw.now`
    #[inline]
    pub fn from_utf16be_unchecked(raw: &'a [u8]) -> Self {
        WStr::<BigEndian>::from_utf16_unchecked(raw)
    }
}
