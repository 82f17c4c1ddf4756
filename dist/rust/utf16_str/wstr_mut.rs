// packaging/erase wrote this from crates/utf16_str/src/wstr_mut.rt: do not edit it.
//! A mutable UTF-16 string slice: text in borrowed bytes, which can be overwritten.

use crate::proved::utf16_str::wstr::WStr;
use crate::proved::utf16_units::{
    validate_raw_utf16, BigEndian, LittleEndian, Utf16Error, Utf16Order,
};
use core::marker::PhantomData;

/// A mutable UTF-16 string slice in the byte order `E`: text in borrowed bytes, which can be
/// overwritten in place.
///
/// The bytes are always well-formed UTF-16. When the view is dropped, the borrowed slice holds the
/// changed bytes. Offsets are in bytes.

pub struct WStrMut<'a, E: Utf16Order> {
    raw: &'a mut [u8],
    order: PhantomData<E>,
}

impl<'a, E: Utf16Order> WStrMut<'a, E> {
    /// Returns a mutable view of `raw`, if it is well-formed UTF-16 in the byte order `E`.
    ///
    /// If the view is dropped, a caller's proof does not know which bytes are left, because the
    /// view came in a `Result`. End it with `into_bytes`, which returns them. Or test the bytes
    /// with `WStr::from_utf16` and make the view with `from_utf16_unchecked`.
    ///
    /// # Errors
    ///
    /// [`Utf16Error`], if `raw` is ill-formed. The bytes are unchanged.
    ///
    /// # Complexity
    ///
    /// One pass over the bytes. Copies nothing.
    ///
    /// Proved:
    ///
    /// - ensures ok: `IsOk result ↔ IsUtf16 E.BIG raw.old`
    /// - ensures same_reference: `IfOk result (λ s. (wstr_mut_lent s).ghost_name ≡
    ///   raw.entry.ghost_name)`
    /// - ensures bytes: `IfOk result (λ s. wstr_mut_bytes s ≡ raw.old)`
    /// - ensures encoding: `IfOk result (λ s. Encodes E.BIG (wstr_mut_text s) raw.old)`
    /// - ensures error: `IfErr result (IsErrorOf E.BIG raw.old)`
    /// - ensures* err: `sem 𝓛 (UnchangedOnErr raw.entry result)`
    #[inline]
    pub fn from_utf16(raw: &'a mut [u8]) -> Result<Self, Utf16Error> {
        match tested::<E>(raw) {
            (Ok(()), raw) => Ok(WStrMut {
                raw,
                order: PhantomData,
            }),
            (Err(error), _) => Err(error),
        }
    }

    /// Returns a mutable view of `raw` without a test.
    ///
    /// When the view is dropped, a caller's proof knows the bytes that are left.
    ///
    /// # Precondition
    ///
    /// `raw` is well-formed UTF-16 in the byte order `E` (check with `WStr::from_utf16`).
    ///
    /// Proved:
    ///
    /// - requires `IsUtf16 E.BIG raw.old`
    /// - ensures same_reference: `(wstr_mut_lent result).ghost_name ≡ raw.entry.ghost_name`
    /// - ensures bytes: `wstr_mut_bytes result ≡ raw.old`
    /// - ensures encoding: `Encodes E.BIG (wstr_mut_text result) raw.old`
    #[inline]
    pub fn from_utf16_unchecked(raw: &'a mut [u8]) -> Self {
        WStrMut {
            raw,
            order: PhantomData,
        }
    }

    /// Splits `raw` after its longest valid prefix, and returns the prefix and the rest.
    ///
    /// The prefix is the longest one that is well-formed UTF-16 in the byte order `E`; its length
    /// is `valid_up_to` of the error. The rest is empty exactly if all of `raw` is well formed.
    ///
    /// A caller's proof still knows the bytes afterwards, including the rest. So use this for bytes
    /// that may be ill-formed: make a view of the prefix with `from_utf16_unchecked`. To accept
    /// only well-formed bytes, test first that the rest is empty.
    ///
    /// # Complexity
    ///
    /// One pass over the bytes. Copies nothing.
    ///
    /// Proved:
    ///
    /// - ensures* lent: `sem 𝓛 (LendsBoth (Array u8 0) (Array u8 0) (Array u8 0) raw.entry result
    ///   (◌++◌))`
    /// - ensures joined: `raw.old ≡ result.0.now ++ result.1.now`
    /// - ensures well_formed: `IsUtf16 E.BIG result.0.now`
    /// - ensures longest: `IsUtf16ValidUpTo E.BIG raw.old (length result.0.now)`
    /// - ensures whole: `(result.1.now ≡ []) ↔ IsUtf16 E.BIG raw.old`
    #[inline]
    pub fn split_valid(raw: &'a mut [u8]) -> (&'a mut [u8], &'a mut [u8]) {
        let len = match validate_raw_utf16::<E>(raw) {
            Ok(()) => raw.len(),
            Err(error) => error.valid_up_to(),
        };
        raw.split_at_mut(len)
    }

    /// Returns the text as a [`WStr`], to read it.
    ///
    /// Proved:
    ///
    /// - ensures bytes: `wstr_bytes result ≡ wstr_mut_bytes self.now`
    /// - ensures text: `wstr_text result ≡ wstr_mut_text self.now`
    #[inline]
    pub fn as_wstr(&self) -> WStr<'_, E> {
        WStr::from_utf16_unchecked(self.raw)
    }

    /// Returns `true` if `text` can overwrite the bytes starting at the byte offset `idx`.
    ///
    /// It can if `idx` and `idx + text.len()` are both character boundaries. Any offset may be
    /// given.
    ///
    /// Proved:
    ///
    /// - ensures `IsTrue result ↔ (IsBoundary (wstr_mut_text self.now) idx × IsBoundary
    ///   (wstr_mut_text self.now) (idx + size (wstr_text text.entry)))`
    #[inline]
    pub fn fits(&self, idx: usize, text: WStr<E>) -> bool {
        self.as_wstr().fits(idx, text)
    }

    /// Overwrites the bytes starting at the byte offset `idx` with the bytes of `text`. All other
    /// bytes are unchanged.
    ///
    /// # Precondition
    ///
    /// `idx` and `idx + text.len()` are character boundaries (check with `fits`).
    ///
    /// Proved:
    ///
    /// - requires start: `IsBoundary (wstr_mut_text self.old) idx`
    /// - requires end: `IsBoundary (wstr_mut_text self.old) (idx + size (wstr_text text))`
    /// - ensures same_reference: `(wstr_mut_lent self.new).ghost_name ≡ (wstr_mut_lent
    ///   self.old).ghost_name`
    /// - ensures bytes: `wstr_mut_bytes self.new ≡ splice (wstr_mut_bytes self.old) idx (idx +
    ///   length (wstr_bytes text.entry)) (wstr_bytes text.entry)`
    /// - ensures text: `wstr_mut_text self.new ≡ overwrite_at (wstr_mut_text self.old) idx
    ///   (wstr_text text.entry)`
    #[inline]
    pub fn overwrite(&mut self, idx: usize, text: WStr<E>) {
        overwrite_bytes(self.raw, idx, text.as_bytes());
    }

    /// Consumes the view and returns its bytes, borrowed for `'a`.
    ///
    /// Proved:
    ///
    /// - ensures same_reference: `result.ghost_name ≡ (wstr_mut_lent self.entry).ghost_name`
    /// - ensures bytes: `result.now ≡ wstr_mut_bytes self.entry`
    /// - ensures encoding: `Encodes E.BIG (wstr_mut_text self.entry) result.now`
    #[inline]
    pub fn into_bytes(self) -> &'a mut [u8] {
        self.raw
    }
}

impl<'a> WStrMut<'a, LittleEndian> {
    /// Returns a mutable view of `raw`, if it is well-formed UTF-16LE: `from_utf16` in little
    /// endian.
    ///
    /// # Errors
    ///
    /// [`Utf16Error`], if `raw` is ill-formed. The bytes are unchanged.
    ///
    /// Proved:
    ///
    /// - ensures ok: `IsOk result ↔ IsUtf16 false raw.old`
    /// - ensures same_reference: `IfOk result (λ s. (wstr_mut_lent s).ghost_name ≡
    ///   raw.entry.ghost_name)`
    /// - ensures bytes: `IfOk result (λ s. wstr_mut_bytes s ≡ raw.old)`
    /// - ensures encoding: `IfOk result (λ s. Encodes false (wstr_mut_text s) raw.old)`
    /// - ensures error: `IfErr result (IsErrorOf false raw.old)`
    /// - ensures* err: `sem 𝓛 (UnchangedOnErr raw.entry result)`
    #[inline]
    pub fn from_utf16le(raw: &'a mut [u8]) -> Result<Self, Utf16Error> {
        WStrMut::<LittleEndian>::from_utf16(raw)
    }

    /// Returns a mutable view of `raw` without a test: `from_utf16_unchecked` in little endian.
    ///
    /// # Precondition
    ///
    /// `raw` is well-formed UTF-16LE (check with `WStr::from_utf16le`).
    ///
    /// Proved:
    ///
    /// - requires `IsUtf16 false raw.old`
    /// - ensures same_reference: `(wstr_mut_lent result).ghost_name ≡ raw.entry.ghost_name`
    /// - ensures bytes: `wstr_mut_bytes result ≡ raw.old`
    /// - ensures encoding: `Encodes false (wstr_mut_text result) raw.old`
    #[inline]
    pub fn from_utf16le_unchecked(raw: &'a mut [u8]) -> Self {
        WStrMut::<LittleEndian>::from_utf16_unchecked(raw)
    }
}

impl<'a> WStrMut<'a, BigEndian> {
    /// Returns a mutable view of `raw`, if it is well-formed UTF-16BE: `from_utf16` in big endian.
    ///
    /// # Errors
    ///
    /// [`Utf16Error`], if `raw` is ill-formed. The bytes are unchanged.
    ///
    /// Proved:
    ///
    /// - ensures ok: `IsOk result ↔ IsUtf16 true raw.old`
    /// - ensures same_reference: `IfOk result (λ s. (wstr_mut_lent s).ghost_name ≡
    ///   raw.entry.ghost_name)`
    /// - ensures bytes: `IfOk result (λ s. wstr_mut_bytes s ≡ raw.old)`
    /// - ensures encoding: `IfOk result (λ s. Encodes true (wstr_mut_text s) raw.old)`
    /// - ensures error: `IfErr result (IsErrorOf true raw.old)`
    /// - ensures* err: `sem 𝓛 (UnchangedOnErr raw.entry result)`
    #[inline]
    pub fn from_utf16be(raw: &'a mut [u8]) -> Result<Self, Utf16Error> {
        WStrMut::<BigEndian>::from_utf16(raw)
    }

    /// Returns a mutable view of `raw` without a test: `from_utf16_unchecked` in big endian.
    ///
    /// # Precondition
    ///
    /// `raw` is well-formed UTF-16BE (check with `WStr::from_utf16be`).
    ///
    /// Proved:
    ///
    /// - requires `IsUtf16 true raw.old`
    /// - ensures same_reference: `(wstr_mut_lent result).ghost_name ≡ raw.entry.ghost_name`
    /// - ensures bytes: `wstr_mut_bytes result ≡ raw.old`
    /// - ensures encoding: `Encodes true (wstr_mut_text result) raw.old`
    #[inline]
    pub fn from_utf16be_unchecked(raw: &'a mut [u8]) -> Self {
        WStrMut::<BigEndian>::from_utf16_unchecked(raw)
    }
}

// Overwrites the bytes of `raw` starting at `index` with `bytes`.
//
// Proved:
//
// - requires `index + length bytes.now ≤ length raw.old`
// - ensures bytes: `raw.new ≡ splice raw.old index (index + length bytes.now) bytes.now`
// - ensures same_len: `length raw.new ≡ length raw.old`
#[inline]
fn overwrite_bytes(raw: &mut [u8], index: usize, bytes: &[u8]) {
    raw[index..index + bytes.len()].copy_from_slice(bytes);
}

// Tests whether bytes are well-formed UTF-16, and returns the bytes with the result.
//
// Proved:
//
// - ensures same_reference: `result.1.ghost_name ≡ raw.entry.ghost_name`
// - ensures bytes: `result.1.now ≡ raw.old`
// - ensures ok: `IsOk result.0 ↔ IsUtf16 E.BIG raw.old`
// - ensures error: `IfErr result.0 (IsErrorOf E.BIG raw.old)`
#[inline]
fn tested<'a, E: Utf16Order>(raw: &'a mut [u8]) -> (Result<(), Utf16Error>, &'a mut [u8]) {
    let tested = validate_raw_utf16::<E>(raw);
    (tested, raw)
}
