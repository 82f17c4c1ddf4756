// packaging/erase wrote this from crates/utf16_bytes/src/pattern.rt: do not edit it.
//! What a search looks for.

use crate::proved::utf16_units::Utf16Order;

/// What a search looks for, and what a text may begin or end with: a text in the same byte order,
/// or a character.
pub trait Pattern<E: Utf16Order>: Copy {
    /// Returns the length of the pattern's encoding.
    ///
    /// Proved:
    ///
    /// - ensures `result ≡ size (part self)`
    fn encoded_len(self) -> usize;

    /// Returns the least offset at which the pattern's encoding occurs in bytes of UTF-16.
    ///
    /// Proved:
    ///
    /// - ensures scalars: `All IsScalar (part self)`
    /// - ensures first: `IsFirst (IsOccurrence E.BIG bytes.now (encode E.BIG (part self))) result`
    fn first_in(self, bytes: &[u8]) -> Option<usize>;

    /// Returns what `first_in` returns, for bytes in which the pattern occurs early: a search that
    /// starts quickly.
    ///
    /// # Precondition
    ///
    /// `bytes` are well-formed UTF-16 in the byte order `E` (check with
    /// `utf16_units::validate_raw_utf16`).
    ///
    /// Proved:
    ///
    /// - requires `IsUtf16 E.BIG bytes.now`
    /// - ensures scalars: `All IsScalar (part self)`
    /// - ensures first: `IsFirst (IsOccurrence E.BIG bytes.now (encode E.BIG (part self))) result`
    fn next_in(self, bytes: &[u8]) -> Option<usize>;

    /// Returns the greatest offset at which the pattern's encoding occurs in bytes of UTF-16.
    ///
    /// Proved:
    ///
    /// - ensures scalars: `All IsScalar (part self)`
    /// - ensures last: `IsLast (IsOccurrence E.BIG bytes.now (encode E.BIG (part self))) result`
    fn last_in(self, bytes: &[u8]) -> Option<usize>;

    /// Returns the length of the pattern's encoding, or `None` if bytes of UTF-16 do not begin with
    /// it.
    ///
    /// Proved:
    ///
    /// - ensures scalars: `All IsScalar (part self)`
    /// - ensures some: `IsSome result ↔ ((rest : List ℕ) × (bytes.now ≡ encode E.BIG (part self) ++
    ///   rest))`
    /// - ensures len: `IfSome result (λ len. len ≡ size (part self))`
    fn prefix_len(self, bytes: &[u8]) -> Option<usize>;

    /// Returns the length of the pattern's encoding, or `None` if bytes of UTF-16 do not end with
    /// it.
    ///
    /// Proved:
    ///
    /// - ensures scalars: `All IsScalar (part self)`
    /// - ensures some: `IsSome result ↔ ((front : List ℕ) × (bytes.now ≡ front ++ encode E.BIG
    ///   (part self)))`
    /// - ensures len: `IfSome result (λ len. len ≡ size (part self))`
    fn suffix_len(self, bytes: &[u8]) -> Option<usize>;
}
