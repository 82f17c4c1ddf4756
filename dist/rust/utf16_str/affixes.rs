// packaging/erase wrote this from crates/utf16_str/src/affixes.rt: do not edit it.
//! Prefixes and suffixes of texts, and the longest common prefix of two.

use crate::proved::utf16_bytes::Pattern;
use crate::proved::utf16_str::WStr;
use crate::proved::utf16_units::Utf16Order;

impl<'a, E: Utf16Order> WStr<'a, E> {
    /// Returns `true` if the text starts with a text or a character.
    ///
    /// # Complexity
    ///
    /// One comparison of bytes.
    ///
    /// # Source
    ///
    /// `str::starts_with`.
    ///
    /// Proved:
    ///
    /// - ensures begins: `IsTrue result ↔ ((rest : List ℕ) × (wstr_text self.now ≡ P.part prefix ++
    ///   rest))`
    /// - ensures value: `result ≡ starts_with nat_eq (wstr_text self.now) (P.part prefix)`
    #[inline]
    pub fn starts_with<P: Pattern<E>>(&self, prefix: P) -> bool {
        prefix.prefix_len(self.as_bytes()).is_some()
    }

    /// Returns `true` if the text ends with a text or a character.
    ///
    /// # Complexity
    ///
    /// One comparison of bytes.
    ///
    /// # Source
    ///
    /// `str::ends_with`.
    ///
    /// Proved:
    ///
    /// - ensures ends: `IsTrue result ↔ ((front : List ℕ) × (wstr_text self.now ≡ front ++ P.part
    ///   suffix))`
    /// - ensures value: `result ≡ ends_with nat_eq (wstr_text self.now) (P.part suffix)`
    #[inline]
    pub fn ends_with<P: Pattern<E>>(&self, suffix: P) -> bool {
        suffix.suffix_len(self.as_bytes()).is_some()
    }

    /// Returns the text after `prefix`, a text or a character, or `None` if the text does not start
    /// with it.
    ///
    /// # Complexity
    ///
    /// One comparison of bytes. Copies nothing.
    ///
    /// # Source
    ///
    /// `str::strip_prefix`.
    ///
    /// Proved:
    ///
    /// - ensures some: `IsSome result ↔ ((rest : List ℕ) × (wstr_text self.entry ≡ P.part prefix ++
    ///   rest))`
    /// - ensures text: `IfSome result (λ rest. wstr_text self.entry ≡ P.part prefix ++ wstr_text
    ///   rest)`
    /// - ensures bytes: `IfSome result (λ rest. wstr_bytes rest ≡ drop (size (P.part prefix))
    ///   (wstr_bytes self.entry))`
    pub fn strip_prefix<P: Pattern<E>>(self, prefix: P) -> Option<WStr<'a, E>> {
        let len = prefix.prefix_len(self.as_bytes())?;
        Some(self.split_at(len).1)
    }

    /// Returns the text before `suffix`, a text or a character, or `None` if the text does not end
    /// with it.
    ///
    /// # Complexity
    ///
    /// One comparison of bytes. Copies nothing.
    ///
    /// # Source
    ///
    /// `str::strip_suffix`.
    ///
    /// Proved:
    ///
    /// - ensures some: `IsSome result ↔ ((front : List ℕ) × (wstr_text self.entry ≡ front ++ P.part
    ///   suffix))`
    /// - ensures text: `IfSome result (λ front. wstr_text self.entry ≡ wstr_text front ++ P.part
    ///   suffix)`
    /// - ensures bytes: `IfSome result (λ front. wstr_bytes front ≡ take (length (wstr_bytes
    ///   self.entry) - size (P.part suffix)) (wstr_bytes self.entry))`
    pub fn strip_suffix<P: Pattern<E>>(self, suffix: P) -> Option<WStr<'a, E>> {
        let len = suffix.suffix_len(self.as_bytes())?;
        Some(self.split_at(self.len() - len).0)
    }

    /// Returns the longest common prefix of the text and `other`, as a prefix of this text.
    ///
    /// # Complexity
    ///
    /// One pass, up to the first character that differs. Copies nothing.
    ///
    /// Proved:
    ///
    /// - ensures text: `IsCommonPrefix (wstr_text self.entry) (wstr_text other.entry) (wstr_text
    ///   result)`
    /// - ensures bytes: `wstr_bytes result ≡ take (length (wstr_bytes result)) (wstr_bytes
    ///   self.entry)`
    pub fn common_prefix(self, other: WStr<E>) -> WStr<'a, E> {
        let mut theirs = other.chars();
        for (at, c) in self.char_indices() {
            if theirs.next() != Some(c) {
                return self.split_at(at).0;
            }
        }
        self
    }
}
