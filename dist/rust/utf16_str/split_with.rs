// packaging/erase wrote this from crates/utf16_str/src/split_with.rt: do not edit it.
//! The substrings of a text between the characters for which a predicate is true.

use crate::proved::utf16_str::WStr;
use crate::proved::utf16_units::Utf16Order;

/// An iterator over the remaining substrings of a [`WStr`] separated by the characters for which a
/// predicate is true, from either end. Each is a view without the character. Once none is left,
/// `next` and `next_back` always return `None`. `F` is the type of the predicate.

#[derive(Clone)]
pub struct WStrSplitWith<'a, E: Utf16Order, F> {
    rest: Option<WStr<'a, E>>,
    predicate: F,
}

impl<'a, E: Utf16Order, F: Fn(char) -> bool> Iterator for WStrSplitWith<'a, E, F> {
    type Item = WStr<'a, E>;

    fn next(&mut self) -> Option<WStr<'a, E>> {
        let rest = self.rest?;
        let Some((part, after)) = rest.cut_by(&self.predicate) else {
            self.rest = None;
            return Some(rest);
        };
        self.rest = Some(after);
        Some(part)
    }
}

impl<'a, E: Utf16Order, F: Fn(char) -> bool> DoubleEndedIterator for WStrSplitWith<'a, E, F> {
    fn next_back(&mut self) -> Option<WStr<'a, E>> {
        let rest = self.rest?;
        let Some((before, part)) = rest.cut_last_by(&self.predicate) else {
            self.rest = None;
            return Some(rest);
        };
        self.rest = Some(before);
        Some(part)
    }
}

impl<'a, E: Utf16Order> WStr<'a, E> {
    /// Returns an iterator over the substrings between the characters for which the predicate is
    /// true, in order and without these characters.
    ///
    /// The empty text has one substring, the empty one. Such a character at an end of the text, or
    /// next to another one, has an empty substring there.
    ///
    /// # Precondition
    ///
    /// The predicate may be called on any character.
    ///
    /// # Complexity
    ///
    /// One pass over the text. Calls the predicate once for each character. Copies nothing and does
    /// not allocate.
    ///
    /// # Source
    ///
    /// The substrings are the same as with `str::split` and a closure, and with `rev` as with
    /// `str::rsplit`.
    ///
    /// Proved:
    ///
    /// - requires `F.IsAlwaysCallable predicate`
    /// - ensures rest: `split_rest result ≡ Some self.entry`
    /// - ensures predicate: `split_predicate result ≡ predicate`
    /// - ensures bound: `most_parts (option_map wstr_text (split_rest result)) < 2 ^ 64`
    /// - ensures runs: `EachRunFrom (split_steps F.post) result (λ p. SplitsText p wstr_text
    ///   (F.post predicate) (wstr_text self.entry))`
    /// - ensures runs_back: `EachRunFrom (split_steps_back F.post) result (λ p. SplitsTextBack p
    ///   wstr_text (F.post predicate) (wstr_text self.entry))`
    /// - ensures within: `EachRunFrom (split_steps F.post) result (λ p. LieAt self.entry
    ///   (spaced_offsets (wstr_text self.entry) 0 (map wstr_text p.items)) p.items)`
    /// - ensures within_back: `EachRunFrom (split_steps_back F.post) result (λ p. LieAt self.entry
    ///   (rspaced_offsets (wstr_text self.entry) (size (wstr_text self.entry)) (map wstr_text
    ///   p.items)) p.items)`
    #[inline]
    pub fn split_with<F: Fn(char) -> bool>(self, predicate: F) -> WStrSplitWith<'a, E, F> {
        WStrSplitWith {
            rest: Some(self),
            predicate,
        }
    }

    // The text before the first character for which the predicate is true, and the text after it.
    //
    // Proved:
    //
    // - requires `F.IsAlwaysCallable predicate.now`
    // - ensures `MatchOption result (SaysOfEach (F.post predicate.now) false (wstr_text
    //   self.entry)) (λ cut. IsCutWith (F.post predicate.now) (wstr_text self.entry) (wstr_text
    //   cut.0) (wstr_text cut.1))`
    pub(crate) fn cut_by<F: Fn(char) -> bool>(self, predicate: &F) -> Option<(Self, Self)> {
        let at = self.find_by(predicate)?;
        Some(self.cut_at(at))
    }

    // The text before the last character for which the predicate is true, and the text after it.
    //
    // Proved:
    //
    // - requires `F.IsAlwaysCallable predicate.now`
    // - ensures `MatchOption result (SaysOfEach (F.post predicate.now) false (wstr_text
    //   self.entry)) (λ cut. IsLastCutWith (F.post predicate.now) (wstr_text self.entry) (wstr_text
    //   cut.0) (wstr_text cut.1))`
    pub(crate) fn cut_last_by<F: Fn(char) -> bool>(self, predicate: &F) -> Option<(Self, Self)> {
        let at = self.rfind_by(predicate)?;
        Some(self.cut_at(at))
    }

    // The text before the character at an offset, and the text after it.
    //
    // Proved:
    //
    // - requires `IsBoundary (wstr_text self) at`
    // - ensures `(front back : List ℕ) (c : ℕ) → wstr_text self.entry ≡ front ++ c ∷ back → at ≡
    //   size front → (wstr_text result.0 ≡ front) × (wstr_text result.1 ≡ back)`
    fn cut_at(self, at: usize) -> (Self, Self) {
        let (part, rest) = self.split_at(at);
        let mut chars = rest.chars();
        chars.next();
        (part, chars.as_wstr())
    }
}
