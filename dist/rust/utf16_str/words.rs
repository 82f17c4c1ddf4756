// packaging/erase wrote this from crates/utf16_str/src/words.rt: do not edit it.
//! The words of a text: what is between white space.

use crate::proved::utf16_str::WStr;
use crate::proved::utf16_units::Utf16Order;
use core::marker::PhantomData;

/// A set of characters that is white space.
pub trait Space {
    /// Returns `true` if a character is white space.
    ///
    /// Proved:
    ///
    /// - ensures `result ≡ is_space c`
    fn is_space(c: char) -> bool;
}

/// The white space of Unicode: what has the property `White_Space`, as in `char::is_whitespace`.
#[derive(Clone)]
pub struct UnicodeSpace;

impl Space for UnicodeSpace {
    #[inline]
    fn is_space(c: char) -> bool {
        c.is_whitespace()
    }
}

/// The white space of ASCII, as in `char::is_ascii_whitespace`.
#[derive(Clone)]
pub struct AsciiSpace;

impl Space for AsciiSpace {
    #[inline]
    fn is_space(c: char) -> bool {
        c.is_ascii_whitespace()
    }
}

/// An iterator over the remaining words of a [`WStr`], the substrings between white space that are
/// not empty, from either end. Each is a view. Once none is left, `next` and `next_back` always
/// return `None`. `S` is what is white space.

#[derive(Clone)]
pub struct WStrWords<'a, E: Utf16Order, S: Space> {
    rest: WStr<'a, E>,
    space: PhantomData<S>,
}

/// An iterator over the remaining words of a [`WStr`] between white space: see [`WStrWords`].
pub type WStrSplitWhitespace<'a, E> = WStrWords<'a, E, UnicodeSpace>;

/// An iterator over the remaining words of a [`WStr`] between the white space of ASCII: see
/// [`WStrWords`].
pub type WStrSplitAsciiWhitespace<'a, E> = WStrWords<'a, E, AsciiSpace>;

impl<'a, E: Utf16Order, S: Space> Iterator for WStrWords<'a, E, S> {
    type Item = WStr<'a, E>;

    fn next(&mut self) -> Option<WStr<'a, E>> {
        let (word, after) = self.rest.split_first_word::<S>();
        self.rest = after;
        if word.is_empty() {
            return None;
        }
        Some(word)
    }
}

impl<'a, E: Utf16Order, S: Space> DoubleEndedIterator for WStrWords<'a, E, S> {
    fn next_back(&mut self) -> Option<WStr<'a, E>> {
        let (before, word) = self.rest.split_last_word::<S>();
        self.rest = before;
        if word.is_empty() {
            return None;
        }
        Some(word)
    }
}

impl<'a, E: Utf16Order> WStr<'a, E> {
    /// Returns an iterator over the words, in order: the substrings between white space that are
    /// not empty. White space is what has the property `White_Space` of Unicode.
    ///
    /// # Complexity
    ///
    /// One pass over the text. Copies nothing and does not allocate.
    ///
    /// # Source
    ///
    /// The words are the same as with `str::split_whitespace`.
    ///
    /// Proved:
    ///
    /// - ensures parts: `result ≡ words (wstr_text self.entry)`
    /// - ensures bound: `length result < 2 ^ 64`
    /// - ensures runs: `YieldsTexts self.entry`
    /// - ensures runs_back: `YieldsTextsBack self.entry`
    /// - ensures within: `YieldsPartsOf self.entry (word_offsets is_whitespace (wstr_text
    ///   self.entry)) result`
    /// - ensures within_back: `YieldsPartsOfBack self.entry (word_offsets is_whitespace (wstr_text
    ///   self.entry)) result`
    pub fn split_whitespace(self) -> WStrSplitWhitespace<'a, E> {
        self.words()
    }

    /// Returns an iterator over the words, in order: the substrings between the white space of
    /// ASCII that are not empty.
    ///
    /// # Complexity
    ///
    /// One pass over the text. Copies nothing and does not allocate.
    ///
    /// # Source
    ///
    /// The words are the same as with `str::split_ascii_whitespace`.
    ///
    /// Proved:
    ///
    /// - ensures parts: `result ≡ ascii_words (wstr_text self.entry)`
    /// - ensures bound: `length result < 2 ^ 64`
    /// - ensures runs: `YieldsTexts self.entry`
    /// - ensures runs_back: `YieldsTextsBack self.entry`
    /// - ensures within: `YieldsPartsOf self.entry (word_offsets is_ascii_whitespace (wstr_text
    ///   self.entry)) result`
    /// - ensures within_back: `YieldsPartsOfBack self.entry (word_offsets is_ascii_whitespace
    ///   (wstr_text self.entry)) result`
    #[inline]
    pub fn split_ascii_whitespace(self) -> WStrSplitAsciiWhitespace<'a, E> {
        self.words()
    }

    // Proved:
    //
    // - ensures parts: `result ≡ words_by S.is_space (wstr_text self.entry)`
    // - ensures bound: `length result < 2 ^ 64`
    // - ensures runs: `YieldsTexts self.entry`
    // - ensures runs_back: `YieldsTextsBack self.entry`
    // - ensures within: `YieldsPartsOf self.entry (word_offsets S.is_space (wstr_text self.entry))
    //   result`
    // - ensures within_back: `YieldsPartsOfBack self.entry (word_offsets S.is_space (wstr_text
    //   self.entry)) result`
    #[inline]
    fn words<S: Space>(self) -> WStrWords<'a, E, S> {
        WStrWords {
            rest: self,
            space: PhantomData,
        }
    }

    // Returns the first word, and a text that has the other words. If there are no words, both are
    // empty.
    //
    // Proved:
    //
    // - ensures some: `wstr_text result.0 ≢ [] → words_by S.is_space (wstr_text self.entry) ≡
    //   wstr_text result.0 ∷ words_by S.is_space (wstr_text result.1)`
    // - ensures none: `wstr_text result.0 ≡ [] → (words_by S.is_space (wstr_text self.entry) ≡ [])
    //   × (words_by S.is_space (wstr_text result.1) ≡ [])`
    fn split_first_word<S: Space>(self) -> (Self, Self) {
        let is_space = |c| S::is_space(c);
        let trimmed = self.trim_start_by(&is_space);
        match trimmed.cut_by(&is_space) {
            Some(cut) => cut,
            None => trimmed.split_at(trimmed.len()),
        }
    }

    // Returns a text that has the other words, and the last word. If there are no words, both are
    // empty.
    //
    // Proved:
    //
    // - ensures some: `wstr_text result.1 ≢ [] → words_by S.is_space (wstr_text self.entry) ≡
    //   words_by S.is_space (wstr_text result.0) ++ wstr_text result.1 ∷ []`
    // - ensures none: `wstr_text result.1 ≡ [] → (words_by S.is_space (wstr_text self.entry) ≡ [])
    //   × (words_by S.is_space (wstr_text result.0) ≡ [])`
    fn split_last_word<S: Space>(self) -> (Self, Self) {
        let is_space = |c| S::is_space(c);
        let trimmed = self.trim_end_by(&is_space);
        match trimmed.cut_last_by(&is_space) {
            Some(cut) => cut,
            None => trimmed.split_at(0),
        }
    }
}
