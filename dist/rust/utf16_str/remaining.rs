// packaging/erase wrote this from crates/utf16_str/src/remaining.rt: do not edit it.
//! The parts of a text between occurrences of a pattern, one by one from either end.

use crate::proved::utf16_bytes::Pattern;
use crate::proved::utf16_str::WStr;
use crate::proved::utf16_units::Utf16Order;

// What is left of a text that is split at each occurrence of a pattern.

#[derive(Clone)]
pub(crate) struct Remaining<'a, E: Utf16Order, P: Pattern<E>> {
    // `None` once the last part was taken.
    pub(crate) rest: Option<WStr<'a, E>>,
    // Whether an occurrence was passed.
    pub(crate) begun: bool,
    pub(crate) pattern: P,
}

impl<'a, E: Utf16Order, P: Pattern<E>> Remaining<'a, E, P> {
    // All of a text.
    //
    // Proved:
    //
    // - ensures rest: `result.rest ≡ Some text.entry`
    // - ensures begun: `result.begun ≡ false`
    // - ensures pattern: `result.pattern ≡ pattern`
    #[inline]
    pub(crate) fn new(text: WStr<'a, E>, pattern: P) -> Self {
        Remaining {
            rest: Some(text),
            begun: false,
            pattern,
        }
    }

    // Takes the next part in a direction: without the occurrence that ends it, and with it.
    //
    // Proved:
    //
    // - ensures pattern: `self.new.pattern ≡ self.old.pattern`
    // - ensures parts: `MatchOption result (parts_left D.BACK (P.part self.old.pattern)
    //   self.old.begun (option_map wstr_text self.old.rest) ≡ []) (λ part. parts_left D.BACK
    //   (P.part self.old.pattern) self.old.begun (option_map wstr_text self.old.rest) ≡ wstr_text
    //   part.0 ∷ parts_left D.BACK (P.part self.new.pattern) self.new.begun (option_map wstr_text
    //   self.new.rest))`
    // - ensures done: `IsNone result → self.new.rest ≡ None`
    // - ensures closed: `IfSome result (λ part. wstr_text part.1 ≡ in_order D.BACK (wstr_text
    //   part.0) (closing (P.part self.new.pattern) (option_map wstr_text self.new.rest)))`
    // - ensures joined: `IfSome result (λ part. left_text (option_map wstr_text self.old.rest) ≡
    //   in_order D.BACK (wstr_text part.1) (left_text (option_map wstr_text self.new.rest)))`
    #[inline]
    pub(crate) fn next_part<D: Direction>(&mut self) -> Option<(WStr<'a, E>, WStr<'a, E>)> {
        let text = self.rest?;
        let Some((part, closed, rest)) = D::cut(text, self.pattern, self.begun) else {
            self.rest = None;
            return Some((text, text));
        };
        self.begun = true;
        self.rest = Some(rest);
        Some((part, closed))
    }
}

/// The end of a text from which its parts are taken.
pub trait Direction {
    /// Returns the text up to the next occurrence of a pattern, the same with the occurrence, and
    /// the text after it, or `None` if it does not occur. `begun` says whether the empty pattern
    /// occurred just before the text.
    ///
    /// Proved:
    ///
    /// - ensures parts: `MatchOption result (parts_toward BACK (P.part pattern) begun (wstr_text
    ///   text.entry) ≡ wstr_text text.entry ∷ []) (λ cut. parts_toward BACK (P.part pattern) begun
    ///   (wstr_text text.entry) ≡ wstr_text cut.0 ∷ parts_toward BACK (P.part pattern) true
    ///   (wstr_text cut.2))`
    /// - ensures closed: `IfSome result (λ cut. wstr_text cut.1 ≡ in_order BACK (wstr_text cut.0)
    ///   (P.part pattern))`
    /// - ensures joined: `IfSome result (λ cut. wstr_text text.entry ≡ in_order BACK (wstr_text
    ///   cut.1) (wstr_text cut.2))`
    fn cut<'a, E: Utf16Order, P: Pattern<E>>(
        text: WStr<'a, E>,
        pattern: P,
        begun: bool,
    ) -> Option<(WStr<'a, E>, WStr<'a, E>, WStr<'a, E>)>;
}

/// Parts are taken from the start of a text.
#[derive(Clone)]
pub struct Forward;

impl Direction for Forward {
    #[inline]
    fn cut<'a, E: Utf16Order, P: Pattern<E>>(
        text: WStr<'a, E>,
        pattern: P,
        begun: bool,
    ) -> Option<(WStr<'a, E>, WStr<'a, E>, WStr<'a, E>)> {
        if !begun || pattern.encoded_len() > 0 {
            let (part, after) = text.split_once(pattern)?;
            let (closed, _) = text.split_at(text.len() - after.len());
            return Some((part, closed, after));
        }
        let (_, after) = text.split_first()?;
        let (first, _) = text.split_at(text.len() - after.len());
        Some((first, first, after))
    }
}

/// Parts are taken from the end of a text.
#[derive(Clone)]
pub struct Backward;

impl Direction for Backward {
    #[inline]
    fn cut<'a, E: Utf16Order, P: Pattern<E>>(
        text: WStr<'a, E>,
        pattern: P,
        begun: bool,
    ) -> Option<(WStr<'a, E>, WStr<'a, E>, WStr<'a, E>)> {
        if !begun || pattern.encoded_len() > 0 {
            let (before, part) = text.rsplit_once(pattern)?;
            let (_, closed) = text.split_at(before.len());
            return Some((part, closed, before));
        }
        let (_, before) = text.split_last()?;
        let (_, last) = text.split_at(before.len());
        Some((last, last, before))
    }
}
