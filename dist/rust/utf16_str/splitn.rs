// packaging/erase wrote this from crates/utf16_str/src/splitn.rt: do not edit it.
//! The first or the last `n` substrings of a text: the last one that comes has the rest.

use crate::proved::utf16_bytes::Pattern;
use crate::proved::utf16_str::remaining::{Backward, Direction, Forward, Remaining};
use crate::proved::utf16_str::WStr;
use crate::proved::utf16_units::Utf16Order;
use core::marker::PhantomData;

/// An iterator over at most a number of remaining substrings of a [`WStr`] separated by a
/// delimiter, in the direction `D`. Each is a view; the last one that it gives has the rest of the
/// text. Once none is left, `next` always returns `None`.

#[derive(Clone)]
pub struct WStrPartsN<'a, E: Utf16Order, P: Pattern<E>, D: Direction> {
    left: Remaining<'a, E, P>,
    count: usize,
    direction: PhantomData<D>,
}

/// An iterator over at most a number of substrings of a [`WStr`], in order: see [`WStrPartsN`].
pub type WStrSplitN<'a, E, P> = WStrPartsN<'a, E, P, Forward>;

/// An iterator over at most a number of substrings of a [`WStr`], the last first: see
/// [`WStrPartsN`].
pub type WStrRSplitN<'a, E, P> = WStrPartsN<'a, E, P, Backward>;

impl<'a, E: Utf16Order, P: Pattern<E>, D: Direction> Iterator for WStrPartsN<'a, E, P, D> {
    type Item = WStr<'a, E>;

    #[inline]
    fn next(&mut self) -> Option<WStr<'a, E>> {
        if self.count == 0 {
            return None;
        }
        self.count -= 1;
        if self.count == 0 {
            return self.left.rest;
        }
        let (part, _) = self.left.next_part::<D>()?;
        Some(part)
    }
}

impl<'a, E: Utf16Order> WStr<'a, E> {
    /// Returns an iterator over the substrings that `split` gives, but over at most `n`: the last
    /// of `n` has the rest of the text, with the delimiters in it.
    ///
    /// # Complexity
    ///
    /// One pass, up to the last delimiter that it takes. Copies nothing and does not allocate.
    ///
    /// # Source
    ///
    /// The substrings are the same as with `str::splitn`.
    ///
    /// Proved:
    ///
    /// - ensures parts: `result ≡ limited (joined_with (P.part delimiter)) n (split_by (P.part
    ///   delimiter) (wstr_text self.entry))`
    /// - ensures bound: `length result ≤ n`
    /// - ensures runs: `YieldsTexts self.entry`
    /// - ensures within: `YieldsPartsOf self.entry (offsets_from (size (P.part delimiter)) 0
    ///   result) result`
    pub fn splitn<P: Pattern<E>>(self, n: usize, delimiter: P) -> WStrSplitN<'a, E, P> {
        WStrPartsN {
            left: Remaining::new(self, delimiter),
            count: n,
            direction: PhantomData,
        }
    }

    /// Returns an iterator over the substrings that `rsplit` gives, the last first, but over at
    /// most `n`: the last of `n` has the rest of the text, with the delimiters in it.
    ///
    /// # Complexity
    ///
    /// One pass, down to the last delimiter that it takes. Copies nothing and does not allocate.
    ///
    /// # Source
    ///
    /// The substrings are the same as with `str::rsplitn`.
    ///
    /// Proved:
    ///
    /// - ensures parts: `result ≡ limited (rjoined_with (P.part delimiter)) n (rsplit_by (P.part
    ///   delimiter) (wstr_text self.entry))`
    /// - ensures bound: `length result ≤ n`
    /// - ensures runs: `YieldsTexts self.entry`
    /// - ensures within: `YieldsPartsOf self.entry (roffsets_from (size (P.part delimiter)) (size
    ///   (wstr_text self.entry)) result) result`
    pub fn rsplitn<P: Pattern<E>>(self, n: usize, delimiter: P) -> WStrRSplitN<'a, E, P> {
        WStrPartsN {
            left: Remaining::new(self, delimiter),
            count: n,
            direction: PhantomData,
        }
    }
}
