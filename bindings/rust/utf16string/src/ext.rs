//! What `utf16string` 0.2.0 does not have. Inherent methods would take the place of those of a
//! user's trait, so these are methods of traits that one imports.

use std::borrow::{Borrow, BorrowMut};
use std::collections::TryReserveError;
use std::str::FromStr;

use crate::index::part;
use crate::pattern::{Search, Split};
use crate::proved::kit::Global;
use crate::proved::utf16_bytes::nul_offset;
use crate::proved::utf16_str::{SliceIndex, WStr as View};
use crate::view::byte_order;
use crate::{ByteOrder, Pattern, TextPattern, Utf16Error, WStr, WString};

/// The strings of two proved views.
type Both<'t, E> = (&'t WStr<E>, &'t WStr<E>);

fn both<'t, E: ByteOrder>(parts: (View<'t, E>, View<'t, E>)) -> Both<'t, E> {
    (WStr::of(parts.0), WStr::of(parts.1))
}

/// Calls the proved search for a text, or the one for a character that passes a test.
macro_rules! search {
    ($string:expr, $pattern:expr, $by_text:ident, $by_test:ident) => {{
        let view = $string.borrow().view();
        match $pattern.search(view) {
            Search::Text(text) => view.$by_text(text),
            Search::Test(test) => view.$by_test(&test),
        }
    }};
}

/// Calls a proved function that takes a text.
macro_rules! by_text {
    ($string:expr, $call:ident, $text:expr $(, $n:expr)?) => {{
        let view = $string.borrow().view();
        view.$call($($n,)? $text.search(view).text())
    }};
}

/// More methods of [`WStr`]: those of [`str`] that `utf16string` 0.2.0 does not have, and do what
/// they do there. Offsets count bytes of UTF-16. Nothing cuts a code unit or a surrogate pair.
///
/// ```
/// use utf16string::{WStr, WStrExt, WString, BE, LE};
///
/// let line: WString<LE> = WString::from("a = 😀 # comment");
/// let (setting, comment) = line.split_once('#').unwrap();
/// assert_eq!(comment.trim(), "comment");
/// assert_eq!(setting.find("= 😀"), Some(4));
/// assert_eq!(setting.find(|c: char| c > '\u{FFFF}'), Some(8));
/// assert_eq!(setting.trim_end().strip_prefix("a = ").unwrap(), "😀");
/// assert!(line.split(' ').eq(["a", "=", "😀", "#", "comment"].map(WString::from).iter()));
/// assert_eq!(line.replace("😀", WStr::from_utf16le(b"1\0").unwrap()), "a = 1 # comment");
/// assert_eq!(line.to_byte_order::<BE>(), "a = 😀 # comment");
/// ```
pub trait WStrExt<E: 'static + ByteOrder>: Borrow<WStr<E>> {
    /// Returns the string in the bytes up to the first NUL, or in all bytes if there is none.
    ///
    /// ```
    /// use utf16string::{WStr, WStrExt, LE};
    ///
    /// let text = WStr::<LE>::from_utf16_until_nul(b"h\0i\0\0\0\0\xDC").unwrap();
    /// assert_eq!(text, "hi");
    /// ```
    fn from_utf16_until_nul(raw: &[u8]) -> Result<&WStr<E>, Utf16Error> {
        WStr::from_utf16(&raw[..nul_offset(raw)])
    }

    methods! {
        /// Returns the least offset at which a pattern occurs, for the empty string 0.
        fn find[P: Pattern<E>](&self, pattern: P) -> Option<usize> =
            search!(self, pattern, find, find_by);
        /// Returns the greatest offset at which a pattern occurs, for the empty string the length.
        fn rfind[P: Pattern<E>](&self, pattern: P) -> Option<usize> =
            search!(self, pattern, rfind, rfind_by);
        /// Returns whether a pattern occurs.
        fn contains[P: Pattern<E>](&self, pattern: P) -> bool = self.find(pattern).is_some();
        /// Returns whether the string begins with a pattern.
        fn starts_with[P: Pattern<E>](&self, pattern: P) -> bool =
            self.strip_prefix(pattern).is_some();
        /// Returns whether the string ends with a pattern.
        fn ends_with[P: Pattern<E>](&self, pattern: P) -> bool =
            self.strip_suffix(pattern).is_some();
        /// Returns what follows a pattern at the start, if it is there.
        fn strip_prefix[P: Pattern<E>](&self, prefix: P) -> Option<&WStr<E>> = {
            let view = self.borrow().view();
            let rest = match prefix.search(view) {
                Search::Text(text) => view.strip_prefix(text),
                Search::Test(test) => view.split_first().filter(|it| test(it.0)).map(|it| it.1),
            };
            rest.map(WStr::of)
        };
        /// Returns what is before a pattern at the end, if it is there.
        fn strip_suffix[P: Pattern<E>](&self, suffix: P) -> Option<&WStr<E>> = {
            let view = self.borrow().view();
            let rest = match suffix.search(view) {
                Search::Text(text) => view.strip_suffix(text),
                Search::Test(test) => view.split_last().filter(|it| test(it.0)).map(|it| it.1),
            };
            rest.map(WStr::of)
        };
        /// Returns what is before a character boundary, and what follows it. Panics elsewhere.
        fn split_at(&self, mid: usize) -> Both<'_, E> =
            self.split_at_checked(mid).expect("slice index out of bounds");
        /// Like [`split_at`](WStrExt::split_at), but returns `None` elsewhere.
        fn split_at_checked(&self, mid: usize) -> Option<Both<'_, E>> =
            self.borrow().view().split_at_checked(mid).map(both);
        /// Returns what is before the first occurrence, and what follows it.
        fn split_once[P: Pattern<E>](&self, delimiter: P) -> Option<Both<'_, E>> =
            search!(self, delimiter, split_once, cut_by).map(both);
        /// Returns what is before the last occurrence, and what follows it.
        fn rsplit_once[P: Pattern<E>](&self, delimiter: P) -> Option<Both<'_, E>> =
            search!(self, delimiter, rsplit_once, cut_last_by).map(both);
        /// Returns the parts between the occurrences of a pattern.
        fn split[P: Pattern<E>](&self, delimiter: P) -> Split<'_, E, P> = {
            let view = self.borrow().view();
            Split(match delimiter.search(view) {
                Search::Text(text) => Search::Text(view.split(text)),
                Search::Test(test) => Search::Test(view.split_with(test)),
            })
        };
        /// Returns the parts between the occurrences of a text, the last one first.
        fn rsplit[P: TextPattern<E>](&self, text: P) -> impl Iterator<Item = &WStr<E>> + Clone =
            by_text!(self, rsplit, text).map(WStr::of);
        /// Returns at most `n` parts between occurrences of a text. The last one is the rest.
        fn splitn[P: TextPattern<E>](&self, n: usize, text: P)
            -> impl Iterator<Item = &WStr<E>> + Clone =
            by_text!(self, splitn, text, n).map(WStr::of);
        /// Returns at most `n` parts like [`rsplit`](WStrExt::rsplit). The last one is the rest.
        fn rsplitn[P: TextPattern<E>](&self, n: usize, text: P)
            -> impl Iterator<Item = &WStr<E>> + Clone =
            by_text!(self, rsplitn, text, n).map(WStr::of);
        /// Returns the parts that end with a text, and the rest if it is not empty.
        fn split_inclusive[P: TextPattern<E>](&self, text: P)
            -> impl Iterator<Item = &WStr<E>> + Clone =
            by_text!(self, split_inclusive, text).map(WStr::of);
        /// Like [`split_inclusive`](WStrExt::split_inclusive), without that text.
        fn split_terminator[P: TextPattern<E>](&self, text: P)
            -> impl Iterator<Item = &WStr<E>> + Clone =
            by_text!(self, split_terminator, text).map(WStr::of);
        /// Returns the occurrences of a text that do not overlap.
        fn matches[P: TextPattern<E>](&self, text: P) -> impl Iterator<Item = &WStr<E>> + Clone =
            by_text!(self, matches, text).map(WStr::of);
        /// Returns the occurrences of a text that do not overlap, the last one first.
        fn rmatches[P: TextPattern<E>](&self, text: P) -> impl Iterator<Item = &WStr<E>> + Clone =
            by_text!(self, rmatch_indices, text).map(|(_, part)| WStr::of(part));
        /// Returns what [`matches`](WStrExt::matches) returns, with offsets.
        fn match_indices[P: TextPattern<E>](&self, text: P)
            -> impl Iterator<Item = (usize, &WStr<E>)> + Clone =
            by_text!(self, match_indices, text).map(|(at, part)| (at, WStr::of(part)));
        /// Returns what [`rmatches`](WStrExt::rmatches) returns, with offsets.
        fn rmatch_indices[P: TextPattern<E>](&self, text: P)
            -> impl Iterator<Item = (usize, &WStr<E>)> + Clone =
            by_text!(self, rmatch_indices, text).map(|(at, part)| (at, WStr::of(part)));
        /// Returns the lines, without their ends `\n` or `\r\n`.
        fn lines(&self) -> impl DoubleEndedIterator<Item = &WStr<E>> + Clone =
            self.borrow().view().lines().map(WStr::of);
        /// Returns the parts between white space, none of which is empty.
        fn split_whitespace(&self) -> impl DoubleEndedIterator<Item = &WStr<E>> + Clone =
            self.borrow().view().split_whitespace().map(WStr::of);
        /// Returns the parts between white space of ASCII, none of which is empty.
        fn split_ascii_whitespace(&self) -> impl DoubleEndedIterator<Item = &WStr<E>> + Clone =
            self.borrow().view().split_ascii_whitespace().map(WStr::of);
        /// Returns the string without white space at both ends.
        fn trim(&self) -> &WStr<E> = WStr::of(self.borrow().view().trim());
        /// Returns the string without white space at the start.
        fn trim_start(&self) -> &WStr<E> = WStr::of(self.borrow().view().trim_start());
        /// Returns the string without white space at the end.
        fn trim_end(&self) -> &WStr<E> = WStr::of(self.borrow().view().trim_end());
        /// Returns the string without the occurrences of a pattern at both ends.
        fn trim_matches[P: Pattern<E>](&self, pattern: P) -> &WStr<E> =
            WStr::of(search!(self, pattern, trim_matches, trim_with));
        /// Returns the string without the occurrences of a pattern at the start.
        fn trim_start_matches[P: Pattern<E>](&self, pattern: P) -> &WStr<E> =
            WStr::of(search!(self, pattern, trim_start_matches, trim_start_with));
        /// Returns the string without the occurrences of a pattern at the end.
        fn trim_end_matches[P: Pattern<E>](&self, pattern: P) -> &WStr<E> =
            WStr::of(search!(self, pattern, trim_end_matches, trim_end_with));
        /// Returns the value that the text stands for.
        fn parse[T: FromStr](&self) -> Result<T, T::Err> = self.borrow().to_utf8().parse();
        /// Returns whether two strings are equal if the case of ASCII letters is ignored.
        fn eq_ignore_ascii_case(&self, other: &WStr<E>) -> bool =
            self.borrow().view().eq_ignore_ascii_case(other.view());
        /// Returns the string with the small letters of ASCII instead of the capital ones.
        fn to_ascii_lowercase(&self) -> WString<E> = {
            let mut made = WString::from(self.borrow());
            made.make_ascii_lowercase();
            made
        };
        /// Returns the string with the capital letters of ASCII instead of the small ones.
        fn to_ascii_uppercase(&self) -> WString<E> = {
            let mut made = WString::from(self.borrow());
            made.make_ascii_uppercase();
            made
        };
        /// Returns the string `n` times.
        fn repeat(&self, n: usize) -> WString<E> = {
            let text = WString::from(self.borrow()).text;
            WString::made(text.repeat(Global, n), text.len().saturating_mul(n))
        };
        /// Returns the string with another one instead of each occurrence of a text.
        fn replace[P: TextPattern<E>](&self, from: P, to: &WStr<E>) -> WString<E> =
            self.borrow().replacen(from, to, usize::MAX);
        /// Returns the string with another one instead of the first `count` occurrences.
        fn replacen[P: TextPattern<E>](&self, from: P, to: &WStr<E>, count: usize) -> WString<E> = {
            let text = WString::from(self.borrow()).text;
            let from = from.search(self.borrow().view()).text();
            WString::made(text.replacen(Global, from, to.view(), count), usize::MAX)
        };
        /// Returns the string in another byte order.
        fn to_byte_order[F: 'static + ByteOrder](&self) -> WString<F> =
            WString { text: WString::from(self.borrow()).text.into_byte_order() };
    }
}

impl<E: ByteOrder> WStrExt<E> for WStr<E> {}

/// More methods of [`WString`]: those of [`String`] that `utf16string` 0.2.0 does not have.
pub trait WStringExt<E: 'static + ByteOrder>: BorrowMut<WString<E>> {
    /// Returns a string of bytes that may be ill formed, with U+FFFD for each unpaired surrogate
    /// and for an incomplete character at the end.
    ///
    /// ```
    /// use utf16string::{WString, WStringExt, LE};
    ///
    /// let text = WString::<LE>::from_utf16_lossy(b"h\0\0\xDCi");
    /// assert_eq!(text, "h\u{FFFD}\u{FFFD}");
    /// ```
    fn from_utf16_lossy(raw: &[u8]) -> WString<E> {
        match WStr::from_utf16(raw) {
            Ok(text) => text.into(),
            Err(_) => WString::from(dethrux::decode_lossy(byte_order::<E>(), raw)),
        }
    }

    /// Returns a string of code units, if they are well formed. The lengths of the error count
    /// bytes.
    ///
    /// ```
    /// use utf16string::{WString, WStringExt, BE};
    ///
    /// assert_eq!(WString::<BE>::from_units(&[0x68, 0xD83D, 0xDE00]).unwrap(), "h😀");
    /// assert_eq!(WString::<BE>::from_units(&[0x68, 0xD83D]).unwrap_err().valid_up_to(), 2);
    /// ```
    fn from_units(units: &[u16]) -> Result<WString<E>, Utf16Error> {
        let mut buf = vec![0; 2 * units.len()];
        E::write_u16_into(units, &mut buf);
        WString::from_utf16(buf)
    }

    methods! {
        /// Like `reserve`, but if there is no memory it returns an error, and nothing changes.
        #[doc = example!("a", "assert!(text.try_reserve(usize::MAX).is_err());", "a")]
        fn try_reserve(&mut self, additional: usize) -> Result<(), TryReserveError> =
            self.borrow_mut().text.raw.as_mut_vec().try_reserve(additional);
        /// Like [`try_reserve`](WStringExt::try_reserve), without room for more.
        #[doc = example!("a", "assert!(text.try_reserve_exact(9).is_ok());", "a")]
        fn try_reserve_exact(&mut self, additional: usize) -> Result<(), TryReserveError> =
            self.borrow_mut().text.raw.as_mut_vec().try_reserve_exact(additional);
        /// Makes the capacity smaller, but not smaller than the length and `min_capacity` bytes.
        #[doc = example!("a", "text.shrink_to(9);", "a")]
        // An error only says that the allocator left more.
        fn shrink_to(&mut self, min_capacity: usize) =
            self.borrow_mut().text.shrink_to(min_capacity).unwrap_or_default();
        /// Appends a text in UTF-8.
        #[doc = example!("a", "text.push_str(\"b😀\");", "ab😀")]
        fn push_str(&mut self, string: &str) =
            self.borrow_mut().edit(2 * string.len(), |text| text.push_str(string));
        /// Inserts a text in UTF-8 at an offset. It moves the bytes after it. Panics if the offset
        /// is not a character boundary.
        #[doc = example!("ab", "text.insert_str(2, \"😀\");", "a😀b")]
        fn insert_str(&mut self, idx: usize, string: &str) = {
            let it = self.borrow_mut();
            assert!(it.is_char_boundary(idx), "insert not on char boundary");
            it.edit(2 * string.len(), |text| text.insert_str(idx, string))
        };
        /// Replaces a range with another string. Panics if the range is not a substring.
        #[doc = example!("abcd", "text.replace_range(2..6, &WString::from(\"😀\"));", "a😀d")]
        fn replace_range[R: SliceIndex<E>](&mut self, range: R, replace_with: &WStr<E>) = {
            let it = self.borrow_mut();
            let range = part(range, it);
            it.edit(replace_with.len(), |text| text.replace_range(range, replace_with.view()))
        };
        /// Removes a range, and returns it as a string. Panics if the range is not a substring.
        #[doc = example!("abcd", "assert_eq!(text.drain(..4), \"ab\");", "cd")]
        fn drain[R: SliceIndex<E>](&mut self, range: R) -> WString<E> = {
            let it = self.borrow_mut();
            let range = part(range, it);
            WString::made(it.text.drain(range.clone()), range.len())
        };
        /// Changes capital letters of ASCII to small ones.
        #[doc = example!("AÄ", "text.make_ascii_lowercase();", "aÄ")]
        fn make_ascii_lowercase(&mut self) = self.borrow_mut().text.make_ascii_lowercase();
        /// Changes small letters of ASCII to capital ones.
        #[doc = example!("aä", "text.make_ascii_uppercase();", "Aä")]
        fn make_ascii_uppercase(&mut self) = self.borrow_mut().text.make_ascii_uppercase();
    }
}

impl<E: ByteOrder> WStringExt<E> for WString<E> {}
