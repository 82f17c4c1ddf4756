// packaging/erase wrote this from crates/utf16string/src/wstring/replaces.rt: do not edit it.
//! New strings with the matches of a pattern replaced.

use crate::proved::kit::{AllocError, Allocator};
use crate::proved::utf16_str::{Pattern, WStr};
use crate::proved::utf16_units::Utf16Order;
use crate::proved::utf16string::WString;

impl<E: Utf16Order, A: Allocator> WString<E, A> {
    /// Returns a new string with each match of a text or a character replaced by the text `to`. The
    /// matches are found from the front, and do not overlap. The empty text matches before each
    /// character and at the end.
    ///
    /// # Errors
    ///
    /// `AllocError`, if allocation fails. It does not fail if the result is empty.
    ///
    /// # Complexity
    ///
    /// Linear in the lengths of this text, the pattern and the result. Allocates as many bytes as
    /// this text has, and again only if the result has more. Allocates nothing if the result is
    /// empty.
    ///
    /// # Source
    ///
    /// `str::replace`, for a text or a character.
    ///
    /// Proved:
    ///
    /// - ensures text: `IfOk result (λ s. wstring_text s ≡ replaced (P.part from) (wstr_text
    ///   to.entry) (wstring_text self.now))`
    /// - ensures nothing: `replaced (P.part from) (wstr_text to.entry) (wstring_text self.now) ≡ []
    ///   → IsOk result`
    /// - ensures empty: `IfOk result (λ s. wstring_bytes s ≡ [] → wstring_capacity s ≡ 0)`
    pub fn replace<P: Pattern<E> + Copy, B: Allocator>(
        &self,
        alloc: B,
        from: P,
        to: WStr<E>,
    ) -> Result<WString<E, B>, AllocError> {
        self.replacen(alloc, from, to, usize::MAX)
    }

    /// Replaces the first `count` matches like `replace`, or all if there are fewer.
    ///
    /// # Errors
    ///
    /// `AllocError`, if allocation fails. It does not fail if the result is empty.
    ///
    /// # Complexity
    ///
    /// As of `replace`.
    ///
    /// # Source
    ///
    /// `str::replacen`, for a text or a character.
    ///
    /// Proved:
    ///
    /// - ensures text: `IfOk result (λ s. wstring_text s ≡ replaced_first count (P.part from)
    ///   (wstr_text to.entry) (wstring_text self.now))`
    /// - ensures nothing: `replaced_first count (P.part from) (wstr_text to.entry) (wstring_text
    ///   self.now) ≡ [] → IsOk result`
    /// - ensures empty: `IfOk result (λ s. wstring_bytes s ≡ [] → wstring_capacity s ≡ 0)`
    pub fn replacen<P: Pattern<E> + Copy, B: Allocator>(
        &self,
        alloc: B,
        from: P,
        to: WStr<E>,
        count: usize,
    ) -> Result<WString<E, B>, AllocError> {
        let mut made = WString::new(alloc);
        push_replaced(&mut made, self.as_wstr(), from, to, count)?;
        Ok(made)
    }
}

// Appends a text with the first `count` matches of a pattern replaced.
//
// Proved:
//
// - ensures text: `OnOk result (wstring_text made.new ≡ push_text (wstring_text made.old)
//   (replaced_first count (P.part from) (wstr_text to.entry) (wstr_text text.entry)))`
// - ensures nothing: `replaced_first count (P.part from) (wstr_text to.entry) (wstr_text
//   text.entry) ≡ [] → IsOk result × (wstring_capacity made.new ≡ wstring_capacity made.old)`
fn push_replaced<E: Utf16Order, P: Pattern<E> + Copy, A: Allocator>(
    made: &mut WString<E, A>,
    text: WStr<E>,
    from: P,
    to: WStr<E>,
    count: usize,
) -> Result<(), AllocError> {
    if from.encoded_len() == 0 {
        push_between(made, text, to, count)
    } else {
        push_around(made, text, from, to, count)
    }
}

// Appends a text with the first `count` matches of the empty text replaced: another is put before
// each character and at the end.
//
// Proved:
//
// - ensures text: `OnOk result (wstring_text made.new ≡ push_text (wstring_text made.old)
//   (replaced_first count [] (wstr_text to.entry) (wstr_text text.entry)))`
// - ensures nothing: `replaced_first count [] (wstr_text to.entry) (wstr_text text.entry) ≡ [] →
//   IsOk result × (wstring_capacity made.new ≡ wstring_capacity made.old)`
fn push_between<E: Utf16Order, A: Allocator>(
    made: &mut WString<E, A>,
    text: WStr<E>,
    to: WStr<E>,
    count: usize,
) -> Result<(), AllocError> {
    let len = text.len();
    made.reserve_exact(len)?;
    let mut chars = text.chars();
    for _ in 0..count {
        push_part(made, to, len)?;
        let Some(c) = chars.next() else {
            return Ok(());
        };
        made.push(c)?;
    }
    push_part(made, chars.as_wstr(), len)
}

// Appends a text with the first `count` matches of a pattern, which is not empty, replaced.
//
// Proved:
//
// - requires `P.part from ≢ []`
// - ensures text: `OnOk result (wstring_text made.new ≡ push_text (wstring_text made.old)
//   (replaced_first count (P.part from) (wstr_text to.entry) (wstr_text text.entry)))`
// - ensures nothing: `replaced_first count (P.part from) (wstr_text to.entry) (wstr_text
//   text.entry) ≡ [] → IsOk result × (wstring_capacity made.new ≡ wstring_capacity made.old)`
fn push_around<E: Utf16Order, P: Pattern<E> + Copy, A: Allocator>(
    made: &mut WString<E, A>,
    text: WStr<E>,
    from: P,
    to: WStr<E>,
    count: usize,
) -> Result<(), AllocError> {
    let len = text.len();
    let mut rest = text;
    for _ in 0..count {
        let Some((before, after)) = split_around(rest, from) else {
            return push_part(made, rest, len);
        };
        push_part(made, before, len)?;
        push_part(made, to, len)?;
        rest = after;
    }
    push_part(made, rest, len)
}

// Appends a text. A string without capacity first reserves `len` bytes, unless the text is empty.
//
// Proved:
//
// - ensures text: `OnOk result (wstring_text made.new ≡ push_text (wstring_text made.old)
//   (wstr_text part.entry))`
// - ensures nothing: `wstr_text part.entry ≡ [] → IsOk result × (wstring_capacity made.new ≡
//   wstring_capacity made.old)`
#[inline]
fn push_part<E: Utf16Order, A: Allocator>(
    made: &mut WString<E, A>,
    part: WStr<E>,
    len: usize,
) -> Result<(), AllocError> {
    if part.is_empty() {
        return Ok(());
    }
    if made.capacity() == 0 {
        made.reserve_exact(len)?;
    }
    made.push_wstr(part)
}

// The text before the first match of a pattern and the text after that match, if there is one.
//
// Proved:
//
// - ensures `option_map (λ around. (wstr_text around.0, wstr_text around.1)) result ≡ around_match
//   (P.part pattern) (wstr_text text.entry)`
#[inline]
fn split_around<'a, E: Utf16Order, P: Pattern<E> + Copy>(
    text: WStr<'a, E>,
    pattern: P,
) -> Option<(WStr<'a, E>, WStr<'a, E>)> {
    let at = text.find(pattern)?;
    let (before, matched) = text.split_at(at);
    let (_, after) = matched.split_at(pattern.encoded_len());
    Some((before, after))
}
