// packaging/erase wrote this from crates/utf16_str/src/lines.rt: do not edit it.
//! The lines of a text.

use crate::proved::utf16_str::WStr;
use crate::proved::utf16_units::Utf16Order;

/// An iterator over the remaining lines of a [`WStr`], from either end. Each is a view without its
/// line ending. Once none is left, `next` and `next_back` always return `None`.

#[derive(Clone)]
pub struct WStrLines<'a, E: Utf16Order> {
    rest: Option<WStr<'a, E>>,
}

impl<'a, E: Utf16Order> Iterator for WStrLines<'a, E> {
    type Item = WStr<'a, E>;

    fn next(&mut self) -> Option<WStr<'a, E>> {
        let rest = self.rest?;
        let Some((line, after)) = rest.split_once('\n') else {
            self.rest = None;
            return if rest.is_empty() { None } else { Some(rest) };
        };
        self.rest = Some(after);
        // Without the one carriage return at its end, if it has one.
        Some(line.strip_suffix('\r').unwrap_or(line))
    }
}

impl<'a, E: Utf16Order> DoubleEndedIterator for WStrLines<'a, E> {
    fn next_back(&mut self) -> Option<WStr<'a, E>> {
        let rest = self.rest?;
        let Some(closed) = rest.strip_suffix('\n') else {
            let (before, line) = rest.split_last_line();
            self.rest = Some(before);
            return if line.is_empty() { None } else { Some(line) };
        };
        let (before, line) = closed.split_last_line();
        self.rest = Some(before);
        let line = line.strip_suffix('\r').unwrap_or(line);
        Some(line)
    }
}

impl<'a, E: Utf16Order> WStr<'a, E> {
    /// Returns an iterator over the lines, in order. A line ends at `\n` or `\r\n`, which is not
    /// part of it. The last line needs no ending, and nothing follows the last ending.
    ///
    /// # Complexity
    ///
    /// One pass over the text. Copies nothing and does not allocate.
    ///
    /// # Source
    ///
    /// The lines are the same as with `str::lines`.
    ///
    /// Proved:
    ///
    /// - ensures parts: `result ≡ lines (wstr_text self.entry)`
    /// - ensures bound: `length result < 2 ^ 64`
    /// - ensures runs: `YieldsTexts self.entry`
    /// - ensures runs_back: `YieldsTextsBack self.entry`
    /// - ensures within: `YieldsPartsOf self.entry (line_offsets (wstr_text self.entry)) result`
    /// - ensures within_back: `YieldsPartsOfBack self.entry (line_offsets (wstr_text self.entry))
    ///   result`
    pub fn lines(self) -> WStrLines<'a, E> {
        WStrLines { rest: Some(self) }
    }

    // The text up to its last newline, and the text after that.
    //
    // Proved:
    //
    // - ensures joined: `wstr_text self.entry ≡ wstr_text result.0 ++ wstr_text result.1`
    // - ensures line: `Lacks 10 (wstr_text result.1)`
    // - ensures ended: `EndsWithAny (λ c. c ≡ 10) (wstr_text result.0)`
    fn split_last_line(self) -> (WStr<'a, E>, WStr<'a, E>) {
        let Some((_, line)) = self.rsplit_once('\n') else {
            return self.split_at(0);
        };
        self.split_at(self.len() - line.len())
    }
}
