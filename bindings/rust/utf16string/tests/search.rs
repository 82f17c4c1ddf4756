//! What `WStrExt` adds, compared with `str`, in both byte orders, for each pair of a text and a
//! pattern, and each kind of pattern.

use utf16string::{ByteOrder, TextPattern, WStr, WStrExt, WString, BE, LE};

/// Two characters have the bytes of another in the middle, and two pairs share a surrogate.
const TEXTS: [&str; 12] = [
    "",
    "a",
    " a \t",
    "aaaa",
    "a,b,,c,",
    "\u{10000}",
    "\u{6100}\u{6100}a",
    "\u{10000}\u{10001}\u{10400}\u{10000}",
    "a\u{10000}b\u{10000}",
    "one\r\ntwo\n\n\u{2003}three\r",
    "\n",
    "\u{A0}\u{1F600} x\u{3000}",
];

const PATTERNS: [&str; 11] = [
    "",
    "a",
    "aa",
    ",",
    "\u{6100}",
    "\u{10000}",
    "\u{10001}\u{10400}",
    "\u{DC}",
    "\n",
    "b\u{10000}",
    "longer than each of the texts is",
];

/// What a search of `str` or of `WStr` returns, with the offsets of `str` converted to UTF-16.
trait Found<T: ?Sized> {
    fn shown(self, text: &T) -> String;
}

impl Found<str> for &str {
    fn shown(self, _: &str) -> String {
        format!("{self:?}")
    }
}

impl Found<str> for usize {
    fn shown(self, text: &str) -> String {
        format!("{:?}", 2 * text[..self].encode_utf16().count())
    }
}

impl<E: ByteOrder> Found<WStr<E>> for &WStr<E> {
    fn shown(self, _: &WStr<E>) -> String {
        format!("{:?}", self.to_utf8())
    }
}

impl<E: ByteOrder> Found<WStr<E>> for usize {
    fn shown(self, _: &WStr<E>) -> String {
        format!("{self:?}")
    }
}

impl<T: ?Sized> Found<T> for bool {
    fn shown(self, _: &T) -> String {
        format!("{self:?}")
    }
}

impl<T: ?Sized, A: Found<T>, B: Found<T>> Found<T> for (A, B) {
    fn shown(self, text: &T) -> String {
        self.0.shown(text) + &self.1.shown(text)
    }
}

/// Makes calls that `str` and `WStr` have, and shows what they return.
macro_rules! called {
    ($text:ident; $($call:ident($($argument:expr),*))*) => {
        [$({
            let found = $text.$call($($argument),*).into_iter().map(|it| it.shown($text));
            format!("{} {:?}", stringify!($call), found.collect::<Vec<_>>())
        }),*]
    };
}

/// The calls that take each pattern.
macro_rules! by_pattern {
    ($text:ident, $pattern:expr) => {{
        let is_there = [$text.contains($pattern), $text.starts_with($pattern)];
        let parts = [$text.trim_start_matches($pattern), $text.trim_end_matches($pattern)];
        let found = called! { $text;
            find($pattern) rfind($pattern) strip_prefix($pattern) strip_suffix($pattern)
            split_once($pattern) rsplit_once($pattern) split($pattern)
        };
        let ends = (is_there[0], (is_there[1], $text.ends_with($pattern))).shown($text);
        (found, ends, (parts[0], parts[1]).shown($text))
    }};
}

/// The calls that take no closure.
macro_rules! by_text {
    ($text:ident, $pattern:expr, $n:expr) => {
        called! { $text;
            rsplit($pattern) splitn($n, $pattern) rsplitn($n, $pattern) split_inclusive($pattern)
            split_terminator($pattern) matches($pattern) rmatches($pattern)
            match_indices($pattern) rmatch_indices($pattern)
        }
    };
}

/// Compares each call on a text of std with the same call on a string.
fn compare<E: 'static + ByteOrder>(
    text: &str,
    string: &WStr<E>,
    pattern: impl TextPattern<E> + Copy,
    by_std: &str,
) {
    let found = by_pattern!(string, pattern);
    assert_eq!(found, by_pattern!(text, by_std), "{text:?} {by_std:?}");
    for n in 0..4 {
        let found = by_text!(string, pattern, n);
        assert_eq!(found, by_text!(text, by_std, n), "{text:?} {by_std:?}");
        let replaced = string.replacen(pattern, &WString::from("\u{1F600}-"), n);
        assert_eq!(replaced, text.replacen(by_std, "\u{1F600}-", n));
    }
    let mut starts = string.rmatches(pattern).map(WStr::as_ptr);
    for (at, _) in string.rmatch_indices(pattern) {
        assert_eq!(starts.next(), Some(string[at..].as_ptr()));
    }
    let replaced = string.replace(pattern, &WString::from("ab"));
    assert_eq!(replaced, text.replace(by_std, "ab"));
}

fn compare_test<E: 'static + ByteOrder>(text: &str, string: &WStr<E>, test: fn(char) -> bool) {
    assert_eq!(by_pattern!(string, test), by_pattern!(text, test), "{text:?}");
    assert_eq!(string.trim_matches(test), text.trim_matches(test));
}

fn search<E: 'static + ByteOrder>() {
    for (text, string) in TEXTS.map(|text| (text, WString::<E>::from(text))) {
        for pattern in PATTERNS {
            let part = WString::<E>::from(pattern);
            compare(text, &string, pattern, pattern);
            compare(text, &string, part.as_wstr(), pattern);
            let mut characters = pattern.chars();
            if let (Some(character), None) = (characters.next(), characters.next()) {
                compare(text, &string, character, pattern);
                assert_eq!(string.trim_matches(character), text.trim_matches(character));
            }
        }
        let (mut by_text, mut by_test) = (string.split("a"), string.split(|c| c == 'a'));
        assert_eq!(by_text.next(), by_test.next());
        assert!(by_text.clone().eq(by_test.clone()) && by_text.eq(by_test));
        compare_test(text, &string, |c| c > 'a');
        compare_test(text, &string, |c| c == '\u{10000}');
        compare_test(text, &string, char::is_whitespace);
    }
}

#[test]
fn each_pattern_is_found_in_each_text_as_std_finds_it() {
    search::<LE>();
    search::<BE>();
}

/// Takes the items of an iterator of `str` and of one of `WStr`, from both ends in turn.
fn same<'a, E: 'static + ByteOrder>(
    mut found: impl DoubleEndedIterator<Item = &'a WStr<E>> + Clone,
    mut expected: impl DoubleEndedIterator<Item = &'a str>,
) {
    assert!(found.clone().eq(found.clone()));
    while let Some(item) = expected.next() {
        assert_eq!(found.next().unwrap(), item);
        let (found, expected) = (found.next_back(), expected.next_back());
        assert_eq!(found.map(WStr::to_utf8).as_deref(), expected);
    }
    assert!(found.next().is_none() && found.next_back().is_none());
}

fn read<E: 'static + ByteOrder>() {
    for (text, string) in TEXTS.map(|text| (text, WString::<E>::from(text))) {
        same(string.lines(), text.lines());
        same(string.split_whitespace(), text.split_whitespace());
        same(string.split_ascii_whitespace(), text.split_ascii_whitespace());
        assert_eq!(string.trim(), text.trim());
        assert_eq!(string.trim_start(), text.trim_start());
        assert_eq!(string.trim_end(), text.trim_end());
        assert_eq!(string.repeat(3), text.repeat(3));
        assert_eq!(string.repeat(0), "");
        assert!(string.eq_ignore_ascii_case(&string.to_ascii_uppercase()));
        assert!(!string.eq_ignore_ascii_case(&(string.clone() + "b")));
        assert_eq!(string.to_byte_order::<LE>().as_bytes(), WString::<LE>::from(text).as_bytes());
        assert_eq!(string.to_byte_order::<BE>().as_bytes(), WString::<BE>::from(text).as_bytes());
    }
    assert_eq!(WString::<E>::from("-12").parse(), Ok(-12));
    assert!(WString::<E>::from("").parse::<u8>().is_err());
    let raw = WString::<E>::from("h\u{100}\0\u{1F600}").into_bytes();
    for raw in [&raw[..], &raw[..4]] {
        assert_eq!(WStr::<E>::from_utf16_until_nul(raw).unwrap(), "h\u{100}");
    }
    assert!(WStr::<E>::from_utf16_until_nul(&raw[..3]).is_err());
}

#[test]
fn a_string_is_read_as_std_reads_it() {
    read::<LE>();
    read::<BE>();
}
