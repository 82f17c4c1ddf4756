use crate::proved::utf16_bytes;
use crate::proved::utf16_str::{WStr as View, WStrSplit, WStrSplitWith};
use crate::{ByteOrder, WStr, WString};

/// What the proved code looks for: a text, or a character that passes a test.
#[derive(Clone, Debug)]
pub enum Search<T, F> {
    Text(T),
    Test(F),
}

impl<T, F> Search<T, F> {
    /// Returns the text of a [`TextPattern`].
    pub(crate) fn text(self) -> T {
        match self {
            Search::Text(text) => text,
            Search::Test(_) => unreachable!("only a closure is a test"),
        }
    }
}

/// Says what the proved code looks for. Nobody else can name this trait, or has a `View` for it.
pub trait SealedPattern<E: 'static + ByteOrder> {
    type Text: utf16_bytes::Pattern<E>;
    type Test: Fn(char) -> bool;

    fn search(self, _: View<'_, E>) -> Search<Self::Text, Self::Test>;
}

/// What a search looks for: a [`char`], a [`&str`](str), a `&WStr<E>`, or a closure that says of a
/// [`char`] whether it matches, like `std::str::pattern::Pattern`. The trait is sealed.
///
/// For a [`WString`] pass its [`as_wstr`](WString::as_wstr).
pub trait Pattern<E: 'static + ByteOrder>: SealedPattern<E> {}

impl<E: 'static + ByteOrder, P: SealedPattern<E>> Pattern<E> for P {}

/// A [`Pattern`] that is a text: a [`char`], a [`&str`](str) or a `&WStr<E>`. The trait is sealed.
pub trait TextPattern<E: 'static + ByteOrder>: Pattern<E> {}

macro_rules! texts {
    ($($Given:ty => $Text:ty: |$given:ident| $text:expr;)*) => {$(
        impl<'p, E: 'static + ByteOrder> SealedPattern<E> for $Given {
            type Text = $Text;
            type Test = fn(char) -> bool;

            #[inline]
            fn search(self, _: View<'_, E>) -> Search<Self::Text, Self::Test> {
                let $given = self;
                Search::Text($text)
            }
        }

        impl<'p, E: 'static + ByteOrder> TextPattern<E> for $Given {}
    )*};
}

texts! {
    char => char: |character| character;
    &'p str => Utf8<'p>: |text| Utf8(text);
    &'p WStr<E> => View<'p, E>: |text| text.view();
}

impl<E: 'static + ByteOrder, F: Fn(char) -> bool> SealedPattern<E> for F {
    type Text = char;
    type Test = F;

    #[inline]
    fn search(self, _: View<'_, E>) -> Search<char, F> {
        Search::Test(self)
    }
}

/// A text in UTF-8, which each search converts.
#[derive(Clone, Copy, Debug)]
pub struct Utf8<'p>(&'p str);

macro_rules! convert {
    ($($search:ident)*) => {
        impl<E: 'static + ByteOrder> utf16_bytes::Pattern<E> for Utf8<'_> {
            #[inline]
            fn encoded_len(self) -> usize {
                crate::proved::utf16_units::utf16_len(self.0)
            }

            $(
                #[inline]
                fn $search(self, bytes: &[u8]) -> Option<usize> {
                    let text = WString::<E>::from(self.0);
                    utf16_bytes::Pattern::<E>::$search(text.view(), bytes)
                }
            )*
        }
    };
}

convert!(first_in next_in last_in prefix_len suffix_len);

/// The parts between occurrences of a pattern. [`split`](crate::WStrExt::split) returns it.
#[derive(Clone)]
#[allow(missing_debug_implementations)]
pub struct Split<'t, E: 'static + ByteOrder, P: Pattern<E>>(
    pub(crate) Search<WStrSplit<'t, E, P::Text>, WStrSplitWith<'t, E, P::Test>>,
);

impl<'t, E: ByteOrder, P: Pattern<E>> Iterator for Split<'t, E, P> {
    type Item = &'t WStr<E>;

    #[inline]
    fn next(&mut self) -> Option<&'t WStr<E>> {
        let part = match &mut self.0 {
            Search::Text(parts) => parts.next(),
            Search::Test(parts) => parts.next(),
        };
        part.map(WStr::of)
    }
}
