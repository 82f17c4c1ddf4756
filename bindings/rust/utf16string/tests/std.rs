//! What `WString` and `WStr` implement of std.

use std::borrow::Cow;
use std::collections::{BTreeMap, HashMap};
use std::fmt::Write;
use std::rc::Rc;
use std::sync::Arc;
use utf16string::{ByteOrder, Utf16Error, WStr, WString, WStringExt, BE, LE};

#[test]
fn errors_have_one_message_and_become_those_of_std() {
    let bytes = b"h\0\0\xDC".to_vec();
    let (start, copy) = (bytes.as_ptr(), bytes.clone());
    let error = WStr::<LE>::from_utf16(&bytes).unwrap_err();
    let with_vector = WString::<LE>::try_from(bytes).unwrap_err();
    assert_eq!(with_vector.utf16_error(), error);
    assert_eq!(with_vector.as_bytes(), copy);
    let errors: [Box<dyn std::error::Error + Send + Sync>; 2] =
        [error.into(), with_vector.clone().into()];
    for error in errors {
        assert_eq!(error.to_string(), "Invalid UTF-16LE data in byte slice");
    }
    let bytes = with_vector.into_bytes();
    assert_eq!((bytes.as_ptr(), bytes), (start, copy));
    let found = std::io::Error::from(error);
    assert_eq!(found.kind(), std::io::ErrorKind::InvalidData);
    let inner = found.get_ref().and_then(|it| it.downcast_ref());
    assert_eq!(inner, Some(&error));
    assert_eq!(WString::<LE>::try_from(b"h\0".to_vec()).unwrap(), "h");
    assert_eq!(<&WStr<BE>>::try_from(&b"\0h"[..]).unwrap(), "h");
    assert!(<&WStr<BE>>::try_from(&b"\0h\0"[..]).is_err());
}

#[test]
fn strings_may_go_to_other_threads() {
    fn is_send_and_sync<T: Send + Sync + ?Sized>() {}
    is_send_and_sync::<WStr<LE>>();
    is_send_and_sync::<WString<BE>>();
    is_send_and_sync::<Utf16Error>();
}

/// A user's trait, with names that `WStrExt` has too.
trait Find {
    fn find(&self, character: char) -> usize;
    fn trim(&self) -> &'static str;
}

impl<E: ByteOrder> Find for WStr<E> {
    fn find(&self, character: char) -> usize {
        self.chars().filter(|other| *other == character).count()
    }

    fn trim(&self) -> &'static str {
        "trimmed"
    }
}

#[test]
fn a_users_trait_keeps_its_methods() {
    let text = WString::<LE>::from("banana");
    assert_eq!(text.find('a'), 3);
    assert_eq!(text.trim(), "trimmed");
}

fn conversions<E: 'static + ByteOrder>(utf8: &str) {
    let text: WString<E> = utf8.into();
    let (view, own) = (text.as_wstr(), utf8.to_string());
    let units: Vec<u16> = utf8.encode_utf16().collect();
    let boxed: Box<WStr<E>> = text.clone().into();
    let shared: [Rc<WStr<E>>; 2] = [view.into(), text.clone().into()];
    let atomic: [Arc<WStr<E>>; 2] = [view.into(), text.clone().into()];
    let cows: [Cow<WStr<E>>; 3] = [view.into(), (&text).into(), text.clone().into()];
    assert!(matches!(cows, [Cow::Borrowed(_), Cow::Borrowed(_), Cow::Owned(_)]));
    assert_eq!(Box::from(view), boxed);
    for found in [&*boxed, &*shared[0], &*shared[1], &*atomic[0], &*atomic[1], text.as_ref()] {
        assert_eq!(found, view);
    }
    for found in [
        WString::from_units(&units).unwrap(),
        own.clone().into(),
        (&own).into(),
        own.clone().as_mut_str().into(),
        utf8.parse().unwrap(),
        view.into(),
        (&text).into(),
        text.clone().as_mut_wstr().into(),
        view.to_owned(),
        boxed.clone().into(),
        boxed.into(),
        utf8.chars().collect(),
        WString::from_iter(&utf8.chars().collect::<Vec<_>>()),
    ]
    .into_iter()
    .chain(cows.into_iter().map(WString::from))
    {
        assert_eq!(found, text);
    }
    assert_eq!(text.chars().count(), utf8.chars().count());
    let bytes: [&[u8]; 2] = [text.as_ref(), view.as_ref()];
    assert_eq!(bytes, [&*Vec::from(text.clone()); 2]);
    assert_eq!(String::from(text.clone()), utf8);
    // Width and fill are ignored.
    assert_eq!(format!("{text:*>99}{view:*>99}"), [utf8, utf8].concat());
    let other = own.clone() + "a";
    for (utf8, own, is_equal) in [(utf8, own.clone(), true), (&*other, other.clone(), false)] {
        assert_eq!([text == *utf8, text == utf8, text == own], [is_equal; 3]);
        assert_eq!([*utf8 == text, utf8 == text, own == text], [is_equal; 3]);
        assert_eq!([*view == *utf8, *view == own, view == own], [is_equal; 3]);
        assert_eq!([*utf8 == *view, own == *view, own == view], [is_equal; 3]);
        let string = WString::<E>::from(utf8);
        assert_eq!([string == *view, string == view], [is_equal; 2]);
        assert_eq!([*view == string, view == string], [is_equal; 2]);
    }
    let twice = [utf8, utf8].concat();
    for found in [
        WString::<E>::from_iter([utf8, utf8]),
        WString::from_iter([own.clone(), own]),
        [view, view].into_iter().collect(),
        WString::from_iter([text.clone(), text.clone()]),
        WString::from_iter([&text, &text]),
        text.clone() + utf8,
        text.clone() + view,
        text.clone() + &text,
    ] {
        assert_eq!(found, twice);
    }
    let mut written = WString::<E>::from('>');
    write!(written, "{text}{:?}", 'a').unwrap();
    written.write_char('\u{10400}').unwrap();
    assert_eq!(written, format!(">{utf8}'a'\u{10400}"));
}

#[test]
fn a_string_is_made_of_what_a_string_of_std_is_made_of() {
    let long = ["\u{1F600}x", "x", "\u{100}"].map(|text| text.repeat(300));
    let short = ["", "a", "\u{10000}", "a\u{DF}\u{4E00}\u{1F600}"];
    for text in short.into_iter().chain(long.iter().map(String::as_str)) {
        conversions::<LE>(text);
        conversions::<BE>(text);
    }
    assert_eq!(<&WStr<LE>>::default(), "");
    assert!(Box::<WStr<LE>>::default().is_empty());
}

#[test]
fn maps_are_searched_by_views() {
    let key = || WString::<BE>::from("\u{1F600}");
    let hashed = HashMap::from([(key(), 1)]);
    let sorted = BTreeMap::from([(key(), 1)]);
    let view = WStr::from_utf16be(b"\xD8\x3D\xDE\0").unwrap();
    assert_eq!((hashed.get(view), sorted.get(view)), (Some(&1), Some(&1)));
    assert_eq!(hashed.get(&view[..0]), None);
}

#[cfg(feature = "serde")]
#[test]
fn strings_are_serialized_as_text() {
    use serde::de::value::{Error, StrDeserializer};
    use serde::de::IntoDeserializer;
    use serde::{Deserialize, Serialize};

    struct Shown(WString<BE>);
    impl std::fmt::Display for Shown {
        fn fmt(&self, f: &mut std::fmt::Formatter<'_>) -> std::fmt::Result {
            self.0.serialize(&mut *f)?;
            self.0.as_wstr().serialize(f)
        }
    }
    let deserializer: StrDeserializer<Error> = "a\u{1F600}".into_deserializer();
    let text = WString::<BE>::deserialize(deserializer).unwrap();
    assert_eq!(text, "a\u{1F600}");
    assert_eq!(Shown(text).to_string(), "a\u{1F600}a\u{1F600}");
}
