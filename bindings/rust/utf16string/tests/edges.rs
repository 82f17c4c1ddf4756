//! Every method at its edges, in both byte orders, compared with a `str` or a `String`:
//! each range of each kind, offsets past the end, each end of a text.

use std::cmp::Ordering;
use std::collections::hash_map::DefaultHasher;
use std::fmt::Debug;
use std::hash::{Hash, Hasher};
use std::ops::{Bound, Index, IndexMut, Range, RangeBounds};
use std::panic::{catch_unwind, set_hook, AssertUnwindSafe};
use utf16string::{ByteOrder, SliceIndex, WStr, WStrExt, WString, WStringExt, BE, LE};

const TEXTS: [&str; 10] = [
    "",
    "a",
    "\u{10000}",
    "aß",
    "aZ\u{C4}\u{1F600}z",
    "\u{7F}\u{80}\u{7FF}\u{800}\u{D7FF}\u{E000}\u{FEFF}\u{FFFE}\u{FFFF}",
    "a\u{10000}b",
    "\u{1F600}\u{10FFFF}",
    "\u{4E00}\u{10000}",
    "\u{100}",
];

/// The UTF-16 of a text.
fn utf16<E: ByteOrder>(text: &str) -> Vec<u8> {
    let units: Vec<u16> = text.encode_utf16().collect();
    let mut bytes = vec![0; 2 * units.len()];
    E::write_u16_into(&units, &mut bytes);
    bytes
}

/// The offsets of the characters in UTF-8 and in UTF-16, and the two lengths.
fn boundaries(text: &str) -> Vec<(usize, usize)> {
    let ends = (0..=text.len()).filter(|at| text.is_char_boundary(*at));
    ends.map(|at| (at, 2 * text[..at].encode_utf16().count())).collect()
}

fn is_boundary(text: &str, at: usize) -> bool {
    boundaries(text).iter().any(|ends| ends.1 == at)
}

/// Offsets to the end and past it.
fn offsets(len: usize) -> impl Iterator<Item = usize> {
    let past = [len + 1, len + 2, 2 * len + 2];
    let most = [1 << (usize::BITS - 1), usize::MAX - 1, usize::MAX];
    (0..=len).chain(past).chain(most)
}

/// The message of the panic of a call, or none.
fn panic_of(call: impl FnOnce()) -> Option<String> {
    let payload = catch_unwind(AssertUnwindSafe(call)).err()?;
    let fixed = payload.downcast_ref::<&str>().map(|text| text.to_string());
    fixed.or_else(|| payload.downcast_ref::<String>().cloned())
}

/// Takes a range with every call, and compares each result with the bytes of the range, or with
/// none.
fn take<E, I>(text: &mut WString<E>, range: I)
where
    E: 'static + ByteOrder,
    I: SliceIndex<WStr<E>, Output = WStr<E>> + RangeBounds<usize> + Clone,
{
    let window = window(&range, text.to_utf8());
    let expected = window.map(|window| text.as_bytes()[window].to_vec());
    type Take<E, I> = fn(&mut WStr<E>, I) -> Option<&WStr<E>>;
    let gets: [Take<E, I>; 4] = [
        |text, range| text.get(range),
        |text, range| text.get_mut(range).map(|part| &*part),
        |text, range| range.get(text),
        |text, range| range.get_mut(text).map(|part| &*part),
    ];
    // SAFETY: they are called only with a range of the text.
    let unchecked: [Take<E, I>; 4] = unsafe {
        [
            |text, range| Some(text.get_unchecked(range)),
            |text, range| Some(text.get_unchecked_mut(range)),
            |text, range| Some(range.get_unchecked(text)),
            |text, range| Some(range.get_unchecked_mut(text)),
        ]
    };
    for take in gets.iter().chain(expected.iter().flat_map(|_| &unchecked)) {
        let found = take(text, range.clone()).map(|part| part.as_bytes().to_vec());
        assert_eq!(found, expected);
    }
    type Bracket<E, I> = fn(&mut WString<E>, I) -> &WStr<E>;
    let brackets: [Bracket<E, I>; 6] = [
        |text, range| text.as_wstr().index(range),
        |text, range| text.as_mut_wstr().index_mut(range),
        |text, range| range.index(text.as_wstr()),
        |text, range| range.index_mut(text.as_mut_wstr()),
        |text, range| text.index(range),
        |text, range| text.index_mut(range),
    ];
    let is_overflow = matches!(range.end_bound(), Bound::Included(&usize::MAX));
    let message = ["slice index out of bounds", "index overflow"][usize::from(is_overflow)];
    for bracket in brackets {
        let mut found = None;
        let panic = panic_of(|| found = Some(bracket(text, range.clone()).as_bytes().to_vec()));
        assert_eq!(found, expected);
        assert_eq!(panic.as_deref(), expected.is_none().then_some(message));
    }
}

/// The bytes of a range, if it is one of the text.
fn window(range: &impl RangeBounds<usize>, text: String) -> Option<Range<usize>> {
    let start = match range.start_bound() {
        Bound::Included(start) => *start,
        _ => 0,
    };
    let end = match range.end_bound() {
        Bound::Included(end) => end.checked_add(1)?,
        Bound::Excluded(end) => *end,
        Bound::Unbounded => 2 * text.encode_utf16().count(),
    };
    let is_part = start <= end && is_boundary(&text, start) && is_boundary(&text, end);
    is_part.then_some(start..end)
}

fn every_range<E: 'static + ByteOrder>() {
    for mut text in TEXTS.map(WString::<E>::from) {
        take(&mut text, ..);
        for start in offsets(text.len()) {
            take(&mut text, start..);
            take(&mut text, ..start);
            take(&mut text, ..=start);
            for end in offsets(text.len()) {
                take(&mut text, start..end);
                take(&mut text, start..=end);
            }
        }
    }
}

#[test]
fn every_range_is_a_substring_or_none() {
    // The thousands of panics that are expected are not printed.
    set_hook(Box::new(|panic| {
        let text = panic.to_string();
        if !text.contains("slice index out of bounds") && !text.contains("index overflow") {
            eprintln!("{text}");
        }
    }));
    every_range::<LE>();
    every_range::<BE>();
}

/// Takes a view with each constructor, checked and not, and reads it.
fn read<E: 'static + ByteOrder>(text: &str) {
    let mut bytes = utf16::<E>(text);
    let (copy, start) = (bytes.clone(), bytes.as_ptr());
    let string = WString::<E>::from_utf16(copy.clone()).unwrap();
    let view = string.as_wstr();
    assert_eq!([string.len(), view.len()], [copy.len(); 2]);
    assert_eq!([string.is_empty(), view.is_empty()], [text.is_empty(); 2]);
    assert_eq!((view.as_bytes(), string.clone().into_bytes()), (&*copy, copy.clone()));
    // SAFETY: the bytes are well formed, and stay so.
    unsafe {
        assert_eq!(WString::<E>::from_utf16_unchecked(copy.clone()), string);
        assert_eq!(WStr::<E>::from_utf16_unchecked(&bytes).as_ptr(), start);
        assert_eq!(WStr::<E>::from_utf16_unchecked(&bytes), view);
        let made = WStr::<E>::from_utf16_unchecked_mut(&mut bytes);
        assert_eq!(made.as_mut_ptr() as *const u8, start);
        assert_eq!(made, view);
        assert_eq!(made.as_bytes_mut(), copy);
        assert_eq!(string.clone().as_mut_vec(), &copy);
    }
    assert_eq!(WStr::<E>::from_utf16(&bytes).unwrap(), view);
    assert_eq!(WStr::<E>::from_utf16_mut(&mut bytes).unwrap(), view);
    assert_eq!(WString::<E>::from_utf16_lossy(&bytes), string);
    assert_eq!(string.to_utf8(), text);
    for at in offsets(copy.len()) {
        assert_eq!(string.is_char_boundary(at), is_boundary(text, at));
        let parts = string.split_at_checked(at);
        let expected = is_boundary(text, at).then(|| (&string[..at], &string[at..]));
        assert_eq!(parts, expected);
        let panic = panic_of(|| assert_eq!(Some(string.split_at(at)), expected));
        assert_eq!(panic.is_some(), expected.is_none());
    }
    let ends = boundaries(text);
    let indices: Vec<_> = ends.iter().map(|end| end.1).zip(text.chars()).collect();
    same(string.chars(), &text.chars().collect::<Vec<_>>());
    same(string.char_indices(), &indices);
}

/// Compares an iterator with its items, whichever of them are taken from the front and the back.
fn same<T: Copy + Debug + PartialEq>(
    items: impl DoubleEndedIterator<Item = T> + Clone,
    expected: &[T],
) {
    assert_eq!(items.clone().count(), expected.len());
    assert_eq!(items.clone().last(), expected.last().copied());
    assert!(items.clone().eq(expected.iter().copied()));
    assert!(items.clone().rev().eq(expected.iter().rev().copied()));
    let (mut front, mut back) = (items.clone(), items);
    assert_eq!(front.next(), expected.first().copied());
    assert_eq!(back.next_back(), expected.last().copied());
    if let [_, rest @ ..] = expected {
        same(front, rest);
        same(back, &expected[..rest.len()]);
    } else {
        assert_eq!((front.next_back(), back.next()), (None, None));
    }
}

#[test]
fn texts_are_read_as_std_reads_them() {
    for text in TEXTS {
        read::<LE>(text);
        read::<BE>(text);
    }
}

fn ascii<E: 'static + ByteOrder>() {
    for len in (0..24).chain(252..260).chain([1000]) {
        let mut units = vec![0x7F; len];
        assert!(WString::<E>::from_units(&units).unwrap().is_ascii());
        for at in 0..len {
            for unit in [0x80, 0x100, 0x7F00, 0x8000] {
                units[at] = unit;
                assert!(!WString::<E>::from_units(&units).unwrap().is_ascii());
            }
            units[at] = 0;
        }
    }
}

#[test]
fn each_code_unit_is_tested_for_ascii() {
    ascii::<LE>();
    ascii::<BE>();
}

#[test]
fn constructors_of_a_byte_order_take_that_one() {
    for text in TEXTS {
        let (mut little, mut big) = (utf16::<LE>(text), utf16::<BE>(text));
        // SAFETY: the bytes are well formed.
        let unchecked = unsafe {
            [
                WStr::from_utf16le_unchecked(&little).to_utf8(),
                WStr::from_utf16be_unchecked(&big).to_utf8(),
                WStr::from_utf16le_unchecked_mut(&mut little).to_utf8(),
                WStr::from_utf16be_unchecked_mut(&mut big).to_utf8(),
                WString::from_utf16le_unchecked(little.clone()).to_utf8(),
                WString::from_utf16be_unchecked(big.clone()).to_utf8(),
            ]
        };
        assert_eq!(unchecked, [text; 6]);
        assert_eq!(WStr::from_utf16le(&little).unwrap(), text);
        assert_eq!(WStr::from_utf16be(&big).unwrap(), text);
        assert_eq!(WStr::from_utf16le_mut(&mut little).unwrap(), text);
        assert_eq!(WStr::from_utf16be_mut(&mut big).unwrap(), text);
        assert_eq!(WString::from_utf16le(little).unwrap(), text);
        assert_eq!(WString::from_utf16be(big).unwrap(), text);
    }
}

#[test]
fn ill_formed_bytes_are_refused_by_each_constructor() {
    // Bytes in big endian, the error (an unpaired surrogate, or an end inside a character), and the
    // text with U+FFFD for what is ill formed.
    type Case = (&'static [u8], Option<(usize, Option<usize>)>, &'static str);
    let cases: [Case; 10] = [
        (b"", None, ""),
        (b"\xD8\x3D\xDE\0", None, "\u{1F600}"),
        (b"\0", Some((0, None)), "\u{FFFD}"),
        (b"\0a\xDE\0\0b", Some((2, Some(2))), "a\u{FFFD}b"),
        (b"\0a\xD8\x3D\0b", Some((2, Some(2))), "a\u{FFFD}b"),
        (b"\0a\xD8\x3D", Some((2, None)), "a\u{FFFD}"),
        (b"\0a\xD8\x3D\xDE", Some((2, None)), "a\u{FFFD}"),
        (b"\xDE\0\xD8\x3D", Some((0, Some(2))), "\u{FFFD}\u{FFFD}"),
        (b"\xD8\x3D\xDE\0\xD8\x3D\xD8\x3D", Some((4, Some(2))), "\u{1F600}\u{FFFD}\u{FFFD}"),
        (b"\xD8\x3D\xDE\0\0", Some((4, None)), "\u{1F600}\u{FFFD}"),
    ];
    for (front, (big, error, lossy)) in [0, 500].iter().flat_map(|n| cases.map(|it| (*n, it))) {
        let mut big = [&b"\0x".repeat(front), big].concat();
        let mut little = big.clone();
        little.chunks_exact_mut(2).for_each(<[u8]>::reverse);
        let errors = [
            WStr::<BE>::from_utf16(&big).err(),
            WStr::<LE>::from_utf16(&little).err(),
            WStr::from_utf16be(&big).err(),
            WStr::from_utf16le(&little).err(),
            WString::<BE>::from_utf16(big.clone()).err(),
            WString::<LE>::from_utf16(little.clone()).err(),
            WString::from_utf16be(big.clone()).err(),
            WString::from_utf16le(little.clone()).err(),
            WStr::<BE>::from_utf16_mut(&mut big).err(),
            WStr::<LE>::from_utf16_mut(&mut little).err(),
            WStr::from_utf16be_mut(&mut big).err(),
            WStr::from_utf16le_mut(&mut little).err(),
        ];
        let fields = errors.map(|it| it.map(|it| (it.valid_up_to(), it.error_len())));
        assert_eq!(fields, [error.map(|(at, len)| (2 * front + at, len)); 12]);
        let lossy = "x".repeat(front) + lossy;
        assert_eq!(WString::<BE>::from_utf16_lossy(&big), lossy);
        assert_eq!(WString::<LE>::from_utf16_lossy(&little), lossy);
    }
}

/// Makes each edit of each text at each boundary, and the same edit of a `String`.
fn edit<E: 'static + ByteOrder>(text: &str) {
    let check = |edit: &dyn Fn(&mut WString<E>, &mut String)| {
        // With capacity for the edit, and without.
        for spare in [0, 100] {
            let (mut string, mut expected) = (WString::<E>::from(text), text.to_string());
            string.shrink_to_fit();
            string.reserve(spare);
            edit(&mut string, &mut expected);
            assert_eq!(string.as_bytes(), utf16::<E>(&expected));
        }
    };
    for (at_utf8, at) in boundaries(text) {
        for (character, more) in ['b', '\u{FFFF}', '\u{10400}'].into_iter().zip(TEXTS) {
            let more_string = WString::<E>::from(more);
            check(&|string, expected| {
                string.insert(at, character);
                expected.insert(at_utf8, character);
            });
            check(&|string, expected| {
                string.insert_wstr(at, &more_string);
                expected.insert_str(at_utf8, more);
            });
            check(&|string, expected| {
                string.insert_str(at, more);
                expected.insert_str(at_utf8, more);
            });
            check(&|string, expected| {
                string.push(character);
                string.push_wstr(&more_string);
                string.push_str(more);
                expected.extend([&character.to_string(), more, more]);
            });
            for (end_utf8, end) in boundaries(text).into_iter().filter(|ends| ends.1 >= at) {
                check(&|string, expected| {
                    string.replace_range(at..end, &more_string);
                    expected.replace_range(at_utf8..end_utf8, more);
                });
            }
        }
        for (end_utf8, end) in boundaries(text).into_iter().filter(|ends| ends.1 >= at) {
            check(&|string, expected| {
                let drained: String = expected.drain(at_utf8..end_utf8).collect();
                assert_eq!(string.drain(at..end), drained);
            });
        }
        check(&|string, expected| {
            string.truncate(at);
            expected.truncate(at_utf8);
        });
        check(&|string, expected| assert_eq!(string.split_off(at), expected.split_off(at_utf8)));
        check(&|string, expected| {
            if at < string.len() {
                assert_eq!(string.remove(at), expected.remove(at_utf8));
            }
        });
    }
    check(&|string, expected| {
        assert_eq!(string.pop(), expected.pop());
        string.truncate(string.len() + 1);
    });
    check(&|string, expected| {
        let mut number = 0;
        string.retain(|_| {
            number += 1;
            number % 2 == 0
        });
        *expected = expected.chars().skip(1).step_by(2).collect();
    });
    check(&|string, expected| {
        assert_eq!(string.to_ascii_lowercase(), expected.to_ascii_lowercase());
        string.make_ascii_uppercase();
        expected.make_ascii_uppercase();
        assert_eq!(string.to_ascii_uppercase(), *string);
        string.make_ascii_lowercase();
        expected.make_ascii_lowercase();
    });
    check(&|string, expected| {
        string.clear();
        expected.clear();
    });
}

/// Makes the edits at an offset that is not a boundary, or not the start of a character.
fn wrong_edits<E: 'static + ByteOrder>(text: &str, at: usize) {
    type Edit<E> = fn(&mut WString<E>, usize);
    let (len, is_boundary) = (2 * text.encode_utf16().count(), is_boundary(text, at));
    let remove = match at == len {
        true => "cannot remove a char from the end of a string",
        false => "slice index out of bounds",
    };
    let edits: [(bool, &str, Edit<E>); 8] = [
        (is_boundary, "insert not on char boundary", |text, at| text.insert(at, 'x')),
        (is_boundary, "insert not on char boundary", |text, at| text.insert_str(at, "x")),
        (is_boundary, "assertion failed: self.is_char_boundary(idx)", |text, at| {
            text.insert_wstr(at, &WString::from("x"));
        }),
        (is_boundary, "split_off not on a char boundary", |text, at| drop(text.split_off(at))),
        (is_boundary || at >= len, "new WString length not on char boundary", WString::truncate),
        (is_boundary && at < len, remove, |text, at| assert_ne!(text.remove(at), '\0')),
        (is_boundary, "slice index out of bounds", |text, at| drop(text.drain(..at))),
        (is_boundary, "slice index out of bounds", |text, at| {
            text.replace_range(at.., &WString::from("x"));
        }),
    ];
    for (is_allowed, message, edit) in edits {
        let mut string = WString::<E>::from(text);
        let panic = panic_of(|| edit(&mut string, at));
        assert_eq!(panic.as_deref(), (!is_allowed).then_some(message), "{text:?} at {at}");
        assert!(is_allowed || string == text);
    }
}

#[test]
fn edits_at_each_offset_are_those_of_a_string() {
    for text in TEXTS {
        edit::<LE>(text);
        edit::<BE>(text);
        for at in offsets(2 * text.encode_utf16().count()) {
            wrong_edits::<LE>(text, at);
            wrong_edits::<BE>(text, at);
        }
    }
    let mut text = WString::<LE>::from("a");
    let drain = panic_of(|| drop(text.drain(..=usize::MAX)));
    assert_eq!(drain.as_deref(), Some("index overflow"));
}

#[test]
fn a_predicate_that_panics_leaves_a_string() {
    let long = "xy\u{10000}".repeat(40) + &"abcdefghijklmnop".repeat(40);
    let characters: Vec<char> = long.chars().collect();
    for last in [0, 1, 2, 16, 119, 120, 121, 140, 500, characters.len() - 1] {
        let (mut text, mut number) = (WString::<LE>::from(&long), 0);
        let panic = panic_of(|| {
            text.retain(|character| {
                assert_eq!(character, characters[number]);
                number += 1;
                assert!(number <= last, "stop at {last}");
                number % 3 == 0
            })
        });
        assert_eq!(panic, Some(format!("stop at {last}")));
        assert_eq!(number, last + 1, "the predicate is not called after its panic");
        let kept = characters[..last].iter().skip(2).step_by(3);
        assert_eq!(text, kept.chain(&characters[last..]).collect::<String>());
    }
}

fn hash(value: &(impl Hash + ?Sized)) -> u64 {
    let mut hasher = DefaultHasher::new();
    value.hash(&mut hasher);
    hasher.finish()
}

fn compared<E: 'static + ByteOrder>(first: &str, second: &str) -> Ordering {
    let (left, right) = (WString::<E>::from(first), WString::<E>::from(second));
    let order = left.cmp(&right);
    assert_eq!(left.partial_cmp(&right), Some(order));
    assert_eq!(left.as_wstr().cmp(&right), order);
    assert_eq!(left.as_wstr().partial_cmp(&right), Some(order));
    assert_eq!(left == right, first == second);
    assert_eq!(left.as_wstr() == right.as_wstr(), first == second);
    assert_eq!(hash(&left) == hash(&right), first == second);
    // A map with strings as keys finds them by a view, and by the bytes as 0.2.0 hashes them.
    assert_eq!(hash(left.as_wstr()), hash(&left));
    assert_eq!(hash(&left.as_bytes()), hash(&left));
    order
}

#[test]
fn any_two_strings_are_compared_as_str() {
    for (first, second) in TEXTS.iter().flat_map(|it| TEXTS.map(|second| (*it, second))) {
        assert_eq!(compared::<LE>(first, second), first.cmp(second));
        assert_eq!(compared::<BE>(first, second), first.cmp(second));
    }
}

#[test]
fn a_mutable_view_changes_its_string() {
    let mut text = WString::<BE>::from("abc");
    let start = text.as_ptr();
    assert_eq!(text.as_mut_ptr() as *const u8, start);
    type View = fn(&mut WString<BE>) -> &mut WStr<BE>;
    let views: [View; 5] = [
        |text| &mut text[..2],
        |text| text.get_mut(2..4).unwrap(),
        |text| &mut text.as_mut_wstr()[4..],
        |text| text,
        |text| text.as_mut_wstr(),
    ];
    for (view, expected) in views.into_iter().zip(["xbc", "xxc", "xxx", "yxx", "zxx"]) {
        let last = expected.as_bytes()[0];
        // SAFETY: the bytes are ASCII.
        unsafe { view(&mut text).as_bytes_mut()[1] = last };
        assert_eq!(text, expected);
    }
}

#[test]
fn capacities_are_those_of_a_vector() {
    assert_eq!(WString::<BE>::new().capacity(), 0);
    assert_eq!(WString::<BE>::default(), WString::new());
    let mut text = WString::<BE>::with_capacity(10);
    assert_eq!(text.capacity(), 10);
    text.push('a');
    text.reserve(20);
    assert!(text.capacity() >= 22);
    text.clear();
    assert!(text.capacity() >= 22);
    text.shrink_to(20);
    assert_eq!(text.capacity(), 20);
    text.shrink_to_fit();
    assert_eq!(text.capacity(), 0);
    text.push('a');
    let most = isize::MAX as usize;
    let overflows: [fn(&mut WString<BE>, usize); 2] = [WString::reserve, |text, most| {
        *text = WString::with_capacity(most + 1);
    }];
    for overflow in overflows {
        let panic = panic_of(|| overflow(&mut text, most));
        assert_eq!(panic.as_deref(), Some("capacity overflow"));
    }
    assert!(text.try_reserve(most).is_err() && text.try_reserve_exact(most).is_err());
    assert!(text.try_reserve(50).is_ok() && text.capacity() >= 52);
    assert!(text.try_reserve_exact(100).is_ok() && text.capacity() >= 102);
    assert_eq!(text, "a");
}

/// What `utf16string` 0.2.0 shows.
#[test]
fn values_are_shown_with_their_fields() {
    let text = WString::<BE>::from("ab");
    let mut indices = text.char_indices();
    indices.next();
    let error = WStr::<BE>::from_utf16(b"\0a\xD8\0\0b").unwrap_err();
    let endian = "PhantomData<&byteorder::BigEndian>";
    let chars = |rest: &str| {
        let chunks = format!("ChunksExact {{ v: {rest}, rem: [], chunk_size: 2 }}");
        format!("WStrChars {{ chunks: {chunks}, _endian: {endian} }}")
    };
    assert_eq!(format!("{:?}", text.chars()), chars("[0, 97, 0, 98]"));
    for (shown, expected) in [
        (
            format!("{indices:?}"),
            format!("CharIndices {{ chars: {}, index: 2 }}", chars("[0, 98]")),
        ),
        (format!("{:?}", &*text), format!(" {{ _endian: {endian}, raw: [0, 97, 0, 98] }}")),
        (format!("{text:?}"), format!("ing {{ buf: [0, 97, 0, 98], _endian: {endian} }}")),
    ] {
        assert_eq!(shown, format!("WStr{expected}"));
    }
    assert_eq!(format!("{error:?}"), "Utf16Error { valid_up_to: 2, error_len: Some(2) }");
}
