//! Makes random calls on a string of the crate `utf16string` 0.2.0, `original`, and on one of the
//! crate in `bindings/rust`, `ours`, and compares what they return, how they panic, and their bytes.
//! Documented differences are left out: `is_ascii` of other characters whose bytes are ASCII,
//! capacities above what is asked for, the `Debug` of iterators, a `retain` whose predicate panics.
#[cfg(alone)]
extern crate ours as original;
mod texts;

use std::error::Error;
use std::fmt::Debug;
use std::hash::{Hash, Hasher};
use std::panic::{AssertUnwindSafe, catch_unwind, set_hook};
use texts::Random;

const CALLS: &str = "from_utf16 from unchecked get get_mut get_unchecked index wstr_index index_mut wstr_index_mut push push_wstr \
    insert insert_wstr remove pop truncate split_off retain clear capacity chars char_indices is_char_boundary eq show";
const CLASSES: [&str; 5] = ["ascii", "latin_cyrillic", "cjk", "emoji", "any"];
const EDGES: &str = "\0\u{7F}\u{80}\u{100}\u{D7FF}\u{E000}\u{FEFF}\u{FFFF}\u{10000}\u{10FFFF}";

/// A call, and values of which it takes some: a range, a text, bytes that may be ill-formed, and a
/// number that chooses.
type Operation = (&'static str, [usize; 2], String, Vec<u8>, usize);
/// Makes a call on the string with these bytes. Returns what the call returns, and the bytes then.
type Run = fn(Vec<u8>, &Operation) -> (String, Vec<u8>);

/// Keeps what is written to it.
struct Record(Vec<Vec<u8>>);

impl Hasher for Record {
    fn finish(&self) -> u64 {
        0
    }
    fn write(&mut self, bytes: &[u8]) {
        self.0.push(bytes.to_vec());
    }
}

fn show(value: impl Debug) -> String {
    format!("{value:?}")
}

/// Makes the calls of an iterator that the bits of a number choose.
fn iterate<T: Debug, I: DoubleEndedIterator<Item = T>>(mut rest: I, choice: usize) -> String {
    let calls = [I::next, I::next_back, |rest: &mut I| rest.nth(1), |rest: &mut I| rest.nth_back(1)];
    let seen: Vec<_> = (0..choice % 16).map(|turn| calls[choice >> (4 + 2 * turn) & 3](&mut rest)).collect();
    match choice >> 60 & 3 {
        0 => show((seen, rest.last())),
        1 => show((seen, rest.count())),
        2 => show((seen, rest.rev().collect::<Vec<_>>())),
        _ => show((seen, rest.collect::<Vec<_>>())),
    }
}

/// Makes a call with a range of one of the six kinds.
macro_rules! ranged {
    ($at:ident $end:ident $choice:ident, $range:ident => $call:expr) => {
        match $choice % 6 {
            0 => match .. { $range => show($call) },
            1 => match $at..$end { $range => show($call) },
            2 => match $at.. { $range => show($call) },
            3 => match ..$end { $range => show($call) },
            4 => match $at..=$end { $range => show($call) },
            _ => match ..=$end { $range => show($call) },
        }
    };
}

macro_rules! library {
    ($run:ident $library:ident $Order:ident $new:ident $new_mut:ident $unchecked:ident $unchecked_mut:ident) => {
        fn $run(bytes: Vec<u8>, operation: &Operation) -> (String, Vec<u8>) {
            type WStr = $library::WStr<$library::$Order>;
            type WString = $library::WString<$library::$Order>;
            fn called(s: &mut WString, (call, [at, end], text, bytes, choice): &Operation) -> String {
                let (at, end, choice, start) = (*at, *end, *choice, s.as_ptr() as usize);
                let other = WString::from(text.as_str());
                let (mut copy, mut record, mut seen) = (bytes.clone(), Record(Vec::new()), Vec::new());
                let place = |part: &WStr| (part.as_ptr() as usize - start, part.as_bytes().to_vec());
                let fill = |part: &mut WStr| unsafe { part.as_bytes_mut() }.fill(0x4E);
                let told = |e: $library::Utf16Error| (e, e.to_string(), e.valid_up_to(), e.error_len(), e.source().is_none());
                match *call {
                    "from_utf16" => show((
                        [WStr::from_utf16(bytes), WStr::$new(bytes)].map(|made| made.map(WStr::to_utf8).map_err(told)),
                        WStr::from_utf16_mut(&mut copy).map(|text| text.to_utf8()).map_err(told),
                        WStr::$new_mut(&mut copy).map(|text| text.to_utf8()).map_err(told),
                        [WString::from_utf16(bytes.clone()), WString::$new(copy)].map(|made| made.map_err(told)),
                    )),
                    "from" => {
                        let made = [other, WString::from(text), WString::from(text.clone().as_mut_str())];
                        show(*s = made.into_iter().nth(choice % 4).unwrap_or_default())
                    }
                    "unchecked" => unsafe {
                        s.as_mut_vec().extend([0x4E; 2]);
                        let mut bytes = s.as_bytes().to_vec();
                        show((WStr::$unchecked_mut(&mut bytes).len(), WStr::$unchecked(&bytes), WString::$unchecked(bytes.clone())))
                    },
                    "get" => ranged!(at end choice, range => s.get(range).map(place)),
                    "get_mut" => ranged!(at end choice, range => s.get_mut(range).map(fill)),
                    "get_unchecked" => ranged!(at end choice, range => s.get(range.clone()).is_some().then(|| unsafe {
                        fill(s.get_unchecked_mut(range.clone()));
                        place(s.get_unchecked(range))
                    })),
                    "index" => ranged!(at end choice, range => place(&s[range])),
                    "wstr_index" => ranged!(at end choice, range => place(&s.as_wstr()[range])),
                    "index_mut" => ranged!(at end choice, range => fill(&mut s[range])),
                    "wstr_index_mut" => ranged!(at end choice, range => fill(&mut s.as_mut_wstr()[range])),
                    "push" => show(text.chars().for_each(|c| s.push(c))),
                    "push_wstr" => show(s.push_wstr(&other)),
                    "insert" => show(text.chars().next().map(|c| s.insert(at, c))),
                    "insert_wstr" => show(s.insert_wstr(at, &other)),
                    "remove" => show(s.remove(at)),
                    "pop" => show(s.pop()),
                    "truncate" => show(s.truncate(at)),
                    "split_off" => show(s.split_off(at)),
                    "retain" => {
                        s.retain(|c| { seen.push(c); choice >> (seen.len() % 32) & 1 == 1 });
                        show(seen)
                    }
                    "clear" => show(s.clear()),
                    "capacity" => show(match choice % 3 {
                        0 => (s.reserve(at), s.capacity() - s.len() >= at),
                        1 => (s.shrink_to_fit(), s.capacity() >= s.len()),
                        _ => ((), WString::with_capacity(at).capacity() >= at),
                    }),
                    "chars" => iterate(s.chars(), choice),
                    "char_indices" => iterate(s.char_indices(), choice),
                    "is_char_boundary" => show(s.is_char_boundary(at)),
                    "eq" => show((*s == other, s.as_wstr() == other.as_wstr(), *s == WString::from(&s.to_utf8()))),
                    _ => {
                        let view = s.as_wstr();
                        (s.hash(&mut record), view.hash(&mut record));
                        let is_ascii = view.is_ascii() || view.as_bytes().is_ascii() && !view.to_utf8().is_ascii();
                        let views = (view.to_utf8(), format!("{view} {view:>9.2} {view:#?}"), AsRef::<[u8]>::as_ref(view).to_vec());
                        let lens = (s.len(), view.len(), s.is_empty(), view.is_empty(), size_of::<Option<WString>>());
                        show((record.0, is_ascii, views, lens, s.as_mut_ptr() as usize == start, s))
                    }
                }
            }
            let mut s = WString::from_utf16(bytes).expect("the bytes of the original");
            let said = catch_unwind(AssertUnwindSafe(|| called(&mut s, operation))).unwrap_or_else(|payload| {
                format!("panics: {:?}, {:?}", payload.downcast_ref::<&str>(), payload.downcast_ref::<String>())
            });
            (said, s.into_bytes())
        }
    };
}

library!(original_le original LE from_utf16le from_utf16le_mut from_utf16le_unchecked from_utf16le_unchecked_mut);
library!(original_be original BE from_utf16be from_utf16be_mut from_utf16be_unchecked from_utf16be_unchecked_mut);
library!(ours_le ours LE from_utf16le from_utf16le_mut from_utf16le_unchecked from_utf16le_unchecked_mut);
library!(ours_be ours BE from_utf16be from_utf16be_mut from_utf16be_unchecked from_utf16be_unchecked_mut);

/// Returns an operation on a string with `len` bytes.
fn operation(random: &mut Random, len: usize, big: bool) -> Operation {
    let mut below = |end: usize| random.among(0, end as u32 - 1) as usize;
    let mut range = [0; 2].map(|_| match below(16) {
        0 => usize::MAX - below(2),
        1 | 2 => below(len + 4),
        _ => 2 * below(len / 2 + 1),
    });
    if below(4) > 0 {
        range.sort();
    }
    let call = CALLS.split(' ').nth(below(CALLS.split(' ').count())).expect("a call");
    let (class, most, choice) = (CLASSES[below(5)], [3, 20, 20, 200][below(4)], below(1 << 31) << 32 | below(1 << 31));
    let character = |_| match random.among(0, 7) {
        0 => EDGES.chars().nth(random.among(0, 9) as usize).expect("ten characters"),
        _ => char::from_u32(random.next(class)).unwrap_or('\u{10FFFF}'),
    };
    let text: String = (0..choice / 64 % most).map(character).collect();
    let units = text.encode_utf16();
    let mut bytes: Vec<u8> = units.flat_map(|unit| if big { unit.to_be_bytes() } else { unit.to_le_bytes() }).collect();
    let mut place = || random.among(0, 2 * text.len() as u32) as usize;
    bytes.truncate(place());
    bytes.iter_mut().skip(place()).take(1).for_each(|byte| *byte = 0xD8 + (choice % 8) as u8);
    (call, range, text, bytes, choice)
}

fn main() {
    let count = std::env::args().nth(1).map_or(3_000_000, |count| count.parse().expect("a number of operations"));
    set_hook(Box::new(|_| ()));
    let mut random = Random { state: 1, cyrillic: false };
    let orders = [(false, original_le as Run, ours_le as Run), (true, original_be, ours_be)];
    let mut strings = [const { (Vec::new(), Vec::new()) }; 2];
    for number in 0..count {
        let (big, original, ours) = orders[number % 2];
        let (one, two) = std::mem::take(&mut strings[number % 2]);
        let (before, operation) = (one.clone(), operation(&mut random, one.len(), big));
        let (expected, found) = (original(one, &operation), ours(two, &operation));
        if expected != found {
            println!("{operation:?} of {before:?}, big endian: {big}\noriginal: {expected:?}\nours: {found:?}");
            println!("{number} passed, 1 failed");
            std::process::exit(1);
        }
        if found.1.len() < 4000 {
            strings[number % 2] = (expected.1, found.1);
        }
    }
    println!("{count} passed, 0 failed");
}
