//! The proved source as Rust, whose indices and sums a debug build tests. For random input it
//! returns what the C library returns, laws hold, and a string has the text of a `String`.

#![cfg(not(dethrux_pure))]

extern crate alloc;

use std::collections::BTreeSet;
use std::mem::size_of;

use dethrux::ByteOrder::{self, BigEndian, LittleEndian};
use ffi::State;
use random::Random;

#[macro_use]
#[path = "../src/ffi.rs"]
#[allow(unused)]
mod ffi;
#[clippy::msrv = "1.81"]
#[path = "../src/proved.rs"]
mod proved;
#[path = "../src/pure.rs"]
#[allow(unused)]
mod pure;
mod random;

/// How often each test takes random input.
const ROUNDS: usize = 3000;

/// What a call returns, as numbers.
trait Numbers {
    fn numbers(&self) -> Vec<u64>;
}
macro_rules! numbers {
    ($($Type:ty: $($field:ident)*;)*) => { $(
        impl Numbers for $Type {
            fn numbers(&self) -> Vec<u64> {
                vec![$(self.$field as u64),*]
            }
        }
    )* };
}
numbers! {
    ffi::Progress: read written status error_len; pure::Progress: read written status error_len;
    ffi::Validity: valid_up_to status error_len; pure::Validity: valid_up_to status error_len;
    ffi::Inspection: valid_up_to chars repertoire status error_len;
    pure::Inspection: valid_up_to chars repertoire status error_len;
    ffi::Bom: len byte_order status; pure::Bom: len byte_order status;
}
macro_rules! number {
    ($($Type:ty)*) => { $(
        impl Numbers for $Type {
            fn numbers(&self) -> Vec<u64> {
                vec![*self as u64]
            }
        }
    )* };
}
number! { bool i32 u32 u64 usize }

/// Compares what calls return in C and in Rust.
macro_rules! compare {
    ($input:expr; $($name:ident)*, $arguments:tt) => { $(
        // SAFETY: the pointers and lengths are those of slices.
        let (c, rust) = unsafe { (ffi::$name $arguments, pure::$name $arguments) };
        let name = stringify!($name);
        assert_eq!(c.numbers(), rust.numbers(), "{name}: {:X?}", $input);
        COMPARED.with(|it| it.borrow_mut().insert(name));
    )* };
}

thread_local! {
    static COMPARED: std::cell::RefCell<BTreeSet<&'static str>> = Default::default();
}

macro_rules! calls {
    (
        conversions { $($name:ident($from:ident: $From:ty) -> $to:ident: $To:ty = $call:ident;)* }
        others { $($other:ident($($parameters:tt)*) $(-> $Result:ty)? = $proved:expr;)* }
    ) => {
        const OTHERS: &[&str] = &[$(stringify!($other)),*];

        /// Each conversion, to a buffer of any length. All of it is compared, since what follows
        /// the text has no meaning, but is the same.
        #[test]
        fn conversions_are_those_of_c() {
            let mut random = Random::new(1);
            for _ in 0..ROUNDS {
                $(
                    let order = random.order();
                    let kind = stringify!($from);
                    let from: Vec<$From> = random::Element::input(&mut random, kind, order);
                    let room = random.below(from.len() * 4 + 8);
                    let mut c: Vec<$To> = vec![0xAA; room];
                    let mut rust = c.clone();
                    let (from_c, len) = (from.as_ptr(), from.len());
                    // SAFETY: the pointers and lengths are those of slices.
                    let (first, second) = unsafe {(
                        ffi::$name(order, from_c, len, c.as_mut_ptr(), room),
                        pure::$name(order, from_c, len, rust.as_mut_ptr(), room),
                    )};
                    let name = stringify!($name);
                    assert_eq!(first.numbers(), second.numbers(), "{name}: {from:X?}");
                    assert_eq!(c, rust, "{name}: {from:X?}");
                )*
            }
        }
    };
}

include!("../src/calls.rs");

#[test]
fn other_calls_are_those_of_c() {
    let mut random = Random::new(2);
    for _ in 0..ROUNDS {
        questions(&mut random);
        offsets(&mut random);
        searches(&mut random);
        changes(&mut random);
        streams(&mut random);
    }
    let mut compared = COMPARED.with(|it| it.take());
    // The code that runs has another name.
    compared.insert("kernel");
    assert_eq!(compared, OTHERS.iter().copied().collect());
}

fn questions(random: &mut Random) {
    let order = random.order();
    let utf16 = random.utf16(order);
    let (from, len) = (utf16.as_ptr(), utf16.len());
    compare!(utf16; validate count_chars is_ascii to_utf8_lossy_len to_utf8_replacements inspect
        to_utf32_lossy_len to_wtf8_len detect_bom, (order, from, len));
    let utf8 = random.utf8();
    let (from, len) = (utf8.as_ptr(), utf8.len());
    compare!(utf8; from_utf8_len from_utf8_lossy_len from_utf8_replacements from_wtf8_len
        nul_offset, (from, len));
    let utf32 = random.utf32();
    compare!(utf32; validate_utf32 from_utf32_lossy_len, (utf32.as_ptr(), utf32.len()));
    compare!((); version, ());
}

fn offsets(random: &mut Random) {
    let order = random.order();
    let utf16 = random.utf16(order);
    let at = random.below(utf16.len() + 3);
    let (from, len) = (utf16.as_ptr(), utf16.len());
    compare!(utf16; is_char_boundary floor_char_boundary, (order, from, len, at));
    let around = &utf16[..utf16.len().min(random.below(6))];
    let at = random.below(12) as u64;
    compare!(around; floor_char_boundary_around, (order, around.as_ptr(), around.len(), at));
    let [len, count, index] = [(); 3].map(|()| random.next() >> random.below(64));
    compare!((len, count, index); shard_offset, (len, count, index));
}

fn searches(random: &mut Random) {
    let order = random.order();
    let utf16 = random.utf16(order);
    let start = random.below(utf16.len() + 1);
    let end = (start + random.below(12)).min(utf16.len());
    let mut pattern = utf16[start..end].to_vec();
    if random.below(3) == 0 {
        random.damage(&mut pattern);
    }
    let (from, len) = (utf16.as_ptr(), utf16.len());
    compare!((&utf16, &pattern); find rfind, (order, from, len, pattern.as_ptr(), pattern.len()));
    let (mut other, order2) = (utf16.clone(), random.order());
    random.damage(&mut other);
    compare!((&utf16, &other); compare, (order, from, len, order2, other.as_ptr(), other.len()));
}

fn changes(random: &mut Random) {
    let order = random.order();
    let utf16 = random.utf16(order);
    let (mut c, mut rust) = (utf16.clone(), utf16.clone());
    // SAFETY: the pointers and lengths are those of slices.
    let made = unsafe {
        let first = ffi::make_well_formed(order, c.as_mut_ptr(), c.len());
        (first, pure::make_well_formed(order, rust.as_mut_ptr(), rust.len()))
    };
    assert_eq!((made.0, &c), (made.1, &rust), "make_well_formed: {utf16:X?}");
    // SAFETY: the same.
    unsafe {
        ffi::swap_byte_order(c.as_mut_ptr(), c.len());
        pure::swap_byte_order(rust.as_mut_ptr(), rust.len());
    }
    assert_eq!(c, rust, "swap_byte_order: {utf16:X?}");
    COMPARED.with(|it| it.borrow_mut().extend(["make_well_formed", "swap_byte_order"]));
}

/// The bytes of a stream's state.
fn bytes<const N: usize>(state: &State<N>) -> &[u8] {
    // SAFETY: a state is bytes.
    unsafe { std::slice::from_raw_parts((state as *const State<N>).cast(), size_of::<State<N>>()) }
}

/// Feeds a stream in chunks of any length to buffers of any length, and ends it.
macro_rules! stream {
    ($random:ident, $input:expr, $order:ident, $feed:ident, $finish:ident) => {{
        let (random, input, mut at) = (&mut *$random, $input, 0);
        let (mut c, mut rust) = (State::START, State::START);
        if random.below(4) == 0 {
            // SAFETY: any bytes are a state.
            unsafe {
                for at in 0..std::mem::size_of_val(&c) {
                    (&mut c as *mut State<_>).cast::<u8>().add(at).write(random.next() as u8);
                }
            }
            rust = c.clone();
        }
        for _ in 0..60 {
            let most = [8, 300][random.below(2)];
            let chunk = &input[at..(at + random.below(most)).min(input.len())];
            let (from, len) = (chunk.as_ptr(), chunk.len());
            let most = [10, 1500][random.below(2)];
            let mut to = (vec![0xAA_u8; random.below(most)], vec![]);
            to.1 = to.0.clone();
            let room = to.0.len();
            // SAFETY: the pointers and lengths are those of slices.
            let (first, second) = unsafe {
                (
                    ffi::$feed(&mut c, $order, from, len, to.0.as_mut_ptr(), room),
                    pure::$feed(&mut rust, $order, from, len, to.1.as_mut_ptr(), room),
                )
            };
            let name = stringify!($feed);
            assert_eq!(first.numbers(), second.numbers(), "{name}: {input:X?}");
            assert_eq!((bytes(&c), to.0), (bytes(&rust), to.1), "{name}: {input:X?}");
            at += first.read + usize::from(first.status == 1 && first.read < len);
        }
        let mut to = ([0xAA; 8], [0xAA; 8]);
        let room = random.below(9);
        // SAFETY: the same.
        let (first, second) = unsafe {
            (
                ffi::$finish(&mut c, $order, to.0.as_mut_ptr(), room),
                pure::$finish(&mut rust, $order, to.1.as_mut_ptr(), room),
            )
        };
        assert_eq!(first.numbers(), second.numbers(), "{}: {input:X?}", stringify!($finish));
        assert_eq!((bytes(&c), to.0), (bytes(&rust), to.1), "{}", stringify!($finish));
        COMPARED.with(|it| it.borrow_mut().extend([stringify!($feed), stringify!($finish)]));
    }};
}

fn streams(random: &mut Random) {
    let order = random.order();
    let utf16 = random.utf16(order);
    stream!(random, &utf16, order, decoder_feed, decoder_finish);
    stream!(random, &utf16, order, wtf8_decoder_feed, wtf8_decoder_finish);
    let utf8 = random.utf8();
    stream!(random, &utf8, order, encoder_feed, encoder_finish);
    stream!(random, &utf8, order, wtf8_encoder_feed, wtf8_encoder_finish);
}

/// A call of the source that converts.
type Convert = fn(u32, &[u8], &mut [u8]) -> pure::Progress;

/// Returns all that a call writes, and how it ended.
fn converted(convert: Convert, order: ByteOrder, from: &[u8]) -> (Vec<u8>, pure::Progress) {
    let mut to = vec![0; from.len() * 3];
    let progress = convert(order as u32, from, &mut to);
    to.truncate(progress.written);
    (to, progress)
}

/// The bytes of a text as std has its code units.
fn encoded(order: ByteOrder, text: &str) -> Vec<u8> {
    text.encode_utf16().flat_map(|unit| random::bytes_of(order, unit)).collect()
}

#[test]
fn a_text_comes_back_and_the_orders_differ_by_swapped_bytes() {
    use proved::dethrux::{dethrux_from_utf8, dethrux_to_utf8};
    let mut random = Random::new(3);
    for _ in 0..ROUNDS {
        let text = random.text();
        for order in [LittleEndian, BigEndian] {
            let (utf16, progress) = converted(dethrux_from_utf8, order, text.as_bytes());
            assert_eq!((progress.read, progress.status), (text.len(), 0), "{text:?}");
            assert_eq!(utf16, encoded(order, &text));
            let (utf8, progress) = converted(dethrux_to_utf8, order, &utf16);
            assert_eq!((progress.status, utf8), (0, text.clone().into_bytes()));
        }
        let mut swapped = encoded(LittleEndian, &text);
        proved::dethrux::dethrux_swap_byte_order(&mut swapped);
        assert_eq!(swapped, encoded(BigEndian, &text));
    }
}

/// Resuming after each error gives the characters that std decodes, as one lossy call does.
#[test]
fn resuming_gives_the_text_of_std() {
    use proved::dethrux::{dethrux_to_utf8, dethrux_to_utf8_lossy};
    let mut random = Random::new(4);
    for _ in 0..ROUNDS {
        let order = random.order();
        let units = random.units();
        let utf16: Vec<u8> = units.iter().flat_map(|&it| random::bytes_of(order, it)).collect();
        let decoded = char::decode_utf16(units.iter().copied());
        let wanted: String = decoded.map(|it| it.unwrap_or('\u{FFFD}')).collect();
        let (mut text, mut at) = (Vec::new(), 0);
        while at < utf16.len() {
            let (part, progress) = converted(dethrux_to_utf8, order, &utf16[at..]);
            text.extend(part);
            at += progress.read;
            if progress.status != 0 {
                text.extend("\u{FFFD}".bytes());
                let skipped = [progress.error_len as usize, 2][usize::from(progress.status == 2)];
                assert!(skipped > 0, "{units:X?}");
                at += skipped;
            }
        }
        assert_eq!(text, wanted.as_bytes(), "{units:X?}");
        assert_eq!(converted(dethrux_to_utf8_lossy, order, &utf16).0, text, "{units:X?}");
    }
}

#[test]
fn a_string_has_the_text_of_std() {
    edits::<proved::utf16_units::LE>(LittleEndian);
    edits::<proved::utf16_units::BE>(BigEndian);
}

/// Edits a string and a `String` in the same way.
fn edits<E: proved::utf16_units::Utf16Order>(order: ByteOrder) {
    use proved::kit::Global;
    use proved::utf16string::WString;
    let mut random = Random::new(5);
    let (mut string, mut text) = (WString::<E>::new(Global), String::new());
    for _ in 0..ROUNDS {
        let mut cuts = [random.cut(&text), random.cut(&text)];
        cuts.sort_unstable();
        let [start, end] = cuts.map(|at| encoded(order, &text[..at]).len());
        let (new, c) = (random.text(), random.char());
        match random.below(11) {
            0 => (string.push(c).unwrap(), text.push(c)).0,
            1 => (string.push_str(&new).unwrap(), text.push_str(&new)).0,
            2 => (string.insert(start, c).unwrap(), text.insert(cuts[0], c)).0,
            3 => (string.insert_str(end, &new).unwrap(), text.insert_str(cuts[1], &new)).0,
            4 => assert_eq!(string.pop(), text.pop()),
            5 if cuts[0] < text.len() => assert_eq!(string.remove(start), text.remove(cuts[0])),
            6 => (string.truncate(end), text.truncate(cuts[1])).0,
            7 => {
                let back = string.split_off(start).unwrap();
                assert_eq!(back.as_bytes(), encoded(order, &text.split_off(cuts[0])));
            }
            8 => {
                (
                    string.retain(|it| it != c && it < '\u{10000}'),
                    text.retain(|it| it != c && it < '\u{10000}'),
                )
                    .0
            }
            9 => {
                let part = string.drain(start..end).unwrap();
                let drained: String = text.drain(cuts[0]..cuts[1]).collect();
                assert_eq!(part.as_bytes(), encoded(order, &drained));
            }
            _ => {
                let part = WString::<E>::from_str(Global, &new).unwrap();
                string.replace_range(start..end, part.as_wstr()).unwrap();
                text.replace_range(cuts[0]..cuts[1], &new);
            }
        }
        assert_eq!(string.as_bytes(), encoded(order, &text));
        assert_eq!(&*string.to_utf8(Global).unwrap(), text);
        assert!(string.chars().eq(text.chars()) && string.chars().rev().eq(text.chars().rev()));
        let other = WString::<E>::from_str(Global, &new).unwrap();
        assert_eq!(string.cmp(&other), text.cmp(&new), "{text:?} {new:?}");
        if text.len() > 3000 {
            (string.clear(), text.clear()).0
        }
    }
}
