//! Makes the calls that the tables of `cases/` name. Prints each case whose result differs, with
//! both results, and finally how many passed. Cases of other calls, and cases with a condition on
//! memory or devices, are not run. `cases/to_json.py` reads the tables, so this needs Python.
//!
//! The conversions are those of `src/calls.rs`, which follows from the header. Each is also made in
//! the other ways that the crate has: into memory that is not initialized, with a result that the
//! call owns, on code units, and in chunks of each length.

use dethrux::io::{Checked, Reader, Transcoder, Writer};
use dethrux::ByteOrder::{BigEndian, LittleEndian};
use dethrux::*;
use std::cell::RefCell;
use std::collections::BTreeSet;
use std::io::{Chain, Read, Write};
use std::mem::{size_of, MaybeUninit};
use std::panic::catch_unwind;
use std::process::{Command, Stdio};
use std::rc::Rc;
use std::str::{self, Utf8Error};

/// Up to this many bytes of output, a conversion is made with each capacity.
const SHORT: usize = 12;

/// Where a stream is cut: anywhere if it is short, else at some places.
fn cuts(raw: &[u8]) -> impl Iterator<Item = usize> {
    (1..=raw.len()).step_by(raw.len() / SHORT + 1)
}

/// The words of a result, or `None` if the values are not those of the call.
type Found = Option<String>;

/// Bytes, which the tables spell in hex.
type Raw = Vec<u8>;

/// A value of a call, as a word spells it.
trait Value: Sized {
    fn of(word: &str) -> Option<Self>;
}

impl Value for Raw {
    fn of(word: &str) -> Option<Self> {
        let digits = if word == "-" { "" } else { word };
        (0..digits.len())
            .step_by(2)
            .map(|at| u8::from_str_radix(digits.get(at..at + 2)?, 16).ok())
            .collect()
    }
}

/// Chunks, of which there are none without a word.
impl Value for Vec<Raw> {
    fn of(word: &str) -> Option<Self> {
        let words = word.split(',').filter(|_| !word.is_empty());
        words.map(Raw::of).collect()
    }
}

impl Value for usize {
    fn of(word: &str) -> Option<Self> {
        match word {
            "max" => Some(usize::MAX),
            _ => word.parse().ok(),
        }
    }
}

macro_rules! parsed {
    ($($Type:ty)*) => {$(
        impl Value for $Type {
            fn of(word: &str) -> Option<Self> {
                word.parse().ok()
            }
        }
    )*};
}

parsed!(u64 String);

fn hex(bytes: &[u8]) -> String {
    match bytes {
        [] => "-".to_string(),
        _ => bytes.iter().map(|byte| format!("{byte:02X}")).collect(),
    }
}

fn text(utf8: &[u8]) -> String {
    format!("utf8:{}", hex(utf8))
}

fn or_none(found: Option<usize>) -> String {
    found.map_or("none".to_string(), |number| number.to_string())
}

type Call = fn(ByteOrder, &[&str]) -> Found;

/// Makes a table of calls, by their names in the cases and the types of their values.
macro_rules! table {
    ($($($name:literal)|+: |$order:tt $(, $value:ident: $Type:ty)*| $found:expr;)*) => {
        &[$((&[$($name),+], |$order: ByteOrder, values: &[&str]| {
            let mut words = values.iter();
            $(let $value = <$Type>::of(words.next().unwrap_or(&""))?;)*
            words.next().is_none().then(|| $found.to_string())
        })),*]
    };
}

#[rustfmt::skip]
const CALLS: &[(&[&str], Call)] = table! {
    "every_room": |order, name: String, raw: Raw| every_room(&name, order, &raw);
    "count_chars": |order, utf16: Raw| count_chars(order, &utf16);
    "is_ascii" | "WStr::is_ascii": |order, utf16: Raw| is_ascii(order, &utf16);
    "to_utf8_lossy_len": |order, utf16: Raw| to_utf8_lossy_len(order, &utf16);
    "to_utf8_replacements": |order, utf16: Raw| to_utf8_replacements(order, &utf16);
    "to_utf32_lossy_len": |order, utf16: Raw| to_utf32_lossy_len(order, &utf16);
    "to_wtf8_len": |order, utf16: Raw| to_wtf8_len(order, &utf16);
    "from_utf8_len": |_, utf8: Raw| from_utf8_len(&utf8);
    "from_utf8_lossy_len": |_, utf8: Raw| from_utf8_lossy_len(&utf8);
    "from_utf8_replacements": |_, utf8: Raw| from_utf8_replacements(&utf8);
    "from_utf32_lossy_len": |_, utf32: Raw| from_utf32_lossy_len(&u32::units(&utf32));
    "from_wtf8_len": |_, wtf8: Raw| from_wtf8_len(&wtf8);
    "validate_raw_utf16": |order, utf16: Raw| validity(order, &utf16, "done");
    "WStr::from_utf16": |order, utf16: Raw| validity(order, &utf16, &hex(&utf16));
    "validate_utf32": |_, utf32: Raw| utf32_validity(&u32::units(&utf32));
    "WStr::to_utf8": |order, utf16: Raw| text(decode(order, &utf16).unwrap().as_bytes());
    "WString::from_str": |order, utf8: Raw| hex(&encode(order, str::from_utf8(&utf8).unwrap()));
    "WStrChars::count": |order, utf16: Raw, ends: String| count_the_rest(order, &utf16, &ends);
    "swap_byte_order": |_, utf16: Raw| swapped(utf16);
    "make_well_formed": |order, utf16: Raw| well_formed(order, utf16);
    "compare" | "bytes::compare" | "WStr::cmp" | "WString::cmp": |order, first: Raw, second: Raw| {
        format!("{:?}", compare(order, &first, order, &second)).to_lowercase()
    };
    "search::find": |order, utf16: Raw, pattern: Raw| or_none(find(order, &utf16, &pattern));
    "search::rfind": |order, utf16: Raw, pattern: Raw| or_none(rfind(order, &utf16, &pattern));
    "nul_offset": |_, utf16: Raw| nul_offset(&utf16);
    "bytes::is_char_boundary" | "WStr::is_char_boundary" | "WString::is_char_boundary":
        |order, utf16: Raw, at: usize| is_char_boundary(order, &utf16, at);
    "bytes::floor_char_boundary": |order, utf16: Raw, at: usize| {
        floor_char_boundary(order, &utf16, at)
    };
    "bytes::floor_char_boundary_around": |order, around: Raw, at: u64| {
        floor_char_boundary_around(order, &around, at)
    };
    "shard_offset": |_, len: u64, count: u64, index: u64| shard_offset(len, count, index);
    "inspect": |order, utf16: Raw| inspected(order, &utf16);
    "every_chunking": |order, utf16: Raw| every_chunking(order, &utf16);
    "AnyLossy::every_chunking": |_, stream: Raw| {
        let found = detect_bom(&stream, BigEndian);
        let (len, order) = found.map_or((0, BigEndian), |bom| (bom.len, bom.byte_order));
        every_chunking(order, &stream[len..])
    };
    "Lossy::feed": |order, pieces: Vec<Raw>| lossy_feed(order, pieces);
    "decode_pieces": |order, pieces: Vec<Raw>| {
        text(decoded(order, pieces.iter().map(Vec::as_slice)).as_bytes())
    };
    "Stream::feed": |order, pieces: Vec<Raw>, room: usize| fed::<Decoder>(order, pieces, room);
    "feed_utf8": |order, pieces: Vec<Raw>, room: usize| fed::<Encoder>(order, pieces, room);
    "feed_wtf8": |order, pieces: Vec<Raw>, room: usize| fed::<Wtf8Decoder>(order, pieces, room);
    "Wtf8Stream::feed": |order, pieces: Vec<Raw>, room: usize| {
        fed::<Wtf8Encoder>(order, pieces, room)
    };
};

/// A code unit of a conversion, which the tables spell by its bytes in big endian.
trait Unit: Copy + PartialEq {
    /// A unit that no call may write.
    const UNTOUCHED: Self;

    fn units(raw: &[u8]) -> Vec<Self>;
    fn raw(units: &[Self]) -> Raw;
}

macro_rules! units {
    ($($Unit:ident)*) => {$(
        impl Unit for $Unit {
            const UNTOUCHED: Self = Self::MAX / 3 * 2;

            fn units(raw: &[u8]) -> Vec<Self> {
                let units = raw.chunks_exact(size_of::<Self>());
                units.map(|unit| Self::from_be_bytes(unit.try_into().unwrap())).collect()
            }

            fn raw(units: &[Self]) -> Raw {
                units.iter().flat_map(|unit| unit.to_be_bytes()).collect()
            }
        }
    )*};
}

units!(u8 u32);

/// How far a conversion came, and what it wrote.
type Converted = (Progress, Raw);

/// A conversion: its name, what it reads and writes, and how it is made with a capacity.
struct Conversion {
    name: &'static str,
    reads: &'static str,
    writes: &'static str,
    make: fn(ByteOrder, &[u8], usize) -> Converted,
}

macro_rules! calls {
    (
        conversions { $($name:ident($from:ident: $From:ty) -> $to:ident: $To:ty = $call:ident;)* }
        others $others:tt
    ) => {
        const CONVERSIONS: &[Conversion] = &[$(Conversion {
            name: stringify!($name),
            reads: stringify!($from),
            writes: stringify!($to),
            make: |order, raw, room| converted::<$From, $To>($name, $name, order, raw, room),
        }),*];
    };
}

include!("../src/calls.rs");

/// Converts to the first units of a buffer, and to memory that is not initialized.
fn converted<F: Unit, T: Unit>(
    convert: fn(ByteOrder, &[F], &mut [T]) -> Progress,
    convert_to_any: fn(ByteOrder, &[F], &mut [MaybeUninit<T>]) -> Progress,
    order: ByteOrder,
    raw: &[u8],
    room: usize,
) -> Converted {
    let (from, mut to) = (F::units(raw), vec![T::UNTOUCHED; room + 4]);
    let progress = convert(order, &from, &mut to[..room]);
    assert!(to[room..] == [T::UNTOUCHED; 4], "it writes after its buffer");
    to.truncate(progress.written);

    let mut any = Vec::with_capacity(room);
    let found = convert_to_any(order, &from, &mut any.spare_capacity_mut()[..room]);
    // SAFETY: the call initialized this many units.
    unsafe { any.set_len(found.written) };
    assert!((found, &any) == (progress, &to), "memory that is not initialized");
    (progress, T::raw(&to))
}

impl Conversion {
    fn of(name: &str) -> Option<&'static Self> {
        CONVERSIONS.iter().find(|it| it.name == name)
    }

    /// What the call for the length returns.
    fn size(&self, order: ByteOrder, raw: &[u8]) -> usize {
        match (self.reads, self.writes) {
            ("utf16", "utf8") => to_utf8_lossy_len(order, raw),
            ("utf16", "utf32") => to_utf32_lossy_len(order, raw),
            ("utf16", "wtf8") => to_wtf8_len(order, raw),
            ("utf8", _) => from_utf8_lossy_len(raw),
            ("utf32", _) => from_utf32_lossy_len(&u32::units(raw)),
            ("wtf8", _) => from_wtf8_len(raw),
            _ => panic!("there is no call for the length"),
        }
    }

    fn spelled(&self, output: &[u8]) -> String {
        match self.writes {
            "utf8" => text(output),
            _ => hex(output),
        }
    }

    /// Makes the conversion, and tests what else the crate has for it.
    fn tested(&self, order: ByteOrder, raw: &[u8], room: usize) -> Converted {
        let (progress, output) = (self.make)(order, raw, room);
        let whole = match progress.status {
            Status::NoSpace | Status::NotLatin1 => return (progress, output),
            Status::Done => Ok(output.clone()),
            Status::IllFormed(len) => Err(Place(progress.read, Some(len))),
            _ => Err(Place(progress.read, None)),
        };
        let is_native = order == ByteOrder::NATIVE && (self.reads != "utf16" || raw.len() % 2 == 0);
        let mut calls: Vec<&Other> = OTHERS.iter().collect();
        calls.extend(STREAMS.iter().filter(|_| whole.is_ok()));
        calls.extend(ON_UNITS.iter().filter(|_| is_native));
        calls.retain(|it| it.0 == self.name);
        for (number, (name, call)) in calls.into_iter().enumerate() {
            assert_eq!(call(order, raw), whole, "call {number} for {name}");
        }
        if output.len() <= SHORT {
            self.resumed(order, raw, &output);
        }
        (progress, output)
    }

    /// Makes the conversion with each smaller capacity, and again for the rest.
    fn resumed(&self, order: ByteOrder, raw: &[u8], output: &[u8]) {
        let (input_size, size) = (self.reads == "utf32", self.writes == "utf32");
        let [input_size, size] = [input_size, size].map(|it| if it { 4 } else { 1 });
        for room in 0..output.len() / size {
            let (first, mut parts) = (self.make)(order, raw, room);
            assert_eq!(first.status, Status::NoSpace);
            assert!(room - first.written < 4 / size);
            let rest = &raw[first.read * input_size..];
            parts.extend((self.make)(order, rest, output.len()).1);
            assert_eq!(parts, output, "a capacity of {room}");
        }
    }

    /// Makes the conversion of a case.
    fn case(&self, order: ByteOrder, values: &[&str]) -> Found {
        let (raw, room) = match *values {
            [raw, room] => (Raw::of(raw)?, room),
            _ => return None,
        };
        let room = match room {
            "size" => self.size(order, &raw),
            _ => usize::of(room)?,
        };
        let (progress, output) = self.tested(order, &raw, room);
        Some(format!("{} {}", came(progress), self.spelled(&output)))
    }
}

/// How far a call came.
fn came(found: Progress) -> String {
    let status = match found.status {
        Status::Done => "end".to_string(),
        Status::Incomplete => "incomplete".to_string(),
        Status::NoSpace => "no_space".to_string(),
        Status::NotLatin1 => "not_latin1".to_string(),
        Status::IllFormed(len) => format!("ill_formed {len}"),
        _ => format!("{:?}", found.status),
    };
    format!("{} {} {status}", found.read, found.written)
}

/// Where an error is, and its length.
#[derive(Clone, Copy, Debug, PartialEq)]
struct Place(usize, Option<usize>);

macro_rules! places {
    ($($Error:ty: |$error:ident| $len:expr, $unit:literal;)*) => {$(
        impl From<$Error> for Place {
            fn from($error: $Error) -> Self {
                Place($unit * $error.valid_up_to(), $len)
            }
        }
    )*};
}

places! {
    Utf16Error: |error| error.error_len(), 1;
    UnitsError: |error| error.error_len().map(|len| 2 * len), 2;
    Utf32Error: |error| Some(1), 1;
    Wtf8Error: |error| error.error_len(), 1;
    Utf8Error: |error| error.error_len(), 1;
    dethrux::Utf8Error: |error| error.error_len(), 1;
}

/// What a call for a whole input returns.
type Whole = Result<Raw, Place>;

/// The name of a conversion, and a call that does the same for a whole input.
type Other = (&'static str, fn(ByteOrder, &[u8]) -> Whole);

/// Calls that do what a conversion does.
#[rustfmt::skip]
const OTHERS: &[Other] = &[
    ("to_utf8", |order, utf16| Ok(decode(order, utf16)?.into_bytes())),
    ("to_utf8", |order, utf16| {
        validate(order, utf16)?;
        Ok(decode_lossy(order, utf16).into_bytes())
    }),
    ("to_utf8", appended),
    ("to_utf8", |order, utf16| {
        let (text, end) = read(utf16, |parts| Reader::strict(parts, order));
        let len = end.map_or_else(|Place(at, _)| at, |()| utf16.len());
        assert_eq!(text, decode(order, &utf16[..len])?.into_bytes());
        end.map(|()| text)
    }),
    ("to_utf8", |order, utf16| {
        let (marked, default) = marked(order, utf16);
        let (text, end) = read(&marked, |parts| Reader::strict_with_bom(parts, default).unwrap());
        end.map(|()| text).map_err(|Place(at, len)| Place(at - 2, len))
    }),
    ("to_utf8_lossy", |order, utf16| Ok(decode_lossy(order, utf16).into_bytes())),
    ("to_utf8_lossy", |order, utf16| Ok(display(order, utf16).to_string().into_bytes())),
    ("to_utf8_lossy", |order, utf16| Ok(by_chunks(order, utf16))),
    ("to_utf8_lossy", |order, utf16| Ok(decoded(order, utf16.chunks(3)).into_bytes())),
    ("to_utf8_lossy", |order, utf16| {
        Ok(read(utf16, |parts| Reader::new(parts, Decoder::new(order))).0)
    }),
    ("to_utf8_lossy", |order, utf16| {
        let (marked, default) = marked(order, utf16);
        Ok(read(&marked, |parts| Reader::with_bom(parts, default).unwrap()).0)
    }),
    ("to_utf8_lossy", |order, utf16| Ok(written(utf16, Decoder::new(order)))),
    ("to_utf8_lossy", |order, utf16| Ok(resumed(order, utf16))),
    ("to_utf8_lossy", |order, utf16| {
        Ok(reported(utf16, |it| Ok(validate(order, it)?), |report| Checked::decoder(order, report)))
    }),
    ("to_utf8", |order, utf16| {
        written_strictly(utf16, || Checked::decoder(order, |_, _| false))
    }),
    ("from_utf8", |order, utf8| Ok(encode(order, str::from_utf8(utf8)?))),
    ("from_utf8", |order, utf8| {
        let mut utf16 = b"a".to_vec();
        encode_to(order, str::from_utf8(utf8)?, &mut utf16);
        Ok(utf16.split_off(1))
    }),
    ("from_utf8_lossy", |order, utf8| Ok(encode_lossy(order, utf8))),
    ("from_utf8_lossy", |order, utf8| {
        let (mut encoder, mut utf16) = (Encoder::new(order), Vec::new());
        utf8.chunks(3).for_each(|chunk| encoder.encode(chunk, &mut utf16));
        utf16.extend(encoder.finish().into_iter().flatten());
        Ok(utf16)
    }),
    ("from_utf8_lossy", |order, utf8| {
        Ok(read(utf8, |parts| Reader::new(parts, Encoder::new(order))).0)
    }),
    ("from_utf8_lossy", |order, utf8| Ok(written(utf8, Encoder::new(order)))),
    ("from_utf8_lossy", |order, utf8| {
        let test = |it: &[u8]| Ok(str::from_utf8(it).map(drop)?);
        Ok(reported(utf8, test, |report| Checked::encoder(order, report)))
    }),
    ("from_utf8", |order, utf8| {
        let encoder = || Checked::encoder(order, |_, _| false);
        let (utf16, end) = read(utf8, |parts| Reader::new(parts, encoder()));
        end.map(|()| utf16)
    }),
    ("from_utf8", |order, utf8| {
        written_strictly(utf8, || Checked::encoder(order, |_, _| false))
    }),
    ("to_utf32", |order, utf16| Ok(u32::raw(chars_as_utf32(&decode_to_chars(order, utf16)?)))),
    ("to_utf32_lossy", |order, utf16| {
        Ok(u32::raw(chars_as_utf32(&decode_to_chars_lossy(order, utf16))))
    }),
    ("from_utf32", |order, utf32| Ok(encode_from_utf32(order, &u32::units(utf32))?)),
    ("from_utf32", |order, utf32| {
        Ok(encode(order, &utf32_as_chars(&u32::units(utf32))?.iter().collect::<String>()))
    }),
    ("from_latin1", |order, latin1| Ok(encode_from_latin1(order, latin1))),
    ("to_wtf8", |order, utf16| Ok(decode_to_wtf8(order, utf16)?)),
    ("from_wtf8", |order, wtf8| Ok(encode_from_wtf8(order, wtf8)?)),
];

/// Streams that do what a conversion does, if all of the input is converted.
#[rustfmt::skip]
const STREAMS: &[Other] = &[
    ("to_utf8_lossy", streamed::<Decoder>),
    ("from_utf8_lossy", streamed::<Encoder>),
    ("to_wtf8", streamed::<Wtf8Decoder>),
    ("to_wtf8", |order, utf16| {
        let (mut decoder, mut wtf8, mut end) = (Wtf8Decoder::new(order), Vec::new(), [0; 3]);
        utf16.chunks(3).for_each(|chunk| decoder.decode(chunk, &mut wtf8));
        let written = decoder.finish(&mut end).written;
        wtf8.extend(&end[..written]);
        Ok(wtf8)
    }),
    ("from_wtf8", streamed::<Wtf8Encoder>),
    ("from_wtf8", |order, wtf8| {
        let (mut encoder, mut utf16, mut end) = (Wtf8Encoder::new(order), Vec::new(), [0; 2]);
        for chunk in wtf8.chunks(3) {
            assert_eq!(encoder.encode(chunk, &mut utf16).read, chunk.len());
        }
        let written = encoder.finish(&mut end).written;
        utf16.extend(&end[..written]);
        Ok(utf16)
    }),
];

/// Calls on code units that do what a conversion does in the byte order of the machine.
#[rustfmt::skip]
const ON_UNITS: &[Other] = &[
    ("to_utf8", |_, utf16| Ok(decode_units(&units(utf16))?.into_bytes())),
    ("to_utf8", |_, utf16| {
        validate_units(&units(utf16))?;
        Ok(decode_lossy(ByteOrder::NATIVE, utf16).into_bytes())
    }),
    ("from_utf8", |_, utf8| Ok(units_as_bytes(&encode_units(str::from_utf8(utf8)?)).to_vec())),
    ("to_wtf8", |_, utf16| Ok(units_to_wtf8(&units(utf16)))),
    ("to_wtf8", |_, utf16| {
        Ok(units_to_wtf8(&units_from_os_str(&os_string_from_units(&units(utf16)))?))
    }),
    ("from_wtf8", |_, wtf8| Ok(units_as_bytes(&units_from_wtf8(wtf8)?).to_vec())),
];

/// What `decode_to` appends, which is nothing if there is an error.
fn appended(order: ByteOrder, utf16: &[u8]) -> Whole {
    let mut text = String::from("é");
    let found = decode_to(order, utf16, &mut text);
    assert!(found.is_ok() || text == "é");
    found?;
    Ok(text["é".len()..].into())
}

/// UTF-16 after the byte order mark, and the other byte order.
fn marked(order: ByteOrder, utf16: &[u8]) -> (Raw, ByteOrder) {
    let (mark, other) = match order {
        LittleEndian => (b"\xFF\xFE", BigEndian),
        BigEndian => (b"\xFE\xFF", LittleEndian),
    };
    ([mark, utf16].concat(), other)
}

/// What a reader of a stream in two parts returns, and its error, which comes again. They are the
/// same wherever the stream is cut and however long the buffer is.
fn read<'a, R: Read>(
    raw: &'a [u8],
    start: impl Fn(Chain<&'a [u8], &'a [u8]>) -> R,
) -> (Raw, Result<(), Place>) {
    let read = |at: usize| {
        let (mut output, mut buffer) = (Vec::new(), vec![0; at % 9 + 1]);
        let mut reader = start(raw[..at].chain(&raw[at..]));
        loop {
            match reader.read(&mut buffer).map_err(|error| place(&error)) {
                Ok(0) => return (output, Ok(())),
                Ok(read) => output.extend(&buffer[..read]),
                Err(error) => {
                    let again = reader.read(&mut buffer).unwrap_err();
                    assert_eq!(place(&again), error);
                    return (output, Err(error));
                }
            }
        }
    };
    let (output, end) = read(0);
    for at in cuts(raw) {
        assert_eq!(read(at), (output.clone(), end), "cut at {at}");
    }
    (output, end)
}

/// Where the error of a strict adapter is.
fn place(error: &std::io::Error) -> Place {
    let inner = error.get_ref().expect("an error about the text");
    match inner.downcast_ref::<Utf16Error>() {
        Some(error) => Place::from(*error),
        None => Place::from(*inner.downcast_ref::<dethrux::Utf8Error>().unwrap()),
    }
}

/// The text of a strict reader that goes on after each error, with U+FFFD for each, wherever the
/// stream is cut and however long the buffers are.
fn resumed(order: ByteOrder, utf16: &[u8]) -> Raw {
    let resumed = |at: usize| {
        let parts = utf16[..at].chain(&utf16[at..]);
        let decoder = Checked::decoder(order, |_, _| false);
        let mut reader = Reader::with_capacity(at % 11, parts, decoder);
        let (mut text, mut buffer) = (Vec::new(), vec![0; at % 9 + 1]);
        loop {
            match reader.read(&mut buffer).map_err(|error| place(&error)) {
                Ok(0) => break,
                Ok(read) => text.extend(&buffer[..read]),
                Err(Place(offset, len)) => {
                    assert_eq!(reader.position(), offset as u64);
                    let skipped = reader.skip_error();
                    assert_eq!(skipped, len.unwrap_or(utf16.len() - offset));
                    text.extend("\u{FFFD}".bytes());
                }
            }
            assert!(buffer.len() < 4 || reader.skip_error() == 0);
        }
        assert_eq!((reader.position(), reader.skip_error()), (utf16.len() as u64, 0));
        text
    };
    let text = resumed(0);
    cuts(utf16).for_each(|at| assert_eq!(resumed(at), text, "cut at {at}"));
    text
}

/// What a function is called with.
type Report = Rc<RefCell<Vec<(u64, usize)>>>;

/// The output of a reader and of a writer that call a function for what they replace, wherever the
/// stream is cut. The test of the input says what the function is called with.
fn reported<T: Transcoder>(
    raw: &[u8],
    test: impl Fn(&[u8]) -> Result<(), Place>,
    start: impl Fn(Box<dyn FnMut(u64, usize) -> bool>) -> T,
) -> Raw {
    let (mut wanted, mut at) = (Vec::new(), 0);
    while let Err(Place(valid_len, len)) = test(&raw[at..]) {
        at += valid_len;
        let len = len.unwrap_or(raw.len() - at);
        wanted.push((at as u64, len));
        at += len;
    }
    let reported = |at: usize| {
        let (found, mut output) = (Report::default(), Vec::new());
        let start = || {
            let found = found.clone();
            start(Box::new(move |offset, len| {
                found.borrow_mut().push((offset, len));
                true
            }))
        };
        let mut reader = Reader::new(raw[..at].chain(&raw[at..]), start());
        reader.read_to_end(&mut output).unwrap();
        assert_eq!((found.take(), reader.position()), (wanted.clone(), raw.len() as u64));
        let mut writer = Writer::with_capacity(at % 20, Vec::new(), start());
        writer.write_all(&raw[..at]).unwrap();
        writer.write_all(&raw[at..]).unwrap();
        writer.finish().unwrap();
        assert_eq!((found.take(), writer.into_inner()), (wanted.clone(), output.clone()));
        output
    };
    let output = reported(0);
    cuts(raw).for_each(|at| assert_eq!(reported(at), output, "cut at {at}"));
    output
}

/// What a strict writer writes of chunks of each length, or its error, which comes again.
fn written_strictly<T: Transcoder>(raw: &[u8], start: impl Fn() -> T) -> Whole {
    let written = |len: usize| {
        let mut writer = Writer::with_capacity(len % 20, Vec::new(), start());
        for chunk in raw.chunks(len) {
            let mut rest = chunk;
            while !rest.is_empty() {
                match writer.write(rest).map_err(|error| place(&error)) {
                    Ok(written) => rest = &rest[written..],
                    Err(error) => {
                        assert_eq!(place(&writer.write(rest).unwrap_err()), error);
                        return Err(error);
                    }
                }
            }
        }
        writer.finish().map_err(|error| place(&error))?;
        writer.finish().unwrap();
        Ok(writer.into_inner())
    };
    let whole = written(raw.len().max(1));
    cuts(raw).for_each(|len| assert_eq!(written(len), whole, "chunks of {len}"));
    whole
}

/// What a writer writes of chunks.
fn written(raw: &[u8], transcoder: impl Transcoder) -> Raw {
    let mut writer = Writer::new(Vec::new(), transcoder);
    raw.chunks(3).for_each(|chunk| writer.write_all(chunk).unwrap());
    writer.finish().unwrap();
    writer.into_inner()
}

/// The code units of bytes in the byte order of the machine.
fn units(raw: &[u8]) -> Vec<u16> {
    let unit = |pair: &[u8]| u16::from_ne_bytes([pair[0], pair[1]]);
    raw.chunks_exact(2).map(unit).collect()
}

/// The text of chunks, with U+FFFD for each ill-formed sequence.
fn by_chunks(order: ByteOrder, utf16: &[u8]) -> Raw {
    let (mut text, mut chunks) = (String::new(), Utf16Chunks::new(order, utf16));
    while let Some(chunk) = chunks.next() {
        decode_to(order, chunk.valid(), &mut text).unwrap();
        match chunk.invalid() {
            [] => assert_eq!(chunks.next(), None),
            _ => text.push(char::REPLACEMENT_CHARACTER),
        }
    }
    text.into_bytes()
}

/// A stream of any kind.
trait Stream: Sized {
    const MAX_LEN: fn(usize) -> usize;
    const SPELLED: fn(&[u8]) -> String;

    fn start(order: ByteOrder) -> Self;
    fn feed(&mut self, chunk: &[u8], to: &mut [u8]) -> Progress;
    fn pending(&self) -> &[u8];
    /// Ends the stream, and begins another unless the end does not fit.
    fn end(&mut self, to: &mut [u8]) -> Progress;

    fn discard(&mut self) -> usize {
        panic!("it replaces what is ill formed")
    }
}

macro_rules! streams {
    ($(
        $Stream:ident $spelled:ident |$stream:ident, $to:ident| $end:expr $(, $discard:ident)?;
    )*) => {$(
        impl Stream for $Stream {
            const MAX_LEN: fn(usize) -> usize = $Stream::max_len;
            const SPELLED: fn(&[u8]) -> String = $spelled;

            fn start(order: ByteOrder) -> Self {
                let start = $Stream::new(order);
                assert_eq!(start.byte_order(), order);
                start
            }

            fn feed(&mut self, chunk: &[u8], to: &mut [u8]) -> Progress {
                $Stream::feed(self, chunk, to)
            }

            fn pending(&self) -> &[u8] {
                $Stream::pending(self)
            }

            fn end(&mut self, $to: &mut [u8]) -> Progress {
                let $stream = self;
                $end
            }

            $(fn discard(&mut self) -> usize {
                $Stream::$discard(self)
            })?
        }
    )*};
}

streams! {
    Decoder text |stream, to| ended(stream, stream.clone().finish().map(String::from), to);
    Encoder hex |stream, to| ended(stream, stream.clone().finish(), to);
    Wtf8Decoder hex |stream, to| stream.finish(to);
    Wtf8Encoder hex |stream, to| stream.finish(to), discard;
}

/// Begins another stream, if the value that ends this one fits.
fn ended<S: Stream>(stream: &mut S, end: Option<impl AsRef<[u8]>>, to: &mut [u8]) -> Progress {
    let end = end.map_or(Vec::new(), |it| it.as_ref().to_vec());
    let is_short = end.len() > to.len();
    if !is_short {
        to[..end.len()].copy_from_slice(&end);
        *stream = S::start(LittleEndian);
    }
    Progress {
        read: 0,
        written: if is_short { 0 } else { end.len() },
        status: [Status::Done, Status::NoSpace][usize::from(is_short)],
    }
}

/// The output of a stream, which is the same in chunks of each length and in each two chunks, with
/// the capacity that suffices for each and with the least with which something is written.
fn streamed<S: Stream>(order: ByteOrder, raw: &[u8]) -> Whole {
    let streamed = |chunks: Vec<&[u8]>, max_len: fn(usize) -> usize| {
        let (mut stream, mut output, mut to) = (S::start(order), Vec::new(), Vec::new());
        for mut rest in chunks {
            to.resize(max_len(rest.len()), 0);
            loop {
                let found = stream.feed(rest, &mut to);
                output.extend(&to[..found.written]);
                rest = &rest[found.read..];
                if found.status == Status::Done {
                    break;
                }
                assert_eq!((found.status, to.len()), (Status::NoSpace, 4));
                assert_ne!(found.written, 0);
            }
            assert!(rest.is_empty());
        }
        to.resize(4, 0);
        let end = stream.end(&mut to);
        assert_eq!(end.status, Status::Done);
        output.extend(&to[..end.written]);
        output
    };
    let whole = streamed(vec![raw], S::MAX_LEN);
    for len in cuts(raw) {
        assert_eq!(streamed(raw.chunks(len).collect(), S::MAX_LEN), whole);
        assert_eq!(streamed(vec![&raw[..len], &raw[len..]], S::MAX_LEN), whole);
        assert_eq!(streamed(vec![&raw[..len], &raw[len..]], |_| 4), whole);
    }
    Ok(whole)
}

/// What each call on a stream returns and writes, and what is pending after it.
fn fed<S: Stream>(order: ByteOrder, pieces: Vec<Raw>, room: usize) -> String {
    let (mut stream, mut to, mut words) = (S::start(order), vec![0; room], Vec::new());
    let mut step = |found: Progress, to: &[u8], pending: &[u8]| {
        let output = (S::SPELLED)(&to[..found.written]);
        words.push(format!("{} {output} {}", came(found), hex(pending)));
    };
    for piece in pieces {
        let mut rest = &piece[..];
        loop {
            let found = stream.feed(rest, &mut to);
            step(found, &to, stream.pending());
            match found.status {
                Status::IllFormed(len) => rest = &rest[found.read + len - stream.discard()..],
                _ => break,
            }
            if rest.is_empty() {
                break;
            }
        }
    }
    let end = stream.end(&mut to);
    step(end, &to, stream.pending());
    words.join(" ")
}

/// The bytes that a conversion writes in each room, and its whole output.
fn every_room(name: &str, order: ByteOrder, raw: &[u8]) -> String {
    let call = Conversion::of(name).unwrap();
    let size = call.size(order, raw);
    let (_, whole) = call.tested(order, raw, size);
    let mut words = Vec::new();
    for room in 0..=size {
        let (progress, output) = call.tested(order, raw, room);
        words.push(progress.written.to_string());
        words.extend((!whole.starts_with(&output)).then(|| "differs".to_string()));
    }
    words.push(call.spelled(&whole));
    words.join(" ")
}

/// The text of a stream, which is the same however it is cut.
fn every_chunking(order: ByteOrder, utf16: &[u8]) -> String {
    let (call, size) = (Conversion::of("to_utf8_lossy"), to_utf8_lossy_len(order, utf16));
    text(&call.unwrap().tested(order, utf16, size).1)
}

fn decoded<'a>(order: ByteOrder, pieces: impl Iterator<Item = &'a [u8]>) -> String {
    let (mut decoder, mut text) = (Decoder::new(order), String::new());
    pieces.for_each(|piece| decoder.decode(piece, &mut text));
    text.extend(decoder.finish());
    text
}

fn lossy_feed(order: ByteOrder, pieces: Vec<Raw>) -> String {
    let (mut decoder, mut words) = (Decoder::new(order), Vec::new());
    for piece in pieces {
        let mut written = String::new();
        decoder.decode(&piece, &mut written);
        words.extend([text(written.as_bytes()), hex(decoder.pending())]);
    }
    let end = decoder.finish();
    words.push(end.map_or("none".to_string(), |c| format!("U+{:04X}", u32::from(c))));
    words.join(" ")
}

fn inspected(order: ByteOrder, utf16: &[u8]) -> String {
    let found = inspect(order, utf16);
    let follows = match found.error.map(|error| error.error_len()) {
        None => "end".to_string(),
        Some(None) => "incomplete".to_string(),
        Some(Some(len)) => format!("ill_formed {len}"),
    };
    let kind = format!("{:?}", found.repertoire).to_lowercase();
    format!("{} {} {kind} {follows}", found.valid_up_to, found.chars)
}

/// The error of a validation, or a word if there is none.
fn validity(order: ByteOrder, utf16: &[u8], none: &str) -> String {
    let error = validate(order, utf16).err();
    error.map_or(none.to_string(), |error| {
        format!("error {} {}", error.valid_up_to(), or_none(error.error_len()))
    })
}

fn utf32_validity(utf32: &[u32]) -> String {
    let error = validate_utf32(utf32).err();
    error.map_or("done".to_string(), |error| error.valid_up_to().to_string())
}

fn swapped(mut utf16: Raw) -> String {
    swap_byte_order(&mut utf16);
    hex(&utf16)
}

fn well_formed(order: ByteOrder, mut utf16: Raw) -> String {
    let count = make_well_formed(order, &mut utf16);
    format!("{count} {}", hex(&utf16))
}

/// How many characters are left after some were taken from the front and the back.
fn count_the_rest(order: ByteOrder, utf16: &[u8], ends: &str) -> usize {
    let text = decode(order, utf16).unwrap();
    let mut chars = text.chars();
    for end in ends.chars() {
        let _taken = match end {
            'f' => chars.next(),
            _ => chars.next_back(),
        };
    }
    count_chars(order, &encode(order, chars.as_str()))
}

/// Makes a call.
fn made(name: &str, order: ByteOrder, values: &[&str]) -> Found {
    if let Some(conversion) = Conversion::of(name) {
        return conversion.case(order, values);
    }
    let call = CALLS.iter().find(|it| it.0.contains(&name))?.1;
    call(order, values)
}

/// The names of the calls that are made.
fn names() -> impl Iterator<Item = &'static str> {
    let conversions = CONVERSIONS.iter().map(|it| it.name);
    CALLS.iter().flat_map(|it| it.0).copied().chain(conversions)
}

/// The counts of the cases.
#[derive(Default)]
struct Counts {
    passed: usize,
    failed: usize,
    calls: BTreeSet<String>,
}

impl Counts {
    /// Makes the call of a line that `to_json.py` wrote.
    fn case(&mut self, line: &str) {
        let fields = line.split('\t').collect::<Vec<_>>();
        let (name, order, conditions, values, result) = match fields[..] {
            [_, name, order, conditions, values, result] => {
                (name, order, conditions, values, result)
            }
            _ => return self.fail(line),
        };
        if names().all(|it| it != name) || !conditions.is_empty() {
            return;
        }
        self.calls.insert(name.to_string());
        let order = match order {
            "le" => LittleEndian,
            "be" => BigEndian,
            _ => return self.fail(line),
        };
        let values = values.split_whitespace().collect::<Vec<_>>();
        let found = catch_unwind(|| made(name, order, &values)).unwrap_or_default();
        if found.as_deref() == Some(result) {
            self.passed += 1;
        } else {
            self.fail(&format!("{line}\n   found: {found:?}"));
        }
    }

    fn fail(&mut self, line: &str) {
        self.failed += 1;
        println!("failed: {line}");
    }
}

/// The cases of all tables of the repository.
fn cases() -> Result<String, Box<dyn std::error::Error>> {
    let script = concat!(env!("CARGO_MANIFEST_DIR"), "/cases/to_json.py");
    let mut command = Command::new("python3");
    let made = command.args([script, "--tabs"]).stderr(Stdio::inherit());
    let made = made.output()?;
    if !made.status.success() {
        return Err(format!("{script}: {}", made.status).into());
    }
    Ok(String::from_utf8(made.stdout)?)
}

fn main() {
    let mut counts = Counts::default();
    match cases() {
        Ok(lines) => lines.lines().for_each(|line| counts.case(line)),
        Err(error) => counts.fail(&format!("the tables of the repository: {error}")),
    }
    for name in names() {
        if !counts.calls.contains(name) {
            counts.fail(&format!("no case of {name}"));
        }
    }
    println!("{} passed, {} failed", counts.passed, counts.failed);
    std::process::exit(i32::from(counts.failed != 0));
}
