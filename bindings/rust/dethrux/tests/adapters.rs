//! The adapters for `Read` and `Write`: chunks and buffers of any length, and errors.

use dethrux::io::{Reader, Writer};
use dethrux::ByteOrder::{BigEndian, LittleEndian};
use dethrux::{decode_lossy, encode, encode_lossy, Decoder, Encoder, Utf16Error, Utf8Error};
use std::io::{BufRead, Error, ErrorKind, Read, Result, Write};

/// A text with characters of each length, longer than a buffer of an adapter.
fn text() -> String {
    "aß★\u{1F600}".repeat(3000)
}

/// A reader that has a result for each call, and ends after the last.
#[derive(Debug)]
struct Steps<'a> {
    results: Vec<Result<&'a [u8]>>,
    calls: usize,
}

impl<'a> Steps<'a> {
    /// Returns a reader whose last result comes first.
    fn new(results: impl IntoIterator<Item = Result<&'a [u8]>>) -> Self {
        let mut results: Vec<_> = results.into_iter().collect();
        results.reverse();
        Steps { results, calls: 0 }
    }

    /// Returns a reader that gives a few bytes at a time, and an error before each of them.
    fn slow(bytes: &'a [u8], len: usize) -> Self {
        let step = |chunk| [Err(Error::from(ErrorKind::WouldBlock)), Ok(chunk)];
        Steps::new(bytes.chunks(len).flat_map(step))
    }
}

impl Read for Steps<'_> {
    fn read(&mut self, to: &mut [u8]) -> Result<usize> {
        self.calls += 1;
        let mut bytes = self.results.pop().unwrap_or(Ok(b""))?;
        let read = bytes.read(to)?;
        if !bytes.is_empty() {
            self.results.push(Ok(bytes));
        }
        Ok(read)
    }
}

/// Reads to the end through a buffer of `len` bytes, again after each error. Returns what was read
/// and the number of errors.
fn read_all(mut reader: impl Read, len: usize) -> (Vec<u8>, usize) {
    let (mut all, mut buffer, mut errors) = (Vec::new(), vec![0; len], 0);
    loop {
        match reader.read(&mut buffer) {
            Ok(0) => return (all, errors),
            Ok(read) => all.extend(&buffer[..read]),
            Err(_) => errors += 1,
        }
        assert!(all.len() < 1_000_000 && errors < 1_000_000, "no end");
    }
}

#[test]
fn a_reader_goes_on_after_errors_and_replaces_what_is_ill_formed_wherever_it_is_cut() {
    let utf16 = b"\0\xD8\0\xD8a\0\0\xDC\0\xD8\0\xDCb\0\0\xD8\0\0\0\xDC\0";
    let utf8 = b"\xE4\xB8\xE4\xB8\x80\xF0\x9F\x98\xF0\x9F\x98\x80a\xC0\x80\xED\xA0\x80\xF0";
    let decoded = "\u{FFFD}\u{FFFD}a\u{FFFD}\u{10000}b\u{FFFD}\0\u{FFFD}\u{FFFD}";
    let encoded = encode(BigEndian, &String::from_utf8_lossy(utf8));
    for (len, buffer_len) in (1..6).flat_map(|len| (1..9).map(move |buffer| (len, buffer))) {
        let errors = |bytes: &[u8]| bytes.chunks(len).count();
        let reader = Reader::new(Steps::slow(utf16, len), Decoder::new(LittleEndian));
        let wanted = (decoded.as_bytes().to_vec(), errors(utf16));
        assert_eq!(read_all(reader, buffer_len), wanted);
        let reader = Reader::new(Steps::slow(utf8, len), Encoder::new(BigEndian));
        assert_eq!(read_all(reader, buffer_len), (encoded.clone(), errors(utf8)));
    }
}

#[test]
fn a_writer_loses_nothing_by_errors() {
    let utf16 = encode_lossy(LittleEndian, text().as_bytes());
    let utf16 = [&utf16[..], b"\0"].concat();
    let results = (0..100).flat_map(|_| [Err(Error::from(ErrorKind::WouldBlock)), Ok(1000)]);
    let mut writer = Writer::new(Scripted::new(results), Decoder::new(LittleEndian));
    let (mut rest, mut errors) = (&utf16[..], 0);
    while !rest.is_empty() {
        match writer.write(rest) {
            Ok(written) => rest = &rest[written..],
            Err(error) => {
                assert_eq!(error.kind(), ErrorKind::WouldBlock);
                errors += 1;
            }
        }
        assert!(errors < 1000, "no end");
    }
    while writer.finish().is_err() {
        errors += 1;
        assert!(errors < 1000, "no end");
    }
    assert!(errors > 10);
    assert!(writer.into_inner().bytes == decode_lossy(LittleEndian, &utf16).into_bytes());
}

#[test]
fn a_writer_that_takes_nothing_is_an_error() {
    let mut byte = [0; 1];
    let mut writer = Writer::new(&mut byte[..], Encoder::new(LittleEndian));
    assert_eq!(writer.write(b"a").unwrap(), 1);
    assert_eq!(writer.finish().unwrap_err().kind(), ErrorKind::WriteZero);
}

/// A device that has a result for each call, and none after the last.
#[derive(Default)]
struct Scripted {
    results: Vec<Result<usize>>,
    flushes: Vec<Result<()>>,
    bytes: Vec<u8>,
}

impl Scripted {
    /// Returns a device whose last result comes first.
    fn new(results: impl IntoIterator<Item = Result<usize>>) -> Self {
        let mut results: Vec<_> = results.into_iter().collect();
        results.reverse();
        Scripted { results, ..Scripted::default() }
    }
}

impl Write for Scripted {
    fn write(&mut self, bytes: &[u8]) -> Result<usize> {
        let len = self.results.pop().unwrap_or(Ok(bytes.len()))?.min(bytes.len());
        self.bytes.extend(&bytes[..len]);
        Ok(len)
    }

    fn flush(&mut self) -> Result<()> {
        self.flushes.pop().unwrap_or(Ok(()))
    }
}

fn interrupted<T>() -> Result<T> {
    Err(Error::from(ErrorKind::Interrupted))
}

fn fault(text: &str) -> Error {
    Error::new(ErrorKind::PermissionDenied, text.to_string())
}

#[test]
fn a_writer_tries_again_after_an_interruption() {
    let device = Scripted::new([interrupted(), Ok(1), interrupted(), Ok(9)]);
    let mut writer = Writer::new(device, Encoder::new(BigEndian));
    assert_eq!(writer.write(b"abc").unwrap(), 3);
    assert_eq!(writer.get_ref().bytes, b"\0a\0b\0c");
}

#[test]
fn a_writer_returns_an_error_at_the_next_call() {
    let device = Scripted::new([Ok(1), Err(fault("1")), Err(fault("2")), Err(fault("3"))]);
    let mut writer = Writer::new(device, Encoder::new(LittleEndian));
    assert_eq!(writer.write(b"ab").unwrap(), 2);
    assert_eq!(writer.get_ref().bytes, b"a");
    assert_eq!(writer.write(b"c").unwrap_err().to_string(), "2");
    assert_eq!(writer.flush().unwrap_err().to_string(), "3");
    assert_eq!(writer.write(b"").unwrap(), 0);
    assert_eq!(writer.get_ref().bytes, b"a\0b\0");
    assert_eq!(writer.write(b"c").unwrap(), 1);
    assert_eq!(writer.into_inner().bytes, b"a\0b\0c\0");
}

#[test]
fn a_writer_ends_once_whatever_fails() {
    for (results, flushes) in
        [(vec![Err(fault("at the end"))], vec![]), (vec![], vec![Err(fault("at the end"))])]
    {
        let device = Scripted { results, flushes, bytes: Vec::new() };
        let mut writer = Writer::new(device, Encoder::new(BigEndian));
        assert_eq!(writer.write(b"\xE2\x98").unwrap(), 2);
        assert!(writer.get_ref().bytes.is_empty());
        assert_eq!(writer.finish().unwrap_err().to_string(), "at the end");
        let error = writer.write(b"a").unwrap_err();
        let wanted = "the writer is finished: make another for the next stream";
        assert_eq!((error.kind(), &*error.to_string()), (ErrorKind::Other, wanted));
        writer.finish().unwrap();
        writer.finish().unwrap();
        writer.flush().unwrap();
        assert_eq!(writer.into_inner().bytes, b"\xFF\xFD");
    }
}

#[test]
fn a_reader_returns_the_errors_of_the_inner_one() {
    for len in [1, 3, 4, 100] {
        let steps = Steps::new([Err(fault("1")), Ok(&b"a\0\0"[..]), Err(fault("3"))]);
        let mut reader = Reader::new(steps, Decoder::new(LittleEndian));
        let mut buffer = vec![0xAA; len];
        let error = reader.read(&mut buffer).unwrap_err();
        assert_eq!((error.kind(), &*error.to_string()), (ErrorKind::PermissionDenied, "1"));
        assert_eq!(reader.read(&mut buffer).unwrap(), 1);
        assert_eq!(buffer[0], b'a');
        assert_eq!(reader.read(&mut buffer).unwrap_err().to_string(), "3");
        assert_eq!(read_all(&mut reader, len).0, "\u{FFFD}".as_bytes());
        assert_eq!(reader.get_ref().calls, 4);
        assert_eq!(reader.into_inner().calls, 4);
    }
}

#[test]
fn a_mark_is_looked_for_in_two_bytes() {
    for stream in [&b""[..], b"a", b"\xFF", b"a\0", b"\xFF\xFE", b"\xFE\xFF\0a", b"a\0b\0c\0"] {
        for order in [LittleEndian, BigEndian] {
            let reader = Reader::with_bom(stream, order).unwrap();
            assert_eq!(*reader.get_ref(), &stream[stream.len().min(2)..]);
            let text = match stream {
                [0xFE, 0xFF, utf16 @ ..] => decode_lossy(BigEndian, utf16),
                [0xFF, 0xFE, utf16 @ ..] => decode_lossy(LittleEndian, utf16),
                _ => decode_lossy(order, stream),
            };
            assert_eq!(read_all(reader, 3).0, text.as_bytes());
        }
    }
}

#[test]
fn a_mark_is_read_again_after_an_interruption() {
    for (mark, text) in [(b"\xFF\xFE", b"a\0"), (b"\xFE\xFF", b"\0a")] {
        let steps = vec![
            interrupted(),
            Ok(&mark[..1]),
            interrupted(),
            interrupted(),
            Ok(&mark[1..]),
            Ok(&text[..]),
        ];
        let reader = Reader::with_bom(Steps::new(steps), BigEndian).unwrap();
        assert_eq!(read_all(reader, 9), (b"a".to_vec(), 0));
    }
    for at in 0..2 {
        let mut steps: Vec<Result<&[u8]>> = vec![Ok(b"\xFF"), Ok(b"\xFE")];
        steps.insert(at, Err(fault("at the mark")));
        let error = Reader::with_bom(Steps::new(steps), LittleEndian).unwrap_err();
        assert_eq!(
            (error.kind(), &*error.to_string()),
            (ErrorKind::PermissionDenied, "at the mark")
        );
    }
}

/// The offset and the length of an error about the UTF-16 of a strict reader.
fn fields(error: &Error) -> (usize, Option<usize>) {
    assert_eq!(error.kind(), ErrorKind::InvalidData);
    let inner = error.get_ref().and_then(|inner| inner.downcast_ref());
    let inner: &Utf16Error = inner.expect("an error about UTF-16");
    (inner.valid_up_to(), inner.error_len())
}

#[test]
fn strict_adapters_stop_in_a_long_stream() {
    for order in [LittleEndian, BigEndian] {
        let surrogate = encode(order, "\u{10000}").split_off(2);
        let utf16 = [encode(order, &text()), surrogate, encode(order, "a")].concat();
        let (len, mut found) = (utf16.len() - 4, String::new());
        let mut reader = Reader::strict(&utf16[..], order);
        let error = reader.read_to_string(&mut found).unwrap_err();
        assert_eq!(fields(&error), (len, Some(2)));
        assert_eq!((found == text(), reader.skip_error()), (true, 2));
        assert_eq!(reader.lines().next().unwrap().unwrap(), "a");

        let mut writer = Writer::strict(Vec::new(), order);
        let utf8 = [text().as_bytes(), b"\xE2\x98a"].concat();
        let error = writer.write_all(&utf8).unwrap_err();
        let error = *error.get_ref().unwrap().downcast_ref::<Utf8Error>().unwrap();
        assert_eq!((error.valid_up_to(), error.error_len()), (text().len(), Some(2)));
        assert!(writer.into_inner() == utf16[..len]);
    }
    let error = Reader::strict_with_bom(Steps::new([Err(fault("at once"))]), LittleEndian);
    assert_eq!(error.unwrap_err().to_string(), "at once");
}

#[test]
fn a_strict_reader_takes_what_comes_after_an_end() {
    let steps = Steps::new([Ok(&b"\0h\0"[..]), Ok(b""), Ok(b"i")]);
    let (mut reader, mut text) = (Reader::strict(steps, BigEndian), String::new());
    let error = reader.read_to_string(&mut text).unwrap_err();
    assert_eq!(fields(&error), (2, None));
    reader.read_to_string(&mut text).unwrap();
    assert_eq!((&text[..], reader.skip_error(), reader.position()), ("hi", 0, 4));
}

#[test]
fn the_device_of_an_adapter_can_be_used() {
    let mut reader = Reader::new(&b"\0a\0b"[..], Decoder::new(BigEndian));
    assert_eq!(reader.read(&mut []).unwrap(), 0);
    reader.get_mut().consume(2);
    assert_eq!(read_all(reader, 4).0, b"b");
    let mut writer = Writer::new(Vec::new(), Encoder::new(BigEndian));
    writer.get_mut().push(b'>');
    writer.write_all(b"a\xE2").unwrap();
    writer.flush().unwrap();
    assert_eq!(writer.into_inner(), b">\0a");
}

#[test]
fn std_reads_on_after_an_interruption() {
    let steps = || {
        let bytes = b"h\0\x3D\xD8\0\xDE\n\0i\0".chunks(1).map(Ok);
        Steps::new(bytes.flat_map(|byte| [interrupted(), byte, interrupted()]))
    };
    let mut found = String::new();
    Reader::strict(steps(), LittleEndian).read_to_string(&mut found).unwrap();
    assert_eq!(found, "h\u{1F600}\ni");
    let wanted = ["h\u{1F600}", "i"];
    let lines = Reader::strict(steps(), LittleEndian).lines();
    assert_eq!(lines.collect::<Result<Vec<_>>>().unwrap(), wanted);
    let lines = Reader::new(steps(), Decoder::new(LittleEndian)).lines();
    assert_eq!(lines.collect::<Result<Vec<_>>>().unwrap(), wanted);
}

#[test]
fn lines_may_be_cut_anywhere_and_end_with_an_error() {
    let text = "aß★\u{1F600}\r\n\n".repeat(3000) + "end";
    for (order, len) in [(LittleEndian, 1), (BigEndian, 3), (LittleEndian, 100_000)] {
        let utf16 = encode(order, &text);
        let reader = || Reader::new(Steps::new(utf16.chunks(len).map(Ok)), Decoder::new(order));
        assert!(reader().lines().map(Result::unwrap).eq(text.lines().map(String::from)));
        let mut back = Vec::new();
        let read = Reader::new(text.as_bytes(), Encoder::new(order)).read_until(0xD8, &mut back);
        assert!(utf16.starts_with(&back) && read.unwrap() > 0 && back.ends_with(b"\xD8"));
    }
    let steps = vec![Ok(&b"\0h\0\n\0i"[..]), Err(fault("2")), Ok(b"\0\n\0j\xDC"), Ok(b"\0")];
    let mut lines = Reader::strict(Steps::new(steps), BigEndian).lines();
    assert_eq!(lines.next().unwrap().unwrap(), "h");
    assert_eq!(lines.next().unwrap().unwrap_err().to_string(), "2");
    assert_eq!(lines.next().unwrap().unwrap(), "");
    assert_eq!(fields(&lines.next().unwrap().unwrap_err()), (10, Some(2)));
    assert_eq!(fields(&lines.next().unwrap().unwrap_err()), (10, Some(2)));
}

#[test]
fn both_ways_to_read_take_turns() {
    let (utf16, utf8) = (encode(BigEndian, &text()), text().into_bytes());
    let mut reader = Reader::new(&utf16[..], Decoder::new(BigEndian));
    let (mut all, mut turn) = (Vec::new(), 0);
    while all.len() < utf8.len() {
        turn += 1;
        let mut buffer = [0; 5000];
        let read = reader.read(&mut buffer[..turn * 7 % 5000]).unwrap();
        all.extend(&buffer[..read]);
        let found = reader.fill_buf().unwrap();
        let len = found.len().min(turn % 300);
        all.extend(&found[..len]);
        reader.consume(len);
        assert!(utf8.starts_with(&all), "turn {turn}");
    }
    assert_eq!(reader.fill_buf().unwrap(), b"");
    reader.consume(3);
    assert_eq!(reader.read(&mut [0; 9]).unwrap(), 0);
}
