//! How often the calls allocate, and how much they return to the allocator.

use dethrux::io::{Reader, Writer};
use dethrux::ByteOrder::{BigEndian, LittleEndian};
use dethrux::*;
use std::alloc::{GlobalAlloc, Layout, System};
use std::cell::Cell;
use std::io::{Read, Write};

/// Counts the allocations of each thread.
struct Counting;

thread_local! {
    static ALLOCATIONS: Cell<usize> = const { Cell::new(0) };
    static REALLOCATIONS: Cell<usize> = const { Cell::new(0) };
}

// SAFETY: each call is passed on to the system's allocator.
unsafe impl GlobalAlloc for Counting {
    unsafe fn alloc(&self, layout: Layout) -> *mut u8 {
        let _ = ALLOCATIONS.try_with(|count| count.set(count.get() + 1));
        System.alloc(layout)
    }

    unsafe fn dealloc(&self, block: *mut u8, layout: Layout) {
        System.dealloc(block, layout)
    }

    unsafe fn realloc(&self, block: *mut u8, layout: Layout, size: usize) -> *mut u8 {
        let _ = REALLOCATIONS.try_with(|count| count.set(count.get() + 1));
        System.realloc(block, layout, size)
    }
}

#[global_allocator]
static COUNTING: Counting = Counting;

/// Makes a call, and returns how often it allocated and changed the size of a block.
fn counted<T>(call: impl FnOnce() -> T) -> ((usize, usize), T) {
    let counts = || (ALLOCATIONS.with(Cell::get), REALLOCATIONS.with(Cell::get));
    let before = counts();
    let result = call();
    let after = counts();
    ((after.0 - before.0, after.1 - before.1), result)
}

#[test]
fn calls_on_buffers_do_not_allocate() {
    let (utf16, mut utf8) = (b"\0a\xD8\x3D\xDE\0\xDC\0\0", [0; 64]);
    let (counts, _) = counted(|| {
        let _ = to_utf8_lossy(BigEndian, utf16, &mut utf8);
        let _ = (validate(BigEndian, utf16), count_chars(BigEndian, utf16));
        let _ = Utf16Chunks::new(BigEndian, utf16).count();
        let mut decoder = Decoder::new(BigEndian);
        let _ = decoder.feed(utf16, &mut utf8);
        decoder.clone().finish()
    });
    assert_eq!(counts, (0, 0));
    struct Ignored;
    impl std::fmt::Write for Ignored {
        fn write_str(&mut self, _: &str) -> std::fmt::Result {
            Ok(())
        }
    }
    let utf16 = encode(BigEndian, &"★".repeat(1000));
    let shown = || std::fmt::write(&mut Ignored, format_args!("{}", display(BigEndian, &utf16)));
    assert_eq!(counted(shown).0, (0, 0));
}

#[test]
fn calls_that_append_allocate_at_most_once() {
    for text in ["", "a", "★", "\u{1F600}", &"a★".repeat(1000)] {
        let utf16 = encode(LittleEndian, text);
        let once = (usize::from(!text.is_empty()), 0);
        let (mut to_text, mut to_bytes) = (String::new(), Vec::new());
        let append = || decode_to(LittleEndian, &utf16, &mut to_text);
        assert_eq!(counted(append), (once, Ok(())));
        let append = || encode_to(LittleEndian, text, &mut to_bytes);
        assert_eq!(counted(append).0, once);
        let (mut decoder, mut to_text) = (Decoder::new(LittleEndian), String::new());
        let (mut encoder, mut to_bytes) = (Encoder::new(LittleEndian), Vec::new());
        for counts in [(1, 0), (0, 0)] {
            assert_eq!(counted(|| decoder.decode(&utf16, &mut to_text)).0, counts);
            let append = || encoder.encode(text.as_bytes(), &mut to_bytes);
            assert_eq!(counted(append).0, counts);
            to_text.reserve(5000);
            to_bytes.reserve(5000);
        }
    }
}

/// Makes a call, and returns what it counted, and the length and the capacity of its result.
macro_rules! measured {
    ($call:expr) => {{
        let (counts, found) = counted(|| $call);
        (counts, found.len(), found.capacity())
    }};
}

#[test]
fn results_keep_little_memory_that_they_do_not_use() {
    for len in [0, 1, 20, 70, 1000, 10_000, 30_000] {
        for character in ["a", "é", "★"] {
            let text = character.repeat(len);
            let utf16 = encode(BigEndian, &text);
            let units = encode_units(&text);
            let results = [
                measured!(decode(BigEndian, &utf16).unwrap()),
                measured!(decode_lossy(BigEndian, &utf16)),
                measured!(encode(BigEndian, &text)),
                measured!(encode_lossy(BigEndian, text.as_bytes())),
                measured!(encode_units(&text)),
                measured!(decode_units(&units).unwrap()),
                measured!(decode_to_wtf8(BigEndian, &utf16).unwrap()),
                measured!(encode_from_wtf8(BigEndian, text.as_bytes()).unwrap()),
                measured!(units_to_wtf8(&units)),
                measured!(units_from_wtf8(text.as_bytes()).unwrap()),
            ];
            for (counts, used, capacity) in results {
                assert_eq!(counts.0, usize::from(len > 0));
                assert!(capacity <= (3 * used).max(8));
                let unused = capacity - used;
                assert!(capacity >= 65536 || unused <= used.max(64), "{unused} of {capacity}");
                let is_small = 2 * used < 64;
                assert!(counts.1 == 0 || !is_small && capacity < 65536);
            }
        }
    }
}

#[test]
fn characters_take_as_much_memory_as_they_need() {
    for text in ["", "a", "★\u{1F600}", &"a★".repeat(1000)] {
        let (utf16, len) = (encode(BigEndian, text), text.chars().count());
        let once = (usize::from(len > 0), 0);
        let wanted = (once, len, len);
        assert_eq!(measured!(decode_to_chars(BigEndian, &utf16).unwrap()), wanted);
        assert_eq!(measured!(decode_to_chars_lossy(BigEndian, &utf16)), wanted);
    }
    let latin1 = [0xE9; 100];
    assert_eq!(measured!(encode_from_latin1(BigEndian, &latin1)), ((1, 0), 200, 200));
}

#[test]
fn large_results_are_not_copied() {
    let text = "a".repeat(30_000);
    let utf16 = encode(LittleEndian, &text);
    assert_eq!(counted(|| decode(LittleEndian, &utf16)).0, (1, 0));
    let text = "★".repeat(30_000);
    assert_eq!(counted(|| encode(LittleEndian, &text)).0, (1, 0));
}

#[test]
fn adapters_allocate_one_buffer_each_when_they_are_made() {
    let utf16 = encode(BigEndian, &"a★".repeat(10_000));
    let (counts, mut reader) = counted(|| Reader::new(&utf16[..], Decoder::new(BigEndian)));
    assert_eq!(counts, (1, 0));
    let with_bom = || Reader::with_bom(&utf16[..], BigEndian).unwrap();
    assert_eq!(counted(with_bom).0, (1, 0));
    let mut text = Vec::with_capacity(100_000);
    assert_eq!(counted(|| reader.read_to_end(&mut text).unwrap()).0, (0, 0));
    assert_eq!(text.len(), 40_000);
    let mut reader = Reader::strict(&utf16[..], BigEndian);
    let count = || std::io::BufRead::fill_buf(&mut reader).unwrap().len();
    assert_eq!(counted(count), ((1, 0), 8192));
    let mut byte = [0; 1];
    assert_eq!(counted(|| reader.read_exact(&mut byte)).0, (0, 0));

    let written = Vec::with_capacity(100_000);
    let (counts, mut writer) = counted(|| Writer::new(written, Encoder::new(BigEndian)));
    assert_eq!(counts, (1, 0));
    let (counts, _) = counted(|| {
        writer.write_all(&text).unwrap();
        writer.finish().unwrap();
    });
    assert_eq!(counts, (0, 0));
    assert!(writer.into_inner() == utf16);
}
