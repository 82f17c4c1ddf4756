//! Times the calls of the library and of other decoders on the texts of `texts.rs`. It prints a line
//! for each call, text, byte order and decoder, with GB/s of UTF-16, or for short texts with
//! nanoseconds per call. It first compares all results.
#[macro_use]
mod library;
mod plain;
#[cfg(simdutf)]
mod simdutf;
#[cfg(not(simdutf))]
mod simdutf {
    pub fn kernels() -> Vec<(&'static str, crate::library::Calls)> {
        Vec::new()
    }
}
mod texts;

use encoding_rs::{DecoderResult, Encoding, UTF_8, UTF_16BE, UTF_16LE, mem};
use library::{Call, Calls};
use std::cell::RefCell;
use std::ffi::CStr;
use std::hint::black_box;
use std::time::Instant;

const ROUNDS: usize = 15;
const SIZE: usize = 1 << 16;
const CLASSES: [&str; 4] = ["ascii", "latin_cyrillic", "cjk", "emoji"];

library!(here, "", "_v2");
library!(v3, "", "_v3");

unsafe extern "C" {
    fn icu_valid_up_to(units: *const u16, len: usize) -> usize;
    fn icu_count(units: *const u16, len: usize) -> usize;
    fn icu_to_utf8(units: *const u16, len: usize, to: *mut u8, room: usize) -> usize;
    fn icu_from_utf8(text: *const u8, len: usize, to: *mut u16, room: usize) -> usize;
    fn iconv_open(to: *const i8, from: *const i8) -> usize;
    fn iconv(state: usize, from: &mut *const u8, left: &mut usize, to: &mut *mut u8, room: &mut usize) -> usize;
    fn iconv_close(state: usize) -> i32;
}

thread_local!(static SWAPPED: RefCell<Vec<u16>> = const { RefCell::new(Vec::new()) });

fn aligned(raw: &[u8]) -> &[u16] {
    unsafe { raw.align_to().1 }
}

// Passes the code units to a decoder that reads them only in the machine's byte order. Big-endian
// code units are swapped first.
fn units<T>(big: bool, raw: &[u8], read: impl FnOnce(&[u16]) -> T) -> T {
    if !big {
        return read(aligned(raw));
    }
    SWAPPED.with_borrow_mut(|swapped| {
        swapped.clear();
        swapped.extend(aligned(raw).iter().map(|unit| unit.swap_bytes()));
        read(swapped)
    })
}

// Makes code units in the machine's byte order, and swaps them if big endian is wanted. Returns the
// number of bytes.
fn made_units(big: bool, to: &mut [u8], make: impl FnOnce(&mut [u16]) -> usize) -> usize {
    let units = unsafe { to.align_to_mut().1 };
    let len = make(units);
    if big {
        units[..len].iter_mut().for_each(|unit| *unit = unit.swap_bytes());
    }
    2 * len
}

fn by_iconv(from_name: &CStr, to_name: &CStr, from: &[u8], to: &mut [u8]) -> usize {
    let (mut at, mut left, mut end, mut room) = (from.as_ptr(), from.len(), to.as_mut_ptr(), to.len());
    unsafe {
        let state = iconv_open(to_name.as_ptr(), from_name.as_ptr());
        assert_eq!(iconv(state, &mut at, &mut left, &mut end, &mut room), 0);
        iconv_close(state);
    }
    to.len() - room
}

fn name(big: bool) -> &'static CStr {
    if big { c"UTF-16BE" } else { c"UTF-16LE" }
}

fn encoding(big: bool) -> &'static Encoding {
    if big { UTF_16BE } else { UTF_16LE }
}

macro_rules! plain {
    ($call:ident, $big:expr, $($of:expr),+) => {
        if $big { plain::$call::<true>($($of),+) } else { plain::$call::<false>($($of),+) }
    };
}

// Returns the number of bytes written, and tests that the decoder read all of its input.
fn decoded((answer, read, written): (DecoderResult, usize, usize), len: usize) -> usize {
    assert!(answer == DecoderResult::InputEmpty && read == len);
    written
}

fn icu_units(units: &[u16]) -> usize {
    unsafe { icu_valid_up_to(units.as_ptr(), units.len()) }
}

// The decoders of a call next to the library and simdutf. `plain loop` has the structure of the Rust
// crate `utf16string`.
const VALIDATE: &[(&str, Call)] = &[
    ("plain loop", |big, raw, _| plain!(valid_up_to, big, raw)),
    ("encoding_rs mem", |big, raw, _| 2 * units(big, raw, mem::utf16_valid_up_to)),
    ("ICU", |big, raw, _| 2 * units(big, raw, icu_units)),
];

// Returns the number of ill-formed sequences in random bytes. Each call starts after the sequence
// found before.
const FAULTS: &[(&str, Call)] = &[
    ("here", |big, raw, _| faults(raw, 2, |rest| (here::CALLS.validate)(big, rest, &mut []))),
    ("plain loop", |big, raw, _| faults(raw, 2, |rest| plain!(valid_up_to, big, rest))),
    ("encoding_rs mem", |big, raw, _| units(big, raw, |units| faults(units, 1, mem::utf16_valid_up_to))),
    ("ICU", |big, raw, _| units(big, raw, |units| faults(units, 1, icu_units))),
    #[cfg(simdutf)]
    ("simdutf westmere", |big, raw, _| faults(aligned(raw), 1, |rest| simdutf::westmere::valid_up_to(big, rest))),
    #[cfg(simdutf)]
    ("simdutf haswell", |big, raw, _| faults(aligned(raw), 1, |rest| simdutf::haswell::valid_up_to(big, rest))),
    #[cfg(simdutf)]
    ("simdutf icelake", |big, raw, _| faults(aligned(raw), 1, |rest| simdutf::icelake::valid_up_to(big, rest))),
    ("here v3", |big, raw, _| faults(raw, 2, |rest| (v3::CALLS.validate)(big, rest, &mut []))),
];

fn faults<T>(mut rest: &[T], unit: usize, valid_up_to: impl Fn(&[T]) -> usize) -> usize {
    let mut count = 0;
    loop {
        let at = valid_up_to(rest);
        if at == rest.len() {
            return count;
        }
        (rest, count) = (&rest[at + unit..], count + 1);
    }
}

const COUNT: &[(&str, Call)] = &[
    ("plain loop", |big, raw, _| plain!(count, big, raw)),
    ("ICU", |big, raw, _| units(big, raw, |units| unsafe { icu_count(units.as_ptr(), units.len()) })),
];

// Reads all bytes, as a measure of the memory's speed.
const READ: &[(&str, Call)] =
    &[("plain loop", |_, raw, _| unsafe { raw.align_to::<u64>().1 }.iter().fold(0, |all, word| all ^ word).min(1) as usize)];

const IS_ASCII: &[(&str, Call)] = &[
    ("here", here::IS_ASCII),
    ("here v3", v3::IS_ASCII),
    ("plain loop", |big, raw, _| plain!(is_ascii, big, raw).into()),
    ("encoding_rs mem", |big, raw, _| units(big, raw, mem::is_basic_latin).into()),
];

// `encoding_rs` is its decoder of bytes; `encoding_rs mem` is its call on code units in the
// machine's byte order.
const TO_UTF8: &[(&str, Call)] = &[
    ("plain loop", |big, raw, to| plain!(to_utf8, big, raw, to)),
    ("encoding_rs", |big, raw, to| {
        let mut decoder = encoding(big).new_decoder_without_bom_handling();
        decoded(decoder.decode_to_utf8_without_replacement(raw, to, true), raw.len())
    }),
    ("encoding_rs mem", |big, raw, to| units(big, raw, |units| mem::convert_utf16_to_utf8(units, to))),
    ("ICU", |big, raw, to| {
        units(big, raw, |units| unsafe { icu_to_utf8(units.as_ptr(), units.len(), to.as_mut_ptr(), to.len()) })
    }),
    ("iconv", |big, raw, to| by_iconv(name(big), c"UTF-8", raw, to)),
];

const FROM_UTF8: &[(&str, Call)] = &[
    ("plain loop", |big, text, to| plain!(from_utf8, big, text, to)),
    ("encoding_rs", |big, text, to| {
        let mut decoder = UTF_8.new_decoder_without_bom_handling();
        made_units(big, to, |to| decoded(decoder.decode_to_utf16_without_replacement(text, to, true), text.len()))
    }),
    ("encoding_rs mem", |big, text, to| {
        let text = unsafe { std::str::from_utf8_unchecked(text) };
        made_units(big, to, |to| mem::convert_str_to_utf16(text, to))
    }),
    ("ICU", |big, text, to| {
        made_units(big, to, |to| unsafe { icu_from_utf8(text.as_ptr(), text.len(), to.as_mut_ptr(), to.len()) })
    }),
    ("iconv", |big, text, to| by_iconv(c"UTF-8", name(big), text, to)),
];

// Returns all decoders of a call. v3 is last and clears the upper halves of
// the vectors. simdutf's kernels for 256 and 512 bits do not, and after them code for 128 bits takes
// up to twice as long.
fn all_of(others: &[(&'static str, Call)], of: fn(&Calls) -> Call) -> Vec<(&'static str, Call)> {
    let mut all = vec![("here", of(&here::CALLS))];
    all.extend(others);
    all.extend(simdutf::kernels().iter().map(|(name, calls)| (*name, of(calls))));
    all.push(("here v3", of(&v3::CALLS)));
    all
}

struct Case {
    name: String,
    run: Box<dyn FnMut() -> usize>,
    // The size of one run: billions of bytes of UTF-16, or the number of calls.
    size: f64,
    times: usize,
    best: f64,
}

impl Case {
    // Returns the seconds that one run takes.
    fn time(&mut self) -> f64 {
        let start = Instant::now();
        (0..self.times).for_each(|_| _ = black_box((self.run)()));
        start.elapsed().as_secs_f64() / self.times as f64
    }
}

// Returns a case for each decoder that this machine can run, after testing that their results and
// the texts that they make are equal. Each `field` bytes are the input of one call.
fn cases(call: &str, text: &str, big: bool, raw: &'static [u8], size: f64, field: usize, decoders: &[(&str, Call)]) -> Vec<Case> {
    let mut wanted = None;
    let case = |(decoder, f): &(&str, Call)| {
        let name = format!("{call}\t{text}\t{}\t{decoder}", if big { "be" } else { "le" });
        let (f, mut to, mut answer) = (*f, vec![0; 4 * field + 64], Vec::new());
        for field in raw.chunks_exact(field) {
            let len = f(big, field, &mut to);
            answer.push((len, to[..len].to_vec()));
        }
        assert!(*wanted.get_or_insert_with(|| answer.clone()) == answer, "{name}: not the answer of {}", decoders[0].0);
        let run = move || black_box(raw).chunks_exact(field).map(|field| f(big, field, &mut to)).sum();
        Case { name, run: Box::new(run), size, times: 1, best: f64::MAX }
    };
    let kernels = simdutf::kernels();
    let runs = |decoder: &str| match decoder {
        "here v3" => is_x86_feature_detected!("avx2"),
        _ => !decoder.starts_with("simdutf") || kernels.iter().any(|it| it.0 == decoder),
    };
    decoders.iter().filter(|(decoder, _)| runs(decoder)).map(case).collect()
}

fn main() {
    // Leaves out the decoders that make a state for each call, which takes longer than a short
    // text.
    let stateless = |all: &[(&'static str, Call)]| -> Vec<_> {
        all.iter().filter(|(decoder, _)| !["encoding_rs", "iconv"].contains(decoder)).copied().collect()
    };
    let mut all = Vec::new();
    for big in [false, true] {
        for class in CLASSES {
            let raw = texts::utf16(class, big, SIZE).leak();
            let utf8 = |raw: &[u8]| -> &'static [u8] {
                let utf8 = vec![0; 3 * raw.len()].leak();
                let len = plain!(to_utf8, big, raw, &mut *utf8);
                &utf8[..len]
            };
            let mut add = |call, of: &'static [u8], decoders: &[(&str, Call)]| {
                all.extend(cases(call, class, big, of, raw.len() as f64 / 1e9, of.len(), decoders));
            };
            let of = utf8(raw);
            let validate = all_of(VALIDATE, |it| it.validate);
            let (to_utf8, from_utf8) = (all_of(TO_UTF8, |it| it.to_utf8), all_of(FROM_UTF8, |it| it.from_utf8));
            add("validate", raw, &validate);
            add("count", raw, &all_of(COUNT, |it| it.count));
            add("to_utf8", raw, &to_utf8);
            add("from_utf8", of, &from_utf8);
            if class == "ascii" {
                add("is_ascii", raw, IS_ASCII);
                add("read", raw, READ);
            } else {
                // Only compared, not timed: the first character decides the result.
                cases("is_ascii", class, big, raw, 1.0, raw.len(), IS_ASCII);
            }
            // Short texts, of the classes whose characters all have the same length.
            let sizes: &[usize] = if ["ascii", "cjk"].contains(&class) { &[2, 4, 8, 16, 24, 32, 40, 62, 64] } else { &[] };
            for size in sizes {
                let (text, raw) = (format!("{class}, {size} bytes"), &raw[..16384]);
                let (of, count) = (utf8(raw), (raw.len() / size) as f64);
                let mut add = |call, of: &'static [u8], decoders: &[(&str, Call)]| {
                    all.extend(cases(call, &text, big, of, count, size * of.len() / raw.len(), decoders));
                };
                add("short validate", raw, &validate);
                add("short to_utf8", raw, &stateless(&to_utf8));
                add("short from_utf8", of, &stateless(&from_utf8));
            }
        }
        let random = texts::utf16("random", big, SIZE).leak();
        all.extend(cases("validate", "random", big, random, SIZE as f64 / 1e9, SIZE, FAULTS));
    }
    for case in &mut all {
        case.times = (2e-3 / case.time()).ceil() as usize;
    }
    for _ in 0..ROUNDS {
        for case in &mut all {
            case.best = case.best.min(case.time());
        }
    }
    for Case { name, size, best, .. } in &all {
        println!("{name}\t{:.3}", if name.starts_with("short") { best / size * 1e9 } else { size / best });
    }
}
