//! Times the library's calls and simdutf's on real texts: `real FOLDER` reads each file `NAME.txt`
//! of the folder, in UTF-8. It prints a line for each call, text, form, byte order and decoder,
//! with the throughput in GB/s of UTF-16. The forms are the lines of a text, one call each, and
//! pieces of 4 KiB and of 64 KiB of UTF-16. It first compares all results.
#[macro_use]
#[allow(dead_code)]
mod library;
#[allow(dead_code)]
mod simdutf;

use library::{Call, Calls};
use std::hint::black_box;
use std::ops::Range;
use std::time::Instant;

const ROUNDS: usize = 9;

// The most bytes of UTF-16 that are read from a text.
const MOST: usize = 1 << 20;

const FORMS: [(&str, usize); 3] = [("lines", 0), ("4 KiB", 4096), ("64 KiB", 65536)];

library!(v2, "", "_v2");
library!(v3, "", "_v3");
library!(chosen, "", "");
#[cfg(before)]
library!(before, "before_", "_v2");

// Returns the decoders that this machine can run. v3 is late and clears the upper halves of the
// vectors. simdutf's kernels for 256 and 512 bits do not, and after them code for 128 bits takes up
// to twice as long.
fn decoders() -> Vec<(&'static str, Calls)> {
    let mut all = vec![("v2", v2::CALLS)];
    #[cfg(before)]
    all.push(("before", before::CALLS));
    all.extend(simdutf::kernels());
    if is_x86_feature_detected!("avx2") {
        all.push(("v3", v3::CALLS));
    }
    all.push(("chosen", chosen::CALLS));
    all
}

// Returns the text of a file in UTF-8, cut to at most `MOST` bytes of UTF-16.
fn text_of(path: &std::path::Path) -> String {
    let mut text = std::fs::read_to_string(path).unwrap();
    let mut left = MOST;
    let end = text.char_indices().find(|(_, c)| {
        let size = 2 * c.len_utf16();
        let full = size > left;
        left = left.saturating_sub(size);
        full
    });
    if let Some((at, _)) = end {
        text.truncate(at);
    }
    text
}

// Returns the parts of a text as ranges of its UTF-8: its lines without their ends if `len` is 0,
// and otherwise pieces of at most `len` bytes of UTF-16.
fn parts_of(text: &str, len: usize) -> Vec<Range<usize>> {
    let mut parts = Vec::new();
    let (mut start, mut size) = (0, 0);
    for (at, c) in text.char_indices() {
        if len == 0 && c == '\n' {
            parts.push(start..at);
            start = at + 1;
        } else if len > 0 && size + 2 * c.len_utf16() > len {
            parts.push(start..at);
            (start, size) = (at, 0);
        }
        size += 2 * c.len_utf16();
    }
    parts.push(start..text.len());
    parts.retain(|part| !part.is_empty());
    parts
}

struct Case {
    name: String,
    inputs: Vec<&'static [u8]>,
    to: Vec<u8>,
    big: bool,
    call: Call,
    size: f64,
    times: usize,
    best: f64,
}

impl Case {
    fn run(&mut self) {
        for input in black_box(&self.inputs) {
            black_box((self.call)(self.big, input, &mut self.to));
        }
    }

    // Returns the seconds that one run over all inputs takes. An untimed run first brings them into
    // the cache, so that no decoder gains from its place in the order.
    fn time(&mut self) -> f64 {
        self.run();
        let start = Instant::now();
        for _ in 0..self.times {
            self.run();
        }
        start.elapsed().as_secs_f64() / self.times as f64
    }
}

// Adds a case for each decoder, after testing that all return and write the same.
fn add(all: &mut Vec<Case>, name: &str, big: bool, inputs: &[&'static [u8]], size: usize, of: fn(&Calls) -> Call) {
    let longest = inputs.iter().map(|input| input.len()).max().unwrap_or(0);
    let mut wanted = None;
    for (decoder, calls) in decoders() {
        let (call, mut to) = (of(&calls), vec![0; 4 * longest + 64]);
        let found: Vec<_> = inputs
            .iter()
            .map(|input| {
                let len = call(big, input, &mut to);
                (len, if name.starts_with("validate") { Vec::new() } else { to[..len].to_vec() })
            })
            .collect();
        assert!(*wanted.get_or_insert_with(|| found.clone()) == found, "{name}: {decoder} differs");
        let name = format!("{name}\t{}\t{decoder}", if big { "be" } else { "le" });
        all.push(Case { name, inputs: inputs.to_vec(), to, big, call, size: size as f64 / 1e9, times: 1, best: f64::MAX });
    }
}

// Returns the UTF-16 of a text, at an even address.
fn utf16(text: &str, big: bool) -> &'static [u8] {
    let units: Vec<u16> = text.encode_utf16().map(|unit| if big { unit.to_be() } else { unit.to_le() }).collect();
    unsafe { units.leak().align_to().1 }
}

fn main() {
    let folder = std::env::args().nth(1).expect("a folder of texts");
    let mut files: Vec<_> = std::fs::read_dir(folder).unwrap().map(|file| file.unwrap().path()).collect();
    files.retain(|path| path.extension().is_some_and(|ending| ending == "txt"));
    files.sort();
    let mut all = Vec::new();
    for path in &files {
        let text: &'static str = text_of(path).leak();
        let name = path.file_stem().unwrap().to_str().unwrap();
        for (form, len) in FORMS {
            let utf8: Vec<&'static str> = parts_of(text, len).into_iter().map(|part| &text[part]).collect();
            let bytes: Vec<&'static [u8]> = utf8.iter().map(|part| part.as_bytes()).collect();
            for big in [false, true] {
                let raw: Vec<&'static [u8]> = utf8.iter().map(|part| utf16(part, big)).collect();
                let size = raw.iter().map(|part| part.len()).sum();
                let mut add = |call, inputs, of| add(&mut all, &format!("{call}\t{name}\t{form}"), big, inputs, size, of);
                add("validate", &raw, |it| it.validate);
                add("to_utf8", &raw, |it| it.to_utf8);
                add("from_utf8", &bytes, |it| it.from_utf8);
            }
        }
    }
    for case in &mut all {
        case.times = (1e-3 / case.time()).ceil() as usize;
    }
    for _ in 0..ROUNDS {
        for case in &mut all {
            case.best = case.best.min(case.time());
        }
    }
    for Case { name, size, best, .. } in &all {
        println!("{name}\t{:.3}", size / best);
    }
}
