//! Times calls of the crate `utf16string` 0.2.0, `original`, and of the crate in `bindings/rust`,
//! `ours`, in turn. Prints the original's time divided by ours, for each call and size: the least
//! ratio, the geometric mean, and the text with the least. A word on the command line chooses calls.
#[cfg(alone)]
extern crate ours as original;
mod texts;

use std::collections::BTreeMap;
use std::hint::black_box;
use std::time::{Duration, Instant};

/// The time for a call of both crates on a text in each pass. Seconds go by between two passes.
const TIME: Duration = Duration::from_millis(40);
const PASSES: usize = 3;

/// A call's name, and a function that times it on copies of a text.
type Call = (&'static str, Box<dyn FnMut() -> Duration>);

macro_rules! library {
    ($calls:ident $library:ident $Order:ident) => {
        fn $calls(bytes: &[u8]) -> Vec<Call> {
            type WStr = $library::WStr<$library::$Order>;
            type WString = $library::WString<$library::$Order>;
            // The call is made once on each copy, or eight times if it is quick and changes nothing.
            fn timed<R>(text: &'static WStr, times: usize, name: &'static str, call: impl Fn(&mut WString) -> R + 'static) -> Call {
                let copies = 0..((1 << 15) / text.len()).min(256);
                let mut copies: Vec<_> = copies.map(|_| WString::with_capacity(2 * text.len())).collect();
                let round = move || {
                    for copy in &mut copies {
                        copy.clear();
                        copy.push_wstr(text);
                    }
                    let start = Instant::now();
                    for _ in 0..times {
                        copies.iter_mut().for_each(|copy| drop(black_box(call(black_box(copy)))));
                    }
                    start.elapsed()
                };
                (name, Box::new(round))
            }
            fn walk(text: &WStr) {
                let mut at = 0;
                while let Some(c) = text[at..].chars().next() {
                    at += 2 * black_box(c).len_utf16();
                }
            }
            let text: &'static WStr = WStr::from_utf16(bytes.to_vec().leak()).expect("a text of texts.rs");
            let chars: &'static [char] = text.chars().collect::<Vec<_>>().leak();
            let broken: &'static [u8] = [&bytes[..bytes.len() - 2], &[0xD8; 2]].concat().leak();
            let boundary = |at| (at..).find(|at| text.is_char_boundary(*at)).expect("the end");
            let [a, m, b] = [1, 2, 3].map(|quarter| boundary(quarter * text.len() / 4));
            let mut calls = vec![
                timed(text, 1, "push", |s| { s.clear(); chars.iter().for_each(|c| s.push(*c)) }),
                timed(text, 8, "get(a..b)", move |s| black_box(s.get(black_box(a)..black_box(b))).is_some()),
                timed(text, 8, "get(m..)", move |s| black_box(s.get(black_box(m)..)).is_some()),
                timed(text, 1, "insert, start", |s| s.insert(black_box(0), black_box('x'))),
                timed(text, 1, "insert, middle", move |s| s.insert(black_box(m), black_box('x'))),
                timed(text, 1, "remove, start", |s| s.remove(black_box(0))),
                timed(text, 1, "remove, middle", move |s| s.remove(black_box(m))),
                timed(text, 1, "retain none", |s| s.retain(|c| c == '_')),
                timed(text, 1, "retain half", |s| {
                    let mut number = 0;
                    s.retain(|_| { number += 1; number % 2 == 0 });
                }),
                timed(text, 1, "retain all", |s| s.retain(|c| c != '_')),
                timed(text, 1, "walk by index", |s| walk(s)),
                timed(text, 1, "is_char_boundary", |s| (0..=s.len()).filter(|at| s.is_char_boundary(*at)).count()),
                timed(text, 1, "insert_wstr", move |s| s.insert_wstr(black_box(m), &text[..a])),
                timed(text, 1, "split_off", move |s| s.split_off(black_box(m))),
                timed(text, 8, "is_ascii", |s| s.is_ascii()),
            ];
            if text.len() == 16 {
                calls.extend([
                    timed(text, 8, "from_utf16", |s| WStr::from_utf16(s.as_bytes()).is_ok()),
                    timed(text, 8, "from_utf16, error at the end", |_| WStr::from_utf16(black_box(broken)).err()),
                    timed(text, 8, "chars", |s| s.chars().map(|c| c as usize).sum::<usize>()),
                    timed(text, 8, "chars().count()", |s| s.chars().count()),
                ]);
            }
            calls
        }
    };
}

library!(original_le original LE);
library!(original_be original BE);
library!(ours_le ours LE);
library!(ours_be ours BE);

fn main() {
    let word = std::env::args().nth(1).unwrap_or_default();
    let mut least = BTreeMap::new();
    let texts = [16, 256, 4096].map(|size| ["ascii", "cjk", "emoji"].map(|class| (size, class))).concat();
    for (size, class) in texts.repeat(PASSES) {
        let [little, big] = [false, true].map(|big| texts::utf16(class, big, size));
        let both = [("LE", original_le(&little), ours_le(&little)), ("BE", original_be(&big), ours_be(&big))];
        for (order, original, ours) in both {
            for (index, ((name, mut original), (_, mut ours))) in original.into_iter().zip(ours).enumerate() {
                if name.contains(&word) {
                    let texts: &mut BTreeMap<_, _> = least.entry((index, size, name)).or_default();
                    let times = texts.entry((class, order)).or_insert([Duration::MAX; 2]);
                    let start = Instant::now();
                    while start.elapsed() < TIME {
                        *times = [original().min(times[0]), ours().min(times[1])];
                    }
                }
            }
        }
    }
    println!("original / ours                   | least |  mean | the least is of");
    for ((_, size, name), times) in least {
        let ratios = times.into_iter().map(|(text, [one, two])| (one.as_secs_f64() / two.as_secs_f64(), text));
        let ratios: Vec<_> = ratios.collect();
        let mean = ratios.iter().map(|(ratio, _)| ratio.ln()).sum::<f64>() / ratios.len() as f64;
        let (ratio, (class, order)) = ratios.into_iter().min_by(|one, two| one.0.total_cmp(&two.0)).expect("a text");
        println!("{name:28} {size:4} | {ratio:5.2} | {:5.2} | {class}, {order}", mean.exp());
    }
}
