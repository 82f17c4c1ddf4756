//! Times `utf16_cat`, `utf16_enc` and programs that use simdutf on real texts: `real_programs
//! FOLDER ROOM BIN CAT ENC [CAT ENC]`. It reads each file `NAME.txt` of a folder, in UTF-8, and
//! repeats it to 32 MiB in ROOM. Then it times each program from that file to the null device, and
//! `dd`, which only copies. BIN has the program `simdutf_cat`; a second pair belongs to another
//! build. It prints a line for each program, text, byte order and decoder, with the throughput in
//! GB/s of input. It first compares what the programs write.
use std::fs::File;
use std::process::{Command, Stdio};
use std::time::Instant;

const ROUNDS: usize = 5;

const SIZE: usize = 32 << 20;

// Runs a program, and returns the seconds. A variable of its environment may come first, as in
// `NAME=VALUE PROGRAM`.
fn run(words: &str, from: &str, to: Stdio) -> f64 {
    let mut words = words.split(' ').peekable();
    let variable = words.next_if(|word| word.contains('='));
    let mut command = Command::new(words.next().unwrap());
    command.envs(variable.and_then(|it| it.split_once('=')));
    command.args(words).stdin(File::open(from).unwrap()).stdout(to);
    let start = Instant::now();
    assert!(command.status().unwrap().success(), "{command:?} failed");
    start.elapsed().as_secs_f64()
}

fn main() {
    let words: Vec<String> = std::env::args().collect();
    let [_, folder, room, bin, builds @ ..] = &words[..] else { panic!("FOLDER ROOM BIN CAT ENC") };
    let mut files: Vec<_> = std::fs::read_dir(folder).unwrap().map(|file| file.unwrap().path()).collect();
    files.retain(|path| path.extension().is_some_and(|ending| ending == "txt"));
    files.sort();
    for path in &files {
        let name = path.file_stem().unwrap().to_str().unwrap();
        let mut text = std::fs::read_to_string(path).unwrap();
        text = text.repeat(SIZE / (2 * text.len()) + 1);
        let write = |ending: &str, bytes: &[u8]| {
            let file = format!("{room}/{ending}");
            std::fs::write(&file, bytes).unwrap();
            file
        };
        let utf8 = write("utf8", text.as_bytes());
        let le: Vec<u8> = text.encode_utf16().flat_map(u16::to_le_bytes).collect();
        let be: Vec<u8> = text.encode_utf16().flat_map(u16::to_be_bytes).collect();
        for (order, utf16) in [("le", write("le", &le)), ("be", write("be", &be))] {
            for (program, place, from, to) in [("utf16_cat", 0, &utf16, &utf8), ("utf16_enc", 1, &utf8, &utf16)] {
                let mut cases = Vec::new();
                for (build, decoder) in builds.chunks_exact(2).zip(["v2", "before"]) {
                    cases.push((decoder, format!("{} {order}", build[place])));
                }
                let verb = if place == 0 { order.to_string() } else { format!("enc-{order}") };
                for (decoder, kernel, runs) in [
                    ("simdutf westmere", "westmere", true),
                    ("simdutf haswell", "haswell", is_x86_feature_detected!("avx2")),
                    ("simdutf icelake", "icelake", is_x86_feature_detected!("avx512vbmi2")),
                ] {
                    if runs {
                        cases.push((decoder, format!("SIMDUTF_FORCE_IMPLEMENTATION={kernel} {bin}/simdutf_cat {verb}")));
                    }
                }
                for (decoder, words) in &cases {
                    let made = format!("{room}/made");
                    run(words, from, File::create(&made).unwrap().into());
                    assert!(std::fs::read(&made).unwrap() == std::fs::read(to).unwrap(), "{program} {name} {order}: {decoder} differs");
                }
                cases.push(("copy", "dd bs=4096 status=none".to_string()));
                let mut best = vec![f64::MAX; cases.len()];
                for _ in 0..ROUNDS {
                    for ((_, words), best) in cases.iter().zip(&mut best) {
                        *best = best.min(run(words, from, Stdio::null()));
                    }
                }
                let size = std::fs::metadata(from).unwrap().len() as f64;
                for ((decoder, _), best) in cases.iter().zip(&best) {
                    println!("{program}\t{name}\t4 KiB\t{order}\t{decoder}\t{:.3}", size / best / 1e9);
                }
            }
        }
    }
}
