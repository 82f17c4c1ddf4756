//! What the cases of `cases.rs` do not have: arrays, capacities, copies and ends of streams,
//! formatting, views of code units, names of files, and this machine.

use dethrux::ByteOrder::{BigEndian, LittleEndian};
use dethrux::*;
use std::mem::{self, MaybeUninit};

const ORDERS: [ByteOrder; 2] = [LittleEndian, BigEndian];
const LEADING: u16 = 0xD83D;
const TRAILING: u16 = 0xDE00;

/// The bytes of code units.
fn bytes(order: ByteOrder, units: &[u16]) -> Vec<u8> {
    let unit_bytes = |unit: &u16| match order {
        LittleEndian => unit.to_le_bytes(),
        BigEndian => unit.to_be_bytes(),
    };
    units.iter().flat_map(unit_bytes).collect()
}

/// `dethrux.h` refuses an enum that has other than four bytes, so what is passed for it has four.
#[test]
fn a_byte_order_has_the_size_of_the_enum_in_c() {
    assert_eq!(mem::size_of::<ByteOrder>(), 4);
    assert_eq!(mem::align_of::<ByteOrder>(), mem::align_of::<u32>());
}

/// Converts "a", U+1F600 and U+4E00 to arrays of a length, initialized and not.
fn fill_arrays<const N: usize>(expected: &[u8]) {
    let utf16 = b"\0a\xD8\x3D\xDE\0\x4E\0";
    let mut array = [0; N];
    assert_eq!(to_utf8(BigEndian, utf16, &mut array).written, expected.len());
    assert!(array.starts_with(expected));
    let mut array = [MaybeUninit::uninit(); N];
    assert_eq!(to_utf8(BigEndian, utf16, &mut array).written, expected.len());
    let found = array[..expected.len()].iter();
    assert!(found.map(|byte| unsafe { byte.assume_init() }).eq(expected.iter().copied()));
}

#[test]
fn arrays_of_each_length_are_filled() {
    fill_arrays::<0>(b"");
    fill_arrays::<1>(b"a");
    fill_arrays::<4>(b"a");
    fill_arrays::<5>("a\u{1F600}".as_bytes());
    fill_arrays::<8>("a\u{1F600}\u{4E00}".as_bytes());
    fill_arrays::<9>("a\u{1F600}\u{4E00}".as_bytes());
}

#[test]
fn some_input_needs_each_capacity() {
    for len in 0..9 {
        let (wide, utf32) = (&[0x61; 9][..len], &[0x1F600; 9][..len]);
        assert_eq!(to_utf8_max_len(len), 3 * ((len + 1) / 2));
        assert_eq!(to_utf8_max_len(len), to_utf8_lossy_len(BigEndian, wide));
        assert_eq!(from_utf8_max_len(len), from_utf8_lossy_len(wide));
        assert_eq!(to_utf32_max_len(len), to_utf32_lossy_len(BigEndian, wide));
        assert_eq!(from_utf32_max_len(len), from_utf32_lossy_len(utf32));
        assert_eq!(to_wtf8_max_len(len), to_wtf8_len(BigEndian, wide));
    }
    for max_len in [
        to_utf8_max_len,
        from_utf8_max_len,
        from_utf32_max_len,
        to_wtf8_max_len,
        Decoder::max_len,
        Encoder::max_len,
        Wtf8Decoder::max_len,
        Wtf8Encoder::max_len,
    ] {
        for len in [usize::MAX - 1, usize::MAX] {
            assert_eq!(max_len(len), usize::MAX);
        }
    }
    assert_eq!(to_utf32_max_len(usize::MAX), usize::MAX / 2 + 1);
}

#[test]
fn some_chunk_needs_the_capacity_of_a_feed() {
    for (order, wide) in ORDERS.map(|order| (order, bytes(order, &[0x4E00; 5]))) {
        let pair = bytes(order, &[LEADING, TRAILING]);
        for len in [1, 3, 5, 7] {
            let (mut decoder, mut text) = (Decoder::new(order), String::new());
            decoder.decode(&[&pair[..2], &wide[..1]].concat(), &mut text);
            decoder.decode(&wide[1..=len], &mut text);
            assert_eq!(text.len(), Decoder::max_len(len));
        }
        for len in 1..9 {
            let (mut encoder, mut utf16) = (Encoder::new(order), Vec::new());
            encoder.encode(b"\xF0\x9F\x98", &mut utf16);
            encoder.encode(&b"aaaaaaaa"[..len], &mut utf16);
            assert_eq!(utf16.len(), Encoder::max_len(len));
        }
    }
}

#[test]
fn a_byte_order_mark_has_two_bytes() {
    let bom = |len, byte_order| Some(Bom { len, byte_order });
    for default in ORDERS {
        for short in [&b""[..], b"a", b"\xFE", b"\xFF"] {
            assert_eq!(detect_bom(short, default), None);
        }
        assert_eq!(detect_bom(b"\xFF\xFE", default), bom(2, LittleEndian));
        assert_eq!(detect_bom(b"\xFE\xFFa", default), bom(2, BigEndian));
        for other in [b"\xFE\xFE", b"\xFF\xFF", b"a\xFE", b"\xFFa"] {
            assert_eq!(detect_bom(other, default), bom(0, default));
        }
    }
}

#[test]
fn a_copy_of_a_stream_continues_independently() {
    for (order, len) in [(LittleEndian, 1), (BigEndian, 2), (BigEndian, 3)] {
        let utf16 = bytes(order, &[LEADING, TRAILING]);
        let (mut decoder, mut text) = (Decoder::new(order), String::new());
        decoder.decode(&utf16[..len], &mut text);
        let mut copy = decoder.clone();
        copy.decode(&utf16[len..], &mut text);
        assert_eq!(text, "\u{1F600}");
        assert_eq!((copy.pending().len(), decoder.pending().len()), (0, len));
        assert_eq!((copy.finish(), decoder.finish()), (None, Some('\u{FFFD}')));
    }
}

#[cfg(unix)]
#[test]
fn file_names_are_wtf8() {
    use std::os::unix::ffi::{OsStrExt, OsStringExt};
    let name = os_string_from_units(&[0x61, 0xD83D, 0x62]);
    assert_eq!(name.as_bytes(), b"a\xED\xA0\xBDb");
    let other = std::ffi::OsString::from_vec(b"a\xFF".to_vec());
    assert_eq!(units_from_os_str(&other).unwrap_err().valid_up_to(), 1);
}

#[test]
fn a_copy_of_a_stream_of_wtf8_continues_independently() {
    let (mut decoder, mut to) = (Wtf8Decoder::new(BigEndian), [0; 4]);
    assert_eq!(decoder.feed(b"\xD8\x3D", &mut to).written, 0);
    let mut copy = decoder.clone();
    assert_eq!(copy.feed(b"\xDE\0", &mut to).written, 4);
    assert_eq!((copy.pending(), decoder.pending()), (&b""[..], &b"\xD8\x3D"[..]));
    assert_eq!(copy.finish(&mut to).written, 0);
    assert_eq!(decoder.finish(&mut to).written, 3);
}

#[test]
fn a_stream_whose_end_does_not_fit_ends_later() {
    let (mut decoder, mut to) = (Wtf8Decoder::new(BigEndian), [0; 9]);
    assert_eq!(decoder.feed(b"\xD8\x3D", &mut to).written, 0);
    assert_eq!(decoder.finish(&mut [0; 2]).status, Status::NoSpace);
    assert_eq!(decoder.pending(), b"\xD8\x3D");
    assert_eq!(decoder.finish(&mut to).written, 3);
    assert_eq!(decoder.pending(), b"");

    let mut encoder = Wtf8Encoder::new(BigEndian);
    assert_eq!(encoder.feed(b"\xED\xA0\xBD", &mut to).written, 0);
    assert_eq!(encoder.finish(&mut [0; 1]).status, Status::NoSpace);
    assert_eq!(encoder.finish(&mut to).written, 2);
    assert_eq!(encoder.discard(), 0);
}

#[test]
fn some_chunk_of_wtf8_needs_the_capacity_of_a_feed() {
    assert_eq!([0, 1, 2, 3].map(Wtf8Decoder::max_len), [3, 6, 6, 9]);
    let (mut decoder, mut to) = (Wtf8Decoder::new(BigEndian), [0; 9]);
    assert_eq!(decoder.feed(b"\xD8\x3D\x26", &mut to).written, 0);
    assert_eq!(decoder.feed(b"\x05", &mut to).written, Wtf8Decoder::max_len(1));
    // A pending surrogate and a letter have all the bytes that suffice, less the two of a pair.
    let mut encoder = Wtf8Encoder::new(BigEndian);
    assert_eq!(encoder.feed(b"\xED\xA0\xBD", &mut to).written, 0);
    let written = encoder.feed(b"a", &mut to).written;
    assert_eq!(written, Wtf8Encoder::max_len(1) - 2);
}

/// A writer that takes some texts and then fails.
struct Full(usize);

impl std::fmt::Write for Full {
    fn write_str(&mut self, text: &str) -> std::fmt::Result {
        self.0 = self.0.checked_sub(text.len()).ok_or(std::fmt::Error)?;
        Ok(())
    }
}

#[test]
fn display_returns_an_error_and_ignores_width() {
    let utf16 = encode(BigEndian, &"a".repeat(600));
    for (space, is_enough) in [(0, false), (300, false), (599, false), (600, true)] {
        let shown =
            std::fmt::write(&mut Full(space), format_args!("{}", display(BigEndian, &utf16)));
        assert_eq!(shown.is_ok(), is_enough);
    }
    let shown = format!("<{:*>9}>", display(LittleEndian, b"h\0i\0"));
    assert_eq!(shown, "<hi>");
}

#[test]
fn units_are_bytes_in_the_byte_order_of_the_machine() {
    let mut units = [0x61, 0x1234, LEADING];
    let expected: Vec<u8> = units.iter().flat_map(|unit| unit.to_ne_bytes()).collect();
    assert_eq!(units_as_bytes(&units), expected);
    assert_eq!(bytes(ByteOrder::NATIVE, &units), expected);
    units_as_bytes_mut(&mut units)[5] = 0;
    assert_eq!(units_as_bytes_mut(&mut units).len(), 6);
    assert_eq!(units[..2], [0x61, 0x1234]);
    assert_eq!(units[2].to_ne_bytes(), [expected[4], 0]);
    assert_eq!(units_as_bytes(&[]), b"");
    assert_eq!(units_as_bytes_mut(&mut []), b"");
}

#[test]
fn the_version_is_that_of_the_crate() {
    let (major, minor, patch) = version();
    assert_eq!(format!("{major}.{minor}.{patch}"), env!("CARGO_PKG_VERSION"));
}

#[test]
fn the_kernel_is_that_of_the_processor() {
    // Rust 1.63 cannot ask for movbe, so it is not among these.
    #[cfg(target_arch = "x86_64")]
    let name = {
        let has_v3 = is_x86_feature_detected!("avx2")
            && is_x86_feature_detected!("bmi1")
            && is_x86_feature_detected!("bmi2")
            && is_x86_feature_detected!("f16c")
            && is_x86_feature_detected!("fma")
            && is_x86_feature_detected!("lzcnt");
        ["x86-64-v2", "x86-64-v3"][usize::from(has_v3)]
    };
    #[cfg(not(target_arch = "x86_64"))]
    let name = std::env::consts::ARCH;
    assert_eq!(kernel(), if cfg!(feature = "pure") { "rust" } else { name });
}
