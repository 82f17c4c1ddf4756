// packaging/erase wrote this from crates/utf16_fixed/src/lib.rt: do not edit it.
//! Conversion between UTF-16 in either byte order and the encodings that have one code unit for
//! each character, into buffers that you own, without allocation: UTF-32 in the machine's byte
//! order, up to the first ill-formed sequence or lossy with U+FFFD for each, and Latin-1 (ISO
//! 8859-1), whose bytes are the characters U+0000 to U+00FF. Also the length of each lossy result,
//! a validator of UTF-32, and what kind of text bytes are.
//!
//! A `Progress` counts units of either side: bytes of UTF-16, and code units of UTF-32.

mod basic;
mod blocks;
mod chars;
mod decode;
mod decode_lossy;
mod encode;
mod encode_lossy;
mod lanes;
mod latin1_stop;
mod narrow;
mod pairs;
mod plain;
mod repertoire;
mod scan;
mod stores;
mod validate;
mod widen;

pub use crate::proved::utf16_fixed::decode::to_utf32;
pub use crate::proved::utf16_fixed::decode_lossy::{to_utf32_lossy, to_utf32_lossy_len};
pub use crate::proved::utf16_fixed::encode::from_utf32;
pub use crate::proved::utf16_fixed::encode_lossy::{from_utf32_lossy, from_utf32_lossy_len};
pub use crate::proved::utf16_fixed::latin1_stop::Latin1Stop;
pub use crate::proved::utf16_fixed::narrow::to_latin1;
pub use crate::proved::utf16_fixed::repertoire::Repertoire;
pub use crate::proved::utf16_fixed::scan::{inspect, Inspection};
pub use crate::proved::utf16_fixed::validate::validate_utf32;
pub use crate::proved::utf16_fixed::widen::from_latin1;
pub use crate::proved::utf16_transcode::{Progress, Stop};
