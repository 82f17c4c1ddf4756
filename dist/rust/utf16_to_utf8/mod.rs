// packaging/erase wrote this from crates/utf16_to_utf8/src/lib.rt: do not edit it.
//! The kernel from UTF-16 to UTF-8, with SIMD: the length, writers into a buffer that you own, and
//! a text's bytes in a new `String` or appended to one.

mod append;
mod blocks;
mod chars;
mod groups;
mod lanes;
pub mod laws;
mod lens;
mod pack;
mod padded;
mod places;
mod runs;
mod short;
mod vectors;
mod word_places;
mod write;

pub use crate::proved::utf16_to_utf8::append::{append_utf8, to_utf8};
pub use crate::proved::utf16_to_utf8::chars::{put, put_char};
pub use crate::proved::utf16_to_utf8::lens::utf8_len;
pub use crate::proved::utf16_to_utf8::short::write_eight_ascii;
pub use crate::proved::utf16_to_utf8::vectors::write_vectors;
pub use crate::proved::utf16_to_utf8::write::{write_blocks, write_utf8, SLACK};
