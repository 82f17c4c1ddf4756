// packaging/erase wrote this from crates/utf16_from_utf8/src/lib.rt: do not edit it.
//! Conversion of UTF-8 to UTF-16 with SIMD. It validates bytes while it writes them, sixty-four at
//! a time, or sixteen if few are left.

mod append;
mod ascii;
mod block;
mod blocks;
mod chars;
mod faults;
mod lanes;
mod limits;
mod pack;
mod positions;
mod read;
mod rest;
mod short;
mod sixteen;
mod text;
mod threes;
mod units;
mod valid;

pub use crate::proved::utf16_from_utf8::append::{append_utf16, extend_utf16};
pub use crate::proved::utf16_from_utf8::ascii::write_ascii_block;
pub use crate::proved::utf16_from_utf8::blocks::write_blocks;
pub use crate::proved::utf16_from_utf8::pack::write_kept;
pub use crate::proved::utf16_from_utf8::text::{write_prefix, write_text, SLACK};
pub use crate::proved::utf16_from_utf8::valid::is_text;
