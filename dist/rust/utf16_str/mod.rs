// packaging/erase wrote this from crates/utf16_str/src/lib.rt: do not edit it.
//! Views of UTF-16 strings in either byte order: `WStr` is what `&str` is for UTF-8, and `WStrMut`,
//! which can be overwritten, what `&mut str` is.

mod affixes;
mod ascii;
mod ascii_whitespace;
mod find_with;
mod iters;
mod lines;
mod matches;
mod parse;
mod parts;
mod remaining;
mod search;
mod slicing;
mod split;
mod split_with;
mod splitn;
mod terminators;
mod trim;
mod trim_matches;
mod trim_with;
mod utf8;
mod words;
mod wstr;
mod wstr_mut;

pub use crate::proved::utf16_bytes::Pattern;
pub use crate::proved::utf16_str::iters::{WStrCharIndices, WStrChars};
pub use crate::proved::utf16_str::lines::WStrLines;
pub use crate::proved::utf16_str::matches::{WStrMatchIndices, WStrMatches, WStrRMatchIndices};
pub use crate::proved::utf16_str::parse::ParseError;
pub use crate::proved::utf16_str::slicing::SliceIndex;
pub use crate::proved::utf16_str::split::{WStrRSplit, WStrSplit};
pub use crate::proved::utf16_str::split_with::WStrSplitWith;
pub use crate::proved::utf16_str::splitn::{WStrRSplitN, WStrSplitN};
pub use crate::proved::utf16_str::terminators::{WStrSplitInclusive, WStrSplitTerminator};
pub use crate::proved::utf16_str::words::{WStrSplitAsciiWhitespace, WStrSplitWhitespace};
pub use crate::proved::utf16_str::wstr::WStr;
pub use crate::proved::utf16_str::wstr_mut::WStrMut;
pub use crate::proved::utf16_to_utf8::{append_utf8, to_utf8};
pub use crate::proved::utf16_units::{BigEndian, LittleEndian, Utf16Error, Utf16Order, BE, LE};
