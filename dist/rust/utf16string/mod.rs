// packaging/erase wrote this from crates/utf16string/src/lib.rt: do not edit it.
//! UTF-16 strings in either byte order: `WStr` and `WString` are to UTF-16 bytes what `str` and
//! `String` are to UTF-8.
//!
//! This crate holds the owned string. It re-exports the views of `utf16_str` and the byte orders,
//! so that you need to name only this crate.

mod retain;
mod retain_blocks;
mod wstring;

pub use crate::proved::utf16_str::{
    BigEndian, LittleEndian, ParseError, Pattern, SliceIndex, Utf16Error, Utf16Order, WStr,
    WStrCharIndices, WStrChars, WStrLines, WStrMatchIndices, WStrMatches, WStrMut,
    WStrRMatchIndices, WStrRSplit, WStrRSplitN, WStrSplit, WStrSplitAsciiWhitespace,
    WStrSplitInclusive, WStrSplitN, WStrSplitTerminator, WStrSplitWhitespace, WStrSplitWith, BE,
    LE,
};
pub use crate::proved::utf16string::wstring::WString;
