// packaging/erase wrote this from crates/utf16_fixed/src/repertoire.rt: do not edit it.
//! The repertoires that `inspect` tells apart.

/// A repertoire of characters. Each contains the ones before it.
#[derive(Clone, Copy, Debug, PartialEq, Eq, PartialOrd, Ord)]
pub enum Repertoire {
    /// ASCII, U+0000 to U+007F: each character fits in seven bits.
    Ascii,
    /// Latin-1 (ISO 8859-1), U+0000 to U+00FF: each character fits in one byte.
    Latin1,
    /// The Basic Multilingual Plane, U+0000 to U+FFFF: each character fits in one code unit of
    /// UTF-16.
    Bmp,
    /// All of Unicode, U+0000 to U+10FFFF: a character takes one or two code units of UTF-16.
    Unicode,
}
