//! What the calls return.

use crate::{ffi, Utf16Error};
use Repertoire::{Ascii, Bmp, Latin1, Unicode};

/// Why a call stopped.
#[derive(Clone, Copy, Debug, Eq, PartialEq)]
#[non_exhaustive]
pub enum Status {
    /// All of the input was read.
    Done,
    /// What was read is followed by an ill-formed sequence of this many bytes, or code units of
    /// UTF-32. Resume after it.
    IllFormed(usize),
    /// The input ends inside a character.
    Incomplete,
    /// The next character does not fit. Call again with the rest.
    NoSpace,
    /// The next character is above U+00FF. Only [`to_latin1`](crate::to_latin1) returns this.
    NotLatin1,
}

/// How far a call came. Both numbers count bytes, or code units of UTF-32, and both ends are
/// between characters.
#[derive(Clone, Copy, Debug, Eq, PartialEq)]
pub struct Progress {
    /// How much of the input was read.
    pub read: usize,
    /// How much was written to the start of the buffer.
    pub written: usize,
    /// Why the call stopped.
    pub status: Status,
}

impl From<ffi::Progress> for Progress {
    fn from(raw: ffi::Progress) -> Self {
        let status = match raw.status {
            0 => Status::Done,
            1 => Status::IllFormed(raw.error_len as usize),
            2 => Status::Incomplete,
            3 => Status::NoSpace,
            _ => Status::NotLatin1,
        };
        Progress { read: raw.read, written: raw.written, status }
    }
}

/// A repertoire, a set of characters. Each contains the ones before it.
#[derive(Clone, Copy, Debug, Eq, Hash, Ord, PartialEq, PartialOrd)]
pub enum Repertoire {
    /// U+0000 to U+007F.
    Ascii,
    /// U+0000 to U+00FF, ISO 8859-1.
    Latin1,
    /// U+0000 to U+FFFF, the Basic Multilingual Plane: no surrogate pair.
    Bmp,
    /// U+0000 to U+10FFFF, all characters.
    Unicode,
}

/// The longest well-formed prefix, what characters it has, and what follows it.
#[derive(Clone, Copy, Debug, Eq, PartialEq)]
#[non_exhaustive]
pub struct Inspection {
    /// The length of the longest well-formed prefix, in bytes.
    pub valid_up_to: usize,
    /// The number of its characters.
    pub chars: usize,
    /// The smallest repertoire that has all of them.
    pub repertoire: Repertoire,
    /// What [`validate`](crate::validate) returns: the error about what follows the prefix, or
    /// `None` if nothing does.
    pub error: Option<Utf16Error>,
}

impl From<ffi::Inspection> for Inspection {
    fn from(raw: ffi::Inspection) -> Self {
        Inspection {
            valid_up_to: raw.valid_up_to,
            chars: raw.chars,
            repertoire: [Ascii, Latin1, Bmp, Unicode][raw.repertoire as usize],
            error: Utf16Error::of(raw.valid_up_to, raw.status, raw.error_len),
        }
    }
}
