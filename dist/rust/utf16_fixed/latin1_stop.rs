// packaging/erase wrote this from crates/utf16_fixed/src/latin1_stop.rt: do not edit it.
//! Why a conversion to Latin-1 stopped.

/// Why a conversion to Latin-1 stopped.
#[derive(Clone, Copy, Debug, PartialEq, Eq)]
pub enum Latin1Stop {
    /// All of the input was read.
    Done,
    /// What was read is followed by an ill-formed sequence of this many bytes. Resume after it.
    IllFormed(u8),
    /// The input is truncated: what was read is followed by the beginning of a character. More
    /// bytes may complete it.
    Incomplete,
    /// The buffer is full, and a character that Latin-1 has follows. Call again with the rest of
    /// the input and another buffer.
    NoSpace,
    /// What was read is followed by a character above U+00FF, which Latin-1 does not have. The
    /// buffer may be full, too.
    NotLatin1,
}
