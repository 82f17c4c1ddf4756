// packaging/erase wrote this from crates/utf16_transcode/src/progress.rt: do not edit it.
//! How much a call read and wrote, and why it stopped.

/// Why a call stopped.
#[derive(Clone, Copy, Debug, PartialEq, Eq)]
pub enum Stop {
    /// All of the input was read.
    Done,
    /// What was read is followed by an ill-formed sequence of this many bytes. Resume after it.
    IllFormed(u8),
    /// The input is truncated: what was read is followed by the beginning of a character. More
    /// bytes may complete it.
    Incomplete,
    /// The buffer has less space left than the next item takes: a character, or U+FFFD. Call again
    /// with the rest of the input and another buffer.
    NoSpace,
}

/// How much a call read and wrote, and why it stopped. Offsets and lengths are in bytes. `S` is the
/// type of the reasons: `Stop`, unless a call can stop for others.
#[derive(Clone, Copy, Debug, PartialEq, Eq)]
pub struct Progress<S = Stop> {
    /// The number of bytes of the input that were read: whole characters, in a lossy call the
    /// ill-formed sequences among them, and in `feed` the bytes that are pending now.
    pub read: usize,
    /// The number of bytes at the start of the buffer that hold what was read, in the other
    /// encoding. The bytes after them are unspecified.
    pub written: usize,
    /// Why the call stopped.
    pub stop: S,
}
