// packaging/erase wrote this from crates/utf16_units/src/moved.rt: do not edit it.
//! The progress of a writer.

/// How many bytes were read from one encoding and written in the other.
#[derive(Clone, Copy)]
pub struct Moved {
    /// The number of bytes of the input that were read.
    pub read: usize,
    /// The number of bytes at the start of the buffer that are written.
    pub written: usize,
}
