// packaging/erase wrote this from crates/utf8_bytes/src/lib.rt: do not edit it.
//! Any bytes as UTF-8: their split into characters, ill-formed subparts and a tail, and where they
//! may be cut so that the parts decode to the parts of the text.

mod boundary;
pub mod cut_laws;
pub mod laws;

pub use crate::proved::utf8_bytes::boundary::{
    floor_char_boundary, is_char_boundary, is_continuation,
};
