// packaging/erase wrote this from crates/utf16_wtf8/src/lib.rt: do not edit it.
//! UTF-16 with unpaired surrogates to WTF-8 and back, without loss, between buffers that the caller
//! owns. WTF-8 is UTF-8 that may also have unpaired surrogates, three bytes each: "The WTF-8
//! encoding" by Simon Sapin.

mod code_point;
mod decode;
mod direction;
mod encode;
pub mod laws;
mod sizes;
mod stream;

pub use crate::proved::utf16_wtf8::decode::{finish_wtf8, to_wtf8, to_wtf8_partial};
pub use crate::proved::utf16_wtf8::direction::ToWtf8;
pub use crate::proved::utf16_wtf8::encode::{from_wtf8, from_wtf8_partial};
pub use crate::proved::utf16_wtf8::sizes::{from_wtf8_len, to_wtf8_len};
pub use crate::proved::utf16_wtf8::stream::Wtf8Stream;
