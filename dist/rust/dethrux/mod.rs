// packaging/erase wrote this from crates/dethrux/src/lib.rt: do not edit it.
//! UTF-16 for callers in C, and in any language that can call C; `include/dethrux.h` documents the
//! calls. They only call functions of the crates below, in the byte order that they are passed,
//! except the calls for the BOM and the version. A slice is a pointer and a length in bytes in C.
//! No call allocates, and none has a precondition on the bytes.

mod bom;
mod boundary;
mod byte_order;
mod decoder;
mod encoder;
mod find;
mod from_utf8;
mod in_place;
mod inspect;
mod latin1;
#[path = "nul_.rs"]
mod nul;
mod order;
mod results;
mod to_utf8;
mod utf32;
mod validate;
mod version;
mod wtf8;
mod wtf8_encoder;

pub use self::bom::*;
pub use self::boundary::*;
pub use self::byte_order::*;
pub use self::decoder::*;
pub use self::encoder::*;
pub use self::find::*;
pub use self::from_utf8::*;
pub use self::in_place::*;
pub use self::inspect::*;
pub use self::latin1::*;
pub use self::nul::*;
pub use self::order::*;
pub use self::results::*;
pub use self::to_utf8::*;
pub use self::utf32::*;
pub use self::validate::*;
pub use self::version::*;
pub use self::wtf8::*;
pub use self::wtf8_encoder::*;
