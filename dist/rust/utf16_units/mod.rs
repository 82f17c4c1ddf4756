// packaging/erase wrote this from crates/utf16_units/src/lib.rt: do not edit it.
//! UTF-16 code units and bytes: byte orders, surrogates, one character, the validator and its
//! error.

pub mod blocks;
mod byte_order;
mod char;
pub mod compare;
pub mod ends;
mod error;
pub mod index_rows;
pub mod laws;
mod moved;
pub mod plain;
pub mod size;
pub mod strategy;
pub mod surrogates;
pub mod text;
mod unit;
mod validate;

pub use crate::proved::utf16_units::byte_order::{
    bom_of, BigEndian, LittleEndian, Utf16Order, BE, LE,
};
pub use crate::proved::utf16_units::char::Utf16CharExt;
pub use crate::proved::utf16_units::error::{Detail, Utf16Error};
pub use crate::proved::utf16_units::moved::Moved;
pub use crate::proved::utf16_units::size::utf16_len;
pub use crate::proved::utf16_units::unit::{
    decode_surrogates, is_leading_surrogate, is_trailing_surrogate,
};
pub use crate::proved::utf16_units::validate::{first_char_len, validate_raw_utf16};

pub(crate) use self::index_rows::index_rows;
