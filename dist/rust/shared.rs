// packaging/erase wrote this from packaging/erase.toml: do not edit it.

pub(crate) mod kit;
pub(crate) mod simd;
pub(crate) mod utf16_bytes;
pub(crate) mod utf16_from_utf8;
pub(crate) mod utf16_to_utf8;
pub(crate) mod utf16_units;
