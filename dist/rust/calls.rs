// packaging/erase wrote this from packaging/erase.toml: do not edit it.

pub(crate) mod byteorder;
pub(crate) mod dethrux;
pub(crate) mod utf16_fixed;
pub(crate) mod utf16_transcode;
pub(crate) mod utf16_wtf8;
pub(crate) mod utf8_bytes;
