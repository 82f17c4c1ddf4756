// packaging/erase wrote this from packaging/erase.toml: do not edit it.

pub(crate) mod utf16_str;
pub(crate) mod utf16string;
