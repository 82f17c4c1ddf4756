//! The crate `dethrux-utf16string` under the name of the original.

pub use ours::*;
