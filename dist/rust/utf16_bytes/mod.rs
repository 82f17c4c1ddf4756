// packaging/erase wrote this from crates/utf16_bytes/src/lib.rt: do not edit it.
//! Any bytes as UTF-16, well formed or not, without conversion to another encoding: the byte order
//! swapped in place, the order of two texts, how many characters there are, where bytes may be cut
//! so that the parts decode to the parts of the text, and where a pattern or a character occurs
//! first or last. `Pattern` is what a search looks for: a character, or a view of `utf16_str`.

mod backwards;
mod boundary;
mod bytes;
mod char_pattern;
pub mod cut_laws;
mod file;
mod first;
mod forwards;
#[path = "nul_.rs"]
mod nul;
mod order;
mod pattern;
mod repeats;
pub mod search_laws;
mod shards;
mod swap;
mod units;

pub use crate::proved::utf16_bytes::backwards::{rfind, rfind_char};
pub use crate::proved::utf16_bytes::boundary::{floor_char_boundary, is_char_boundary};
pub use crate::proved::utf16_bytes::file::floor_char_boundary_around;
pub use crate::proved::utf16_bytes::forwards::{find, find_char};
pub use crate::proved::utf16_bytes::nul::nul_offset;
pub use crate::proved::utf16_bytes::order::compare;
pub use crate::proved::utf16_bytes::pattern::Pattern;
pub use crate::proved::utf16_bytes::shards::shard_offset;
pub use crate::proved::utf16_bytes::swap::swap_byte_order;
pub use crate::proved::utf16_bytes::units::{count_chars, is_ascii};
