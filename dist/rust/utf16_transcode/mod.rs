// packaging/erase wrote this from crates/utf16_transcode/src/lib.rt: do not edit it.
//! Conversion between UTF-16 and UTF-8 into buffers that you own, without allocation. Each
//! direction converts up to the first ill-formed sequence, lossy with U+FFFD for each ill-formed
//! sequence, and as a stream that comes in chunks. Also the length of each result, and how many
//! ill-formed sequences are replaced.

mod ascii;
mod chars;
mod counts;
mod decode;
mod decode_lossy;
mod direction;
mod encode;
mod encode_lossy;
mod encode_stream;
mod items;
pub mod joined;
pub mod laws;
mod lossy_direction;
mod lossy_transcoding;
mod progress;
mod replacement;
mod sizes;
mod stream;
mod transcoding;
mod well_formed;

pub use crate::proved::utf16_to_utf8::put;
pub use crate::proved::utf16_transcode::counts::{from_utf8_replacements, to_utf8_replacements};
pub use crate::proved::utf16_transcode::decode::{to_utf8, ToUtf8};
pub use crate::proved::utf16_transcode::decode_lossy::{to_utf8_lossy, to_utf8_partial};
pub use crate::proved::utf16_transcode::direction::Direction;
pub use crate::proved::utf16_transcode::encode::{from_utf8, FromUtf8};
pub use crate::proved::utf16_transcode::encode_lossy::{
    from_utf8_lossy, from_utf8_lossy_len, from_utf8_partial,
};
pub use crate::proved::utf16_transcode::encode_stream::{feed_utf8, finish_utf8};
pub use crate::proved::utf16_transcode::lossy_direction::LossyDirection;
pub use crate::proved::utf16_transcode::lossy_transcoding::{transcode_lossy, transcode_partial};
pub use crate::proved::utf16_transcode::progress::{Progress, Stop};
pub use crate::proved::utf16_transcode::replacement::REPLACEMENT;
pub use crate::proved::utf16_transcode::sizes::{from_utf8_len, to_utf8_lossy_len};
pub use crate::proved::utf16_transcode::stream::{Stream, CHUNK_LEN, FEED_SLACK, SHORT_CHUNK};
pub use crate::proved::utf16_transcode::transcoding::transcode;
pub use crate::proved::utf16_transcode::well_formed::{make_well_formed, write_well_formed};
pub use crate::proved::utf16_units::Moved;
