// packaging/erase wrote this from crates/utf16_transcode/src/encode_lossy.rt: do not edit it.
//! UTF-8 to UTF-16, lossy: with U+FFFD for each ill-formed sequence.

use crate::proved::utf16_from_utf8::write_blocks;
use crate::proved::utf16_to_utf8::put;
use crate::proved::utf16_transcode::direction::BLOCK_LEN;
use crate::proved::utf16_transcode::encode::FromUtf8;
use crate::proved::utf16_transcode::items::{write_items, ITEM_LEN};
use crate::proved::utf16_transcode::lossy_direction::LossyDirection;
use crate::proved::utf16_transcode::lossy_transcoding::{transcode_lossy, transcode_partial};
use crate::proved::utf16_transcode::progress::Progress;
use crate::proved::utf16_transcode::replacement::REPLACEMENT_UNIT;
use crate::proved::utf16_transcode::sizes::is_text_within_block;
use crate::proved::utf16_units::{utf16_len, Moved, Utf16Order};

// The length of U+FFFD in bytes of UTF-16.
const REPLACEMENT_LEN: usize = 2;

/// Writes the text of UTF-8 in UTF-16 to the start of a buffer, as far as whole characters fit: the
/// characters, and U+FFFD for each ill-formed sequence, one for each maximal subpart. An incomplete
/// character at the end is not read. Any bytes are allowed. Bytes of the buffer after the written
/// ones may have been overwritten.
///
/// # Complexity
///
/// Linear time in the number of bytes read.
///
/// Proved:
///
/// - ensures decodes: `DecodesUtf8To E.BIG text.now to.new result.read result.written`
/// - ensures stop: `StopsPartial utf8_split (char_bytes E.BIG) (drop result.read text.now) (length
///   to.new - result.written) result.stop`
pub fn from_utf8_partial<E: Utf16Order>(text: &[u8], to: &mut [u8]) -> Progress {
    transcode_partial::<FromUtf8<E>>(text, to)
}

// Writes U+FFFD for the first `len` bytes of the text, an ill-formed sequence, and the text of
// bytes after it.
//
// Proved:
//
// - requires ill_formed: `FirstItem text.now 0xFFFD len`
// - requires space: `2 ≤ length to.old`
// - ensures decodes: `DecodesUtf8To E.BIG text.now to.new result.read result.written`
// - ensures sequence: `len ≤ result.read`
fn write_replacement_and_more<E: Utf16Order>(text: &[u8], len: usize, to: &mut [u8]) -> Moved {
    let written = put(&E::write_unit(REPLACEMENT_UNIT), to, 0);
    let more = write_after_ill_formed::<E>(&text[len..], &mut to[written..]);
    Moved {
        read: len + more.read,
        written: written + more.written,
    }
}

// Writes the text of bytes that follow an ill-formed sequence: in turn items, up to some
// well-formed characters, and blocks, up to the next ill-formed sequence, as long as a block may
// follow.
//
// Proved:
//
// - ensures `DecodesUtf8To E.BIG text.now to.new result.read result.written`
fn write_after_ill_formed<E: Utf16Order>(text: &[u8], to: &mut [u8]) -> Moved {
    let Moved {
        mut read,
        mut written,
    } = write_items::<E>(text, to);
    while text.len() - read >= BLOCK_LEN && to.len() - written >= 2 * BLOCK_LEN {
        let blocks = write_blocks::<E>(&text[read..], &mut to[written..]);
        read += blocks.read;
        written += blocks.written;
        if text.len() - read < ITEM_LEN || to.len() - written < ITEM_LEN {
            break;
        }
        let items = write_items::<E>(&text[read..], &mut to[written..]);
        read += items.read;
        written += items.written;
    }
    Moved { read, written }
}

/// Writes the whole text of UTF-8 in UTF-16 to the start of a buffer, as far as whole characters
/// fit, with U+FFFD for each ill-formed sequence: one for each maximal subpart, and one for an
/// incomplete character at the end. Any bytes are allowed. It stops at the end of the input, or
/// with `NoSpace` if the buffer has fewer bytes left than the next character or U+FFFD takes: call
/// again with the input after `read` and another buffer. Bytes of the buffer after the written ones
/// may have been overwritten.
///
/// # Complexity
///
/// Linear time in the number of bytes read.
///
/// # Source
///
/// `String::from_utf8_lossy` replaces the same sequences.
///
/// Proved:
///
/// - ensures shown: `WritesWhole text_of_utf8 (char_bytes E.BIG) text.now to.new result.read
///   result.written`
/// - ensures stop: `StopsLossy text_of_utf8 (char_bytes E.BIG) (drop result.read text.now) (length
///   to.new - result.written) result.stop`
/// - ensures between: `take result.written to.new ≡ flat_map (char_bytes E.BIG) (text_of_utf8 (take
///   result.read text.now))`
pub fn from_utf8_lossy<E: Utf16Order>(text: &[u8], to: &mut [u8]) -> Progress {
    transcode_lossy::<FromUtf8<E>>(text, to)
}

impl<E: Utf16Order> LossyDirection for FromUtf8<E> {
    type Text = Self;

    #[inline(always)]
    fn lossy_laws() {}

    #[inline(always)]
    fn write_ill_formed(input: &[u8], len: u8, to: &mut [u8]) -> Option<Moved> {
        if to.len() < REPLACEMENT_LEN {
            return None;
        }
        Some(write_replacement_and_more::<E>(input, len as usize, to))
    }

    #[inline(always)]
    fn write_end(tail: &[u8], to: &mut [u8], at: usize) -> Option<usize> {
        if tail.is_empty() {
            return Some(at);
        }
        if to.len() - at < REPLACEMENT_LEN {
            return None;
        }
        Some(put(&E::write_unit(REPLACEMENT_UNIT), to, at))
    }
}

/// Returns the length in bytes of the output of `from_utf8_lossy` for the whole input, in either
/// byte order: at most two for each byte of input. Any bytes are allowed.
///
/// # Complexity
///
/// Two passes, and at most two more if the bytes are not UTF-8.
///
/// Proved:
///
/// - ensures size: `result ≡ size (text_of_utf8 text.now)`
/// - ensures most: `result ≤ 2 * length text.now`
pub fn from_utf8_lossy_len(text: &[u8]) -> usize {
    if is_text_within_block(text) {
        return utf16_len(unsafe { core::str::from_utf8_unchecked(text) });
    }
    if let Ok(text) = crate::proved::simdutf8::compat::from_utf8(text) {
        return utf16_len(text);
    }
    let mut size = 0;
    for chunk in text.utf8_chunks() {
        size += utf16_len(chunk.valid());
        if !chunk.invalid().is_empty() {
            size += REPLACEMENT_LEN;
        }
    }
    size
}
