// packaging/erase wrote this from crates/utf16_transcode/src/items.rt: do not edit it.
//! UTF-8 item by item: each is a character or a maximal subpart of an ill-formed subsequence.
//!
//! After an ill-formed sequence the next one is probably near, and a strict call for each takes
//! seven times as long on random bytes. ASCII is written sixteen bytes at once, and what follows it
//! is overwritten.

use crate::proved::simd::*;
use crate::proved::utf16_from_utf8::write_ascii_block;
use crate::proved::utf16_transcode::ascii::ascii_len;
use crate::proved::utf16_transcode::encode::{first_utf8_char, write_char};
use crate::proved::utf16_units::{Moved, Utf16Order};

// The number of characters in a row, none of them U+FFFD, that ends the loop over items. What
// follows is probably well formed too, and converting many at once takes less time. ASCII that is
// written at once counts as two.
const RUN: usize = 16;

/// The most bytes that an item has, in either encoding.
pub(crate) const ITEM_LEN: usize = 4;

/// Writes the text of the next bytes of UTF-8 in UTF-16 to the start of a buffer, with U+FFFD for
/// each ill-formed sequence. It ends after some well-formed characters, or when fewer than four
/// bytes are left of the input or of the buffer.
///
/// Proved:
///
/// - ensures decodes: `DecodesUtf8To E.BIG text.now to.new result.read result.written`
/// - ensures advances: `ITEM_LEN ≤ length text.now → ITEM_LEN ≤ length to.old → 0 < result.read`
pub(crate) fn write_items<E: Utf16Order>(text: &[u8], to: &mut [u8]) -> Moved {
    let mut read = 0;
    let mut written = 0;
    let mut run = 0;
    while run < RUN && text.len() - read >= ITEM_LEN && to.len() - written >= ITEM_LEN {
        let step = write_items_once::<E>(&text[read..], &mut to[written..]);
        read += step.read;
        written += step.written;
        run = if step.run == 0 { 0 } else { run + step.run };
    }
    Moved { read, written }
}

// How many bytes a step read and wrote, and what it adds to the run: nothing if it wrote U+FFFD,
// which ends the run.
#[derive(Clone, Copy)]
struct Step {
    read: usize,
    written: usize,
    run: usize,
}

// Writes the ASCII at the start of the bytes, at most sixteen of them, or else the first item, in
// UTF-16 to the start of a buffer.
//
// Proved:
//
// - requires bytes: `ITEM_LEN ≤ length text.now`
// - requires space: `ITEM_LEN ≤ length to.old`
// - ensures decodes: `DecodesUtf8To E.BIG text.now to.new result.read result.written`
// - ensures advances: `0 < result.read`
// - ensures run: `result.run ≤ 2`
#[inline(always)]
fn write_items_once<E: Utf16Order>(text: &[u8], to: &mut [u8]) -> Step {
    let ascii = write_some_ascii::<E>(text, to);
    if ascii > 0 {
        return Step {
            read: ascii,
            written: 2 * ascii,
            run: 2,
        };
    }
    let (c, len) = first_item(text);
    Step {
        read: len,
        written: write_char::<E>(c, to, 0),
        run: (c != char::REPLACEMENT_CHARACTER) as usize,
    }
}

// Writes all ASCII at the start of the first sixteen bytes in UTF-16 to the start of a buffer, and
// returns how many bytes it read. It reads none if fewer than four of them are ASCII, if the input
// has fewer than sixteen bytes, or if the buffer has fewer than 32. The bytes of the buffer after
// the written ones may be overwritten.
//
// Proved:
//
// - ensures wrote: `Writes (TranscodesToUtf16 E.BIG) text.now to.new result (2 * result)`
// - ensures most: `0 < result → result < 16 → 0x80 ≤ slice_index text.now result`
// - ensures len: `length to.new ≡ length to.old`
#[inline(always)]
fn write_some_ascii<E: Utf16Order>(text: &[u8], to: &mut [u8]) -> usize {
    if text.len() < 16 || to.len() < 32 {
        return 0;
    }
    let block = u8x16::from_slice(text);
    let len = ascii_len(block);
    // In random bytes about half are ASCII, but rarely many in a row.
    if len < 4 {
        return 0;
    }
    write_ascii_block::<E>(to, 0, low_bits(block));
    len
}

// Keeps the low seven bits of each byte, which leaves ASCII unchanged.
//
// Proved:
//
// - ensures `result ≡ map (λ byte. bit_and byte 0x7F) block`
#[inline(always)]
fn low_bits(block: u8x16) -> u8x16 {
    block & u8x16::splat(0x7F)
}

// Returns the first item of the bytes, which decide it, and its length: a character, or U+FFFD for
// an ill-formed subpart.
//
// Proved:
//
// - requires `ITEM_LEN ≤ length text.now`
// - ensures `FirstItem text.now result.0 result.1`
#[inline(always)]
fn first_item(text: &[u8]) -> (char, usize) {
    match first_utf8_char(text) {
        Ok(first) => first,
        Err(Some(len)) => (char::REPLACEMENT_CHARACTER, len as usize),
        // Four bytes never end inside the first character.
        Err(None) => (char::REPLACEMENT_CHARACTER, 1),
    }
}
