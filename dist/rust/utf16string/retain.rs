// packaging/erase wrote this from crates/utf16string/src/retain.rt: do not edit it.
//! Keeps the characters of UTF-16 that a predicate accepts, in place.
//!
//! If none of the next sixteen units is a surrogate, the predicate gets all sixteen before any is
//! moved. If all stay, one move of 32 bytes follows. A pair is tested before a block, so text of
//! pairs loads no blocks. Longer runs are not moved as one: a block is still in registers when it
//! moves. Blocks of eight units would serve only text with a pair in nearly every block. Without
//! them such text takes up to 3.4 times as long as with `Vec<char>::retain`.

use crate::proved::utf16_units::ends::first_char;
use crate::proved::utf16_units::{is_leading_surrogate, Utf16Order};
use crate::proved::utf16string::retain_blocks::{keep_block, plain_block, BLOCK_BYTES};

/// Moves the characters for which `keep` returns `true` to the start of `bytes`, and returns their
/// length in bytes.
///
/// `keep` is called once for each character, from first to last, and keeps its state from call to
/// call. Nothing is moved before the first character that is removed. The bytes after the kept ones
/// are unspecified.
///
/// # Precondition
///
/// `bytes` is well-formed UTF-16 in the byte order `E` (check with
/// `utf16_units::validate_raw_utf16`), and `keep` may be called on each character in turn.
///
/// # Complexity
///
/// Linear in the length.
///
/// Proved:
///
/// - requires well_formed: `IsUtf16 E.BIG bytes.old`
/// - requires askable: `MayBeAsked F.FnMut keep.old (text_of E.BIG bytes.old)`
/// - ensures well_formed: `IsUtf16 E.BIG (take result bytes.new)`
/// - ensures text: `RetainsTo F.FnMut keep.old (text_of E.BIG bytes.old) (text_of E.BIG (take
///   result bytes.new)) keep.new`
/// - ensures within: `result ≤ length bytes.old`
pub fn retain_in_place<E: Utf16Order, F: FnMut(char) -> bool>(
    bytes: &mut [u8],
    keep: &mut F,
) -> usize {
    let mut kept = 0;
    let mut read = 0;
    // The index at which a block is tried next. The characters of a block with a surrogate go one
    // by one.
    let mut next_block = 0;
    while read < bytes.len() {
        // A pair has a separate branch, so that the next index does not wait for a size that is
        // computed from what was read.
        let Some(c) = single_at::<E>(bytes, read) else {
            let (c, size) = char_from::<E>(bytes, read);
            kept = keep_char::<E, F>(bytes, keep, kept, read, c, size);
            read += size;
            continue;
        };
        if next_block <= read {
            if let Some(units) = plain_block::<E>(bytes, read) {
                kept = keep_block::<E, F>(bytes, keep, kept, read, &units);
                read += BLOCK_BYTES;
                continue;
            }
            next_block = read + BLOCK_BYTES;
        }
        kept = keep_char::<E, F>(bytes, keep, kept, read, c, 2);
        read += 2;
    }
    kept
}

// The character at an index, if it has one unit.
//
// Proved:
//
// - requires within: `at < length bytes.now`
// - requires well_formed: `IsUtf16 E.BIG (drop at bytes.now)`
// - ensures char: `IfSome result (λ c. Encodes E.BIG (c ∷ []) (take 2 (drop at bytes.now)))`
// - ensures within: `at + 2 ≤ length bytes.now`
#[inline]
fn single_at<E: Utf16Order>(bytes: &[u8], at: usize) -> Option<char> {
    let unit = E::read_unit(crate::proved::kit::two(bytes, at));
    if is_leading_surrogate(unit) {
        None
    } else {
        Some(unsafe { char::from_u32_unchecked(unit as u32) })
    }
}

// The character that begins at an index, and how many bytes it takes.
//
// Proved:
//
// - requires within: `at < length bytes.now`
// - requires well_formed: `IsUtf16 E.BIG (drop at bytes.now)`
// - ensures char: `Encodes E.BIG (result.0 ∷ []) (take result.1 (drop at bytes.now))`
// - ensures size: `result.1 ≡ char_size result.0`
// - ensures within: `at + result.1 ≤ length bytes.now`
#[inline]
fn char_from<E: Utf16Order>(bytes: &[u8], at: usize) -> (char, usize) {
    first_char::<E>(&bytes[at..at + 4])
}

// Calls the predicate on the character at an index, and moves it down. Returns the end of the kept
// characters: if it is not one of them, the next is moved over it.
//
// Proved:
//
// - requires down: `kept ≤ read`
// - requires char_len: `(size ≡ 2) ⊎ (size ≡ 4)`
// - requires within: `read + size ≤ length bytes.old`
// - requires here: `Encodes E.BIG (c ∷ []) (take size (drop read bytes.old))`
// - requires askable: `MayBeAsked F.FnMut keep.old (c ∷ [])`
// - ensures retained: `KeepsNext F.FnMut E.BIG keep.old bytes.old kept read keep.new bytes.new
//   result (read + size)`
// - ensures down: `result ≤ read + size`
#[inline(always)]
fn keep_char<E: Utf16Order, F: FnMut(char) -> bool>(
    bytes: &mut [u8],
    keep: &mut F,
    kept: usize,
    read: usize,
    c: char,
    size: usize,
) -> usize {
    let stays = keep(c);
    move_down(bytes, kept, read, size);
    if stays {
        kept + size
    } else {
        kept
    }
}

// Moves the one or two units of a character down, if they are not in place.
//
// Proved:
//
// - requires down: `to ≤ start`
// - requires char_len: `(size ≡ 2) ⊎ (size ≡ 4)`
// - requires within: `start + size ≤ length bytes.old`
// - ensures moved: `take (to + size) bytes.new ≡ take to bytes.old ++ take size (drop start
//   bytes.old)`
// - ensures rest: `drop (start + size) bytes.new ≡ drop (start + size) bytes.old`
#[inline]
fn move_down(bytes: &mut [u8], to: usize, start: usize, size: usize) {
    if to < start {
        move_unit(bytes, to, start);
        if size == 4 {
            move_unit(bytes, to + 2, start + 2);
        }
    }
}

// Moves two bytes down.
//
// Proved:
//
// - requires down: `to ≤ start`
// - requires within: `start + 2 ≤ length bytes.old`
// - ensures moved: `take (to + 2) bytes.new ≡ take to bytes.old ++ take 2 (drop start bytes.old)`
// - ensures rest: `drop (start + 2) bytes.new ≡ drop (start + 2) bytes.old`
#[inline]
fn move_unit(bytes: &mut [u8], to: usize, start: usize) {
    let two = crate::proved::kit::two(bytes, start);
    crate::proved::kit::put_two(bytes, to, two);
}
