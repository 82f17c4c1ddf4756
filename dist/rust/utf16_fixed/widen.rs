// packaging/erase wrote this from crates/utf16_fixed/src/widen.rt: do not edit it.
//! From Latin-1 to UTF-16: each byte becomes the code unit with its number.

use crate::proved::simd::*;
use crate::proved::utf16_fixed::blocks::{repeat_block, Block, Fixed};
use crate::proved::utf16_fixed::stores::put_sixteen;
use crate::proved::utf16_transcode::{put, Progress, Stop};
use crate::proved::utf16_units::Utf16Order;
use core::marker::PhantomData;

/// Writes Latin-1 in UTF-16 to the start of a buffer, as far as it fits. Any bytes are Latin-1. So
/// the call stops with `Done`, or with `NoSpace` if fewer than two bytes of the buffer are left.
/// The other bytes of the buffer are unchanged.
///
/// A buffer of twice as many bytes as the input is large enough.
///
/// # Complexity
///
/// Linear time in the number of bytes read, in blocks.
///
/// Proved:
///
/// - ensures read: `result.read ≡ min (length latin1.now) (length to.old / 2)`
/// - ensures written: `result.written ≡ 2 * result.read`
/// - ensures encoding: `Encodes E.BIG (take result.read latin1.now) (take result.written to.new)`
/// - ensures rest: `drop result.written to.new ≡ drop result.written to.old`
/// - ensures stop: `result.stop ≡ if nat_le (length latin1.now) (length to.old / 2) then Done else
///   NoSpace`
pub fn from_latin1<E: Utf16Order>(latin1: &[u8], to: &mut [u8]) -> Progress {
    let most = latin1.len().min(to.len() / 2);
    write_bytes::<E>(latin1, to, most);
    Progress {
        read: most,
        written: 2 * most,
        stop: if most == latin1.len() {
            Stop::Done
        } else {
            Stop::NoSpace
        },
    }
}

// Any bytes, to UTF-16.
struct Widen<E: Utf16Order>(PhantomData<E>);

impl<E: Utf16Order> Fixed for Widen<E> {
    type From = u8;

    type To = u8;
}

impl<E: Utf16Order> Block<16> for Widen<E> {
    #[inline(always)]
    fn write(latin1: &[u8], to: &mut [u8], at: usize) -> usize {
        write_sixteen::<E>(u8x16::from_slice(&latin1[at..]), to, 2 * at);
        16
    }
}

impl<E: Utf16Order> Block<1> for Widen<E> {
    #[inline(always)]
    fn write(latin1: &[u8], to: &mut [u8], at: usize) -> usize {
        put(&E::write_unit(latin1[at] as u16), to, 2 * at);
        1
    }
}

// Writes the first `most` bytes in blocks. The last block ends where the last byte does, so some
// bytes before it are written again. Fewer than sixteen bytes are written one by one.
//
// Proved:
//
// - requires within: `most ≤ length latin1.now`
// - requires fits: `2 * most ≤ length to.old`
// - ensures `IsWidened E.BIG latin1.now to.old to.new most`
#[inline(always)]
fn write_bytes<E: Utf16Order>(latin1: &[u8], to: &mut [u8], most: usize) {
    let at = repeat_block::<Widen<E>, 16>(latin1, to, 0, most);
    if most >= 16 {
        let last = most - 16;
        write_sixteen::<E>(u8x16::from_slice(&latin1[last..]), to, 2 * last);
    } else {
        repeat_block::<Widen<E>, 1>(latin1, to, at, most);
    }
}

// Writes sixteen bytes in UTF-16 at `at`.
//
// Proved:
//
// - requires `at + 32 ≤ length to.old`
// - ensures bytes: `take (at + 32) to.new ≡ take at to.old ++ encode E.BIG block`
// - ensures rest: `drop (at + 32) to.new ≡ drop (at + 32) to.old`
#[inline(always)]
fn write_sixteen<E: Utf16Order>(block: u8x16, to: &mut [u8], at: usize) {
    put_sixteen::<E>(to, at, block.cast::<u16>());
}
