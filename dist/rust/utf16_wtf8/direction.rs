// packaging/erase wrote this from crates/utf16_wtf8/src/direction.rt: do not edit it.
//! The direction from UTF-16 to WTF-8: text is written as in UTF-8, and an unpaired surrogate as
//! itself.

use crate::proved::utf16_transcode::{LossyDirection, Moved, ToUtf8};
use crate::proved::utf16_units::Utf16Order;
use crate::proved::utf16_wtf8::code_point::write_code_point;
use core::marker::PhantomData;

/// The direction from UTF-16 in byte order `E`, which may have unpaired surrogates, to WTF-8. As a
/// direction of `Stream::feed` it writes each unpaired surrogate as itself. End such a stream with
/// `finish_wtf8`: `Stream::finish` would leave out a last odd byte.
pub struct ToWtf8<E: Utf16Order>(PhantomData<E>);

impl<E: Utf16Order> LossyDirection for ToWtf8<E> {
    type Text = ToUtf8<E>;

    #[inline(always)]
    fn lossy_laws() {}

    fn write_ill_formed(input: &[u8], _len: u8, to: &mut [u8]) -> Option<Moved> {
        let unit = E::read_unit([input[0], input[1]]);
        let written = write_code_point(unit, to, 0)?;
        Some(Moved { read: 2, written })
    }

    fn write_end(tail: &[u8], to: &mut [u8], at: usize) -> Option<usize> {
        if tail.len() < 2 {
            return Some(at);
        }
        write_code_point(E::read_unit([tail[0], tail[1]]), to, at)
    }
}
