// packaging/erase wrote this from crates/utf16_transcode/src/lossy_transcoding.rt: do not edit it.
//! Transcoding that continues after ill-formed sequences, and replaces each of them.

use crate::proved::utf16_transcode::direction::Direction;
use crate::proved::utf16_transcode::lossy_direction::LossyDirection;
use crate::proved::utf16_transcode::progress::{Progress, Stop};
use crate::proved::utf16_transcode::transcoding::transcode;

/// Writes what is certain of the input to the start of a buffer, as far as whole characters fit,
/// and replaces each ill-formed sequence. A tail that more bytes could change is not read.
///
/// Proved:
///
/// - ensures decodes: `DecodesAsTo D.split D.into input.now to.new result.read result.written`
/// - ensures stop: `StopsPartial D.split D.into (drop result.read input.now) (length to.new -
///   result.written) result.stop`
#[inline(always)]
pub fn transcode_partial<D: LossyDirection>(input: &[u8], to: &mut [u8]) -> Progress {
    D::Text::laws();
    D::lossy_laws();
    let mut read = 0;
    let mut written = 0;
    loop {
        let front = transcode::<D::Text>(&input[read..], &mut to[written..]);
        read += front.read;
        written += front.written;
        let Stop::IllFormed(len) = front.stop else {
            return Progress {
                read,
                written,
                stop: front.stop,
            };
        };
        let Some(next) = D::write_ill_formed(&input[read..], len, &mut to[written..]) else {
            return Progress {
                read,
                written,
                stop: Stop::NoSpace,
            };
        };
        read += next.read;
        written += next.written;
    }
}

/// Writes the whole input to the start of a buffer, as far as whole characters fit, and replaces
/// each ill-formed sequence and a tail at the end.
///
/// Proved:
///
/// - ensures shown: `WritesWhole D.split.whole D.into input.now to.new result.read result.written`
/// - ensures stop: `StopsLossy D.split.whole D.into (drop result.read input.now) (length to.new -
///   result.written) result.stop`
/// - ensures between: `result.stop ≡ NoSpace → DecodesAsTo D.split D.into input.now to.new
///   result.read result.written`
pub fn transcode_lossy<D: LossyDirection>(input: &[u8], to: &mut [u8]) -> Progress {
    D::lossy_laws();
    let front = transcode_partial::<D>(input, to);
    let Stop::Incomplete = front.stop else {
        return front;
    };
    match D::write_end(&input[front.read..], to, front.written) {
        Some(written) => Progress {
            read: input.len(),
            written,
            stop: Stop::Done,
        },
        None => Progress {
            read: front.read,
            written: front.written,
            stop: Stop::NoSpace,
        },
    }
}
