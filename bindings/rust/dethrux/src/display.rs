use core::fmt;

use crate::{to_utf8_lossy, ByteOrder, Status};

/// UTF-16 that can be formatted. [`display`] returns it.
#[derive(Clone, Copy, Debug)]
pub struct Display<'a> {
    order: ByteOrder,
    utf16: &'a [u8],
}

/// Returns a value that formats the text, with U+FFFD for each unpaired surrogate and for an
/// incomplete character at the end. It does not allocate, and ignores width and fill.
///
/// ```
/// use dethrux::{display, ByteOrder::LittleEndian};
///
/// assert_eq!(format!("<{}>", display(LittleEndian, b"h\0\0\xDC")), "<h\u{FFFD}>");
/// ```
#[must_use]
pub fn display(order: ByteOrder, utf16: &[u8]) -> Display<'_> {
    Display { order, utf16 }
}

impl fmt::Display for Display<'_> {
    fn fmt(&self, f: &mut fmt::Formatter<'_>) -> fmt::Result {
        let (mut utf8, mut rest) = ([0; 256], self.utf16);
        loop {
            let progress = to_utf8_lossy(self.order, rest, &mut utf8);
            // SAFETY: the library wrote UTF-8.
            f.write_str(unsafe { core::str::from_utf8_unchecked(&utf8[..progress.written]) })?;
            if progress.status == Status::Done {
                return Ok(());
            }
            rest = &rest[progress.read..];
        }
    }
}
