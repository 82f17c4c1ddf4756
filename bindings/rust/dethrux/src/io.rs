//! Adapters that convert a stream as it is read, and as it is written.
//!
//! ```
//! use dethrux::{io::{Reader, Writer}, ByteOrder::{BigEndian, LittleEndian}, Decoder, Encoder};
//! use std::io::{Read, Write};
//!
//! let mut text = String::new();
//! Reader::new(&b"\0h\0i"[..], Decoder::new(BigEndian)).read_to_string(&mut text)?;
//! assert_eq!(text, "hi");
//!
//! let mut writer = Writer::new(Vec::new(), Encoder::new(LittleEndian));
//! write!(writer, "{}!", text)?;
//! writer.finish()?;
//! assert_eq!(writer.into_inner(), b"h\0i\0!\0");
//! # std::io::Result::Ok(())
//! ```
//!
//! A [`Decoder`] converts UTF-16 to UTF-8, and an [`Encoder`] UTF-8 to UTF-16, with U+FFFD for what
//! is ill formed. A [`Checked`] calls a function for it, and with a [`Strict`] it is an error.
//!
//! An adapter allocates one buffer when it is made, and a reader another one when it is first used
//! as a `BufRead` or for fewer than 4 bytes.

use std::io::{copy, BufRead, Error, ErrorKind, Read, Result, Write};
use std::mem;
use std::ops::Range;
use std::vec::Vec;

use crate::text::append;
use crate::{detect_bom, from_utf8, to_utf8, Buffer, ByteOrder, Decoder, Encoder};
use crate::{Progress, Status, Utf16Error, Utf8Error};
use sealed::Sealed;

/// The size of the buffer of an adapter, unless it is chosen, and the least.
const BUFFER_LEN: usize = 8192;
const LEAST_LEN: usize = 8;

/// The longest character: a conversion to this many bytes writes something.
const LONGEST: usize = 4;

mod sealed {
    use crate::{Buffer, Progress};

    pub trait Sealed {
        /// Converts the next chunk.
        fn feed<B: Buffer + ?Sized>(&mut self, chunk: &[u8], to: &mut B) -> Progress;

        /// Writes what replaces an ill-formed sequence, or returns an error about it: its offset in
        /// the stream, its length, and whether it is an incomplete character at the end.
        fn replace(&mut self, _: (u64, usize, bool), _: &mut [u8]) -> std::io::Result<usize> {
            Ok(0)
        }

        /// Ends the stream and begins another. Returns how many bytes were written, at most 3.
        fn end(&mut self, _: &mut [u8]) -> usize {
            0
        }
    }
}

/// A [`Decoder`], an [`Encoder`] or a [`Checked`].
pub trait Transcoder: Sealed {}

impl<T: Sealed> Transcoder for T {}

macro_rules! seal {
    ($($Stream:ident)*) => {$(
        impl Sealed for $Stream {
            fn feed<B: Buffer + ?Sized>(&mut self, chunk: &[u8], to: &mut B) -> Progress {
                $Stream::feed(self, chunk, to)
            }

            fn end(&mut self, to: &mut [u8]) -> usize {
                $Stream::end(self, to).written
            }
        }
    )*};
}

seal!(Decoder Encoder);

/// Calls a function for each ill-formed sequence, and for an incomplete character at the end, with
/// its offset in the stream and its length. If the function returns true, U+FFFD replaces it;
/// otherwise the adapter returns an error, as with [`Strict`].
///
/// ```
/// use dethrux::{io::{Checked, Reader}, ByteOrder::LittleEndian};
/// use std::io::Read;
///
/// let (mut text, mut replaced) = (String::new(), Vec::new());
/// let decoder = Checked::decoder(LittleEndian, |offset, len| {
///     replaced.push((offset, len));
///     true
/// });
/// Reader::new(&b"h\0\0\xDCi\0j"[..], decoder).read_to_string(&mut text)?;
/// assert_eq!((&text[..], replaced), ("h\u{FFFD}i\u{FFFD}", vec![(2, 2), (6, 1)]));
/// # std::io::Result::Ok(())
/// ```
#[derive(Clone, Debug)]
pub struct Checked<F> {
    order: ByteOrder,
    is_encoder: bool,
    replaces: F,
}

/// Replaces nothing: the adapter returns an error of the kind `InvalidData`. In it is a
/// [`Utf16Error`] or a [`Utf8Error`], whose offset counts bytes from the start of the stream, with
/// its byte order mark; above `usize::MAX` it is `usize::MAX`.
pub type Strict = Checked<fn(u64, usize) -> bool>;

impl<F: FnMut(u64, usize) -> bool> Checked<F> {
    /// Converts UTF-16 to UTF-8.
    #[must_use]
    pub fn decoder(order: ByteOrder, replaces: F) -> Self {
        Checked { order, is_encoder: false, replaces }
    }

    /// Converts UTF-8 to UTF-16.
    #[must_use]
    pub fn encoder(order: ByteOrder, replaces: F) -> Self {
        Checked { order, is_encoder: true, replaces }
    }
}

/// It leaves an incomplete character unread.
impl<F: FnMut(u64, usize) -> bool> Sealed for Checked<F> {
    fn feed<B: Buffer + ?Sized>(&mut self, chunk: &[u8], to: &mut B) -> Progress {
        if self.is_encoder {
            from_utf8(self.order, chunk, to)
        } else {
            to_utf8(self.order, chunk, to)
        }
    }

    fn replace(&mut self, ill_formed: (u64, usize, bool), mut to: &mut [u8]) -> Result<usize> {
        let (offset, len, is_end) = ill_formed;
        let mark = "\u{FFFD}".as_bytes();
        let valid_up_to = usize::try_from(offset).unwrap_or(usize::MAX);
        let error_len = (!is_end).then_some(len as u8);
        match ((self.replaces)(offset, len), self.is_encoder) {
            (true, true) => Ok(from_utf8(self.order, mark, to).written),
            (true, false) => to.write(mark),
            (false, true) => Err(Utf8Error::new(valid_up_to, error_len).into()),
            (false, false) => Err(Utf16Error::new(valid_up_to, error_len).into()),
        }
    }
}

/// Converts what it reads.
///
/// An error of the inner reader is returned unchanged, and reading may continue after it. You can
/// read into a buffer of any length; a character may be cut. As a `BufRead` it has `lines`:
///
/// ```
/// use dethrux::{io::Reader, ByteOrder::LittleEndian};
/// use std::io::BufRead;
///
/// let utf16 = b"\xFF\xFEh\0\n\0i\0";
/// let lines = Reader::with_bom(&utf16[..], LittleEndian)?.lines();
/// assert_eq!(lines.collect::<Result<Vec<_>, _>>()?, ["h", "i"]);
/// # std::io::Result::Ok(())
/// ```
#[derive(Debug)]
pub struct Reader<R, T> {
    inner: R,
    transcoder: T,
    /// Bytes that were read; the ones in `start..end` are not converted yet.
    input: Vec<u8>,
    start: usize,
    end: usize,
    /// The offset of `start` in the stream.
    position: u64,
    /// How many bytes from `start` on the last error is about.
    ill_formed: usize,
    /// What was converted for `fill_buf`, or for a buffer that is too short for a character; `ready`
    /// is what is not taken yet.
    output: Vec<u8>,
    ready: Range<usize>,
    is_finished: bool,
}

impl<R, T> Reader<R, T> {
    /// Returns the inner reader. What was read from it, but not yet from this reader, is lost.
    pub fn into_inner(self) -> R {
        self.inner
    }

    /// Returns the inner reader.
    pub fn get_ref(&self) -> &R {
        &self.inner
    }

    /// Returns the inner reader. What you read from it is not converted.
    pub fn get_mut(&mut self) -> &mut R {
        &mut self.inner
    }

    /// Returns how many bytes of the stream were converted, with its byte order mark.
    pub fn position(&self) -> u64 {
        self.position
    }

    /// Skips what the last read returned an error about, so that reading continues behind it, and
    /// returns its length: 0 if the last read returned no such error.
    ///
    /// ```
    /// use dethrux::{io::Reader, ByteOrder::LittleEndian};
    /// use std::io::Read;
    ///
    /// let (mut reader, mut text) = (Reader::strict(&b"h\0\0\xDCi\0"[..], LittleEndian), String::new());
    /// assert!(reader.read_to_string(&mut text).is_err());
    /// assert_eq!((reader.position(), reader.skip_error()), (2, 2));
    /// reader.read_to_string(&mut text)?;
    /// assert_eq!(text, "hi");
    /// # std::io::Result::Ok(())
    /// ```
    pub fn skip_error(&mut self) -> usize {
        let len = mem::take(&mut self.ill_formed);
        self.advance(len);
        len
    }

    fn advance(&mut self, len: usize) {
        self.start += len;
        self.position += len as u64;
    }
}

impl<R: Read, T: Transcoder> Reader<R, T> {
    /// Returns a reader of the converted stream. It has a buffer, so the inner reader needs none.
    pub fn new(inner: R, transcoder: T) -> Self {
        Reader::with_capacity(BUFFER_LEN, inner, transcoder)
    }

    /// Returns a reader with a buffer of this many bytes, or of 8 if it is fewer.
    pub fn with_capacity(capacity: usize, inner: R, transcoder: T) -> Self {
        Reader {
            inner,
            transcoder,
            input: std::vec![0; capacity.max(LEAST_LEN)],
            start: 0,
            end: 0,
            position: 0,
            ill_formed: 0,
            output: Vec::new(),
            ready: 0..0,
            is_finished: false,
        }
    }

    /// Returns a reader of UTF-16 in the byte order of the byte order mark at its start, or in
    /// `default_order` if there is none. `make` returns what converts it, such as a [`Checked`].
    /// The mark is not a part of the text. It reads at most two bytes here; the stream may be
    /// shorter.
    ///
    /// # Errors
    ///
    /// The errors of the inner reader. What was read before an error is lost. After an interruption
    /// it reads again, like `read_exact` of std.
    pub fn by_bom(
        mut inner: R,
        default_order: ByteOrder,
        make: impl FnOnce(ByteOrder) -> T,
    ) -> Result<Self> {
        let mut first = [0; 2];
        let end = copy(&mut inner.by_ref().take(2), &mut &mut first[..])? as usize;
        let found = detect_bom(&first[..end], default_order);
        let (len, order) = found.map_or((0, default_order), |bom| (bom.len, bom.byte_order));
        let mut reader = Reader::new(inner, make(order));
        reader.input[..2].copy_from_slice(&first);
        reader.end = end;
        reader.advance(len);
        Ok(reader)
    }

    /// Reads after the bytes that are not converted yet. Returns whether there was anything.
    fn fill(&mut self) -> Result<bool> {
        self.input.copy_within(self.start..self.end, 0);
        self.end -= self.start;
        self.start = 0;
        let read = self.inner.read(&mut self.input[self.end..])?;
        self.end += read;
        Ok(read > 0)
    }

    /// Converts until something is written to `to`, which has 4 bytes or more. At the end it
    /// returns 0.
    fn convert(&mut self, to: &mut [u8]) -> Result<usize> {
        self.ill_formed = 0;
        while !self.is_finished {
            let progress = self.transcoder.feed(&self.input[self.start..self.end], to);
            self.advance(progress.read);
            if progress.written > 0 {
                return Ok(progress.written);
            }
            if let Status::IllFormed(len) = progress.status {
                return self.replace(len, false, to);
            }
            if !self.fill()? {
                if self.start < self.end {
                    return self.replace(self.end - self.start, true, to);
                }
                self.is_finished = true;
                return Ok(self.transcoder.end(to));
            }
        }
        Ok(0)
    }

    /// Writes what replaces the next bytes. If there is an error about them, they stay.
    fn replace(&mut self, len: usize, is_end: bool, to: &mut [u8]) -> Result<usize> {
        self.ill_formed = len;
        let written = self.transcoder.replace((self.position, len, is_end), to)?;
        self.skip_error();
        Ok(written)
    }
}

impl<R: Read, T: Transcoder> Read for Reader<R, T> {
    fn read(&mut self, to: &mut [u8]) -> Result<usize> {
        if to.len() >= LONGEST && self.ready.is_empty() {
            return self.convert(to);
        }
        if to.is_empty() {
            return Ok(0);
        }
        let read = self.fill_buf()?.read(to)?;
        self.consume(read);
        Ok(read)
    }
}

impl<R: Read, T: Transcoder> BufRead for Reader<R, T> {
    fn fill_buf(&mut self) -> Result<&[u8]> {
        if self.ready.is_empty() {
            let mut output = mem::take(&mut self.output);
            output.resize(self.input.len(), 0);
            let converted = self.convert(&mut output);
            self.output = output;
            self.ready = 0..converted?;
        }
        Ok(&self.output[self.ready.clone()])
    }

    fn consume(&mut self, len: usize) {
        self.ready.start = self.ready.end.min(self.ready.start.saturating_add(len));
    }
}

impl<R: Read> Reader<R, Decoder> {
    /// Returns a reader of the text of UTF-16, in the byte order of its byte order mark: see
    /// [`by_bom`](Reader::by_bom), also for errors.
    pub fn with_bom(inner: R, default_order: ByteOrder) -> Result<Self> {
        Reader::by_bom(inner, default_order, Decoder::new)
    }
}

impl<R: Read> Reader<R, Strict> {
    /// Returns a reader of the text of UTF-16 that replaces nothing: see [`Strict`]. Before what is
    /// ill formed, each read returns an error, until [`skip_error`](Reader::skip_error).
    pub fn strict(inner: R, order: ByteOrder) -> Self {
        Reader::new(inner, Strict::decoder(order, |_, _| false))
    }

    /// Returns a reader like [`strict`](Reader::strict), in the byte order of the byte order mark:
    /// see [`by_bom`](Reader::by_bom), also for errors.
    pub fn strict_with_bom(inner: R, default_order: ByteOrder) -> Result<Self> {
        Reader::by_bom(inner, default_order, |it| Strict::decoder(it, |_, _| false))
    }
}

/// Converts what is written to it.
///
/// Call [`finish`](Writer::finish) at the end of the stream. Without it, an incomplete character at
/// the end is not written, and neither is what an error of the inner writer left. Such an error
/// loses nothing: a call that has read from its chunk succeeds, and the next call first writes what
/// is left, and returns the error if it fails again.
#[derive(Debug)]
pub struct Writer<W, T> {
    inner: W,
    transcoder: T,
    /// Converted bytes; the ones from `start` on are not written yet.
    output: Vec<u8>,
    start: usize,
    /// A character that was cut, if the transcoder does not keep it, and its offset in the stream.
    pending: Vec<u8>,
    position: u64,
    is_finished: bool,
}

impl<W: Write> Writer<W, Strict> {
    /// Returns a writer of UTF-8 as UTF-16 that replaces nothing: see [`Strict`]. It reads up to
    /// what is ill formed; then each call returns the error.
    pub fn strict(inner: W, order: ByteOrder) -> Self {
        Writer::new(inner, Strict::encoder(order, |_, _| false))
    }
}

impl<W: Write, T: Transcoder> Writer<W, T> {
    /// Returns a writer that converts.
    pub fn new(inner: W, transcoder: T) -> Self {
        Writer::with_capacity(BUFFER_LEN, inner, transcoder)
    }

    /// Returns a writer with a buffer of this many bytes, or of 8 if it is fewer.
    pub fn with_capacity(capacity: usize, inner: W, transcoder: T) -> Self {
        Writer {
            inner,
            transcoder,
            output: Vec::with_capacity(capacity.max(LEAST_LEN)),
            start: 0,
            pending: Vec::new(),
            position: 0,
            is_finished: false,
        }
    }

    /// Ends the stream: writes U+FFFD if it ends inside a character, and flushes the inner writer.
    ///
    /// # Errors
    ///
    /// The errors of the inner writer. Another call continues after the bytes that this one wrote.
    /// With a [`Strict`] also the one about an incomplete character at the end, which is left out.
    pub fn finish(&mut self) -> Result<()> {
        self.write_output()?;
        self.is_finished = true;
        let (cut, mut end) = (mem::take(&mut self.pending).len(), [0; 3]);
        if cut > 0 {
            self.replace(cut, true)?;
        }
        let written = self.transcoder.end(&mut end);
        self.output.extend_from_slice(&end[..written]);
        self.flush()
    }

    /// Returns the inner writer. What was not written to it is lost: call
    /// [`finish`](Writer::finish) first.
    pub fn into_inner(self) -> W {
        self.inner
    }

    /// Returns the inner writer.
    pub fn get_ref(&self) -> &W {
        &self.inner
    }

    /// Returns the inner writer. What you write to it is not converted.
    pub fn get_mut(&mut self) -> &mut W {
        &mut self.inner
    }

    /// Converts what replaces the next bytes.
    fn replace(&mut self, len: usize, is_end: bool) -> Result<()> {
        let (ill_formed, mut mark) = ((self.position, len, is_end), [0; 3]);
        let written = self.transcoder.replace(ill_formed, &mut mark)?;
        self.output.extend_from_slice(&mark[..written]);
        self.position += len as u64;
        Ok(())
    }

    /// Writes what is converted.
    fn write_output(&mut self) -> Result<()> {
        while self.start < self.output.len() {
            match self.inner.write(&self.output[self.start..]) {
                Ok(0) => return Err(ErrorKind::WriteZero.into()),
                Ok(written) => self.start += written,
                Err(error) if error.kind() == ErrorKind::Interrupted => {}
                Err(error) => return Err(error),
            }
        }
        self.output.clear();
        self.start = 0;
        Ok(())
    }
}

impl<W: Write, T: Transcoder> Write for Writer<W, T> {
    fn write(&mut self, chunk: &[u8]) -> Result<usize> {
        if self.is_finished {
            let message = "the writer is finished: make another for the next stream";
            return Err(Error::new(ErrorKind::Other, message));
        }
        self.write_output()?;
        loop {
            // A character that was cut continues in the chunk.
            let cut = self.pending.len();
            let more = chunk.len().min(if cut > 0 { LONGEST } else { 0 });
            self.pending.extend_from_slice(&chunk[..more]);
            let from = if cut > 0 { &self.pending[..] } else { chunk };
            let (output, transcoder) = (&mut self.output, &mut self.transcoder);
            // SAFETY: the library initializes what it wrote.
            let progress = unsafe { append::<_, u8>(output, 0, |to| transcoder.feed(from, to)) };
            self.pending.truncate(cut);
            let mut read = progress.read;
            self.position += read as u64;
            match progress.status {
                Status::Incomplete if read == 0 => {
                    self.pending.extend_from_slice(chunk);
                    return Ok(chunk.len());
                }
                Status::IllFormed(len) if read == 0 => {
                    self.replace(len, false)?;
                    read = len;
                }
                _ => {}
            }
            self.pending.drain(..read.min(cut));
            if read > cut || chunk.is_empty() {
                // The chunk is read, so an error is for the next call, which writes the same bytes.
                let _ = self.write_output();
                return Ok(read.saturating_sub(cut));
            }
        }
    }

    fn flush(&mut self) -> Result<()> {
        self.write_output()?;
        self.inner.flush()
    }
}
