//! Decoders and encoders of streams.

#[cfg(feature = "alloc")]
use alloc::{string::String, vec::Vec};

#[cfg(feature = "alloc")]
use crate::text::append;
use crate::{ffi, from_utf8_max_len, to_utf8_max_len, Buffer, ByteOrder, Progress};

/// Defines a stream: how many bytes it keeps, its longest output for a chunk, and its calls.
macro_rules! stream {
    (
        $(#[$doc:meta])*
        pub struct $Name:ident([u8; $most:literal]);
        fn max_len($len:ident) = $max_len:expr;
        $(#[$feed_doc:meta])*
        fn feed = ffi::$feed:ident;
        $(#[$finish_doc:meta])*
        $visibility:vis fn $finish:ident = ffi::$end:ident;
    ) => {
        $(#[$doc])*
        ///
        #[doc = concat!("It keeps at most ", $most, " bytes. A clone continues independently.")]
        #[derive(Clone, Debug)]
        pub struct $Name {
            order: ByteOrder,
            state: ffi::State<$most>,
        }

        impl $Name {
            /// Returns the start of a stream.
            #[must_use]
            pub const fn new(order: ByteOrder) -> Self {
                let state = ffi::State::START;
                $Name { order, state }
            }

            /// Returns the byte order of the UTF-16.
            #[must_use]
            pub const fn byte_order(&self) -> ByteOrder {
                self.order
            }

            /// Returns the bytes that were read but are not converted yet.
            #[must_use]
            pub fn pending(&self) -> &[u8] {
                self.state.pending()
            }

            /// Returns a capacity in bytes that suffices to feed every chunk of `len` bytes.
            #[must_use]
            pub const fn max_len($len: usize) -> usize {
                $max_len
            }

            /// Converts the next chunk: [`Status::Done`](crate::Status::Done) if all of it was
            /// read, or [`Status::NoSpace`](crate::Status::NoSpace): call again with the rest. With
            /// a capacity of 4 or more, something was written in that case.
            $(#[$feed_doc])*
            #[must_use]
            pub fn feed<B: Buffer + ?Sized>(&mut self, chunk: &[u8], to: &mut B) -> Progress {
                let (state, order, (to, capacity)) = (&mut self.state, self.order, to.raw());
                // SAFETY: the pointers and the lengths are those of slices, of which the mutable
                // ones overlap no other.
                unsafe { ffi::$feed(state, order, chunk.as_ptr(), chunk.len(), to, capacity) }
                    .into()
            }

            /// Converts the next chunk and appends what it writes. It allocates at most once.
            #[cfg(feature = "alloc")]
            fn append(&mut self, chunk: &[u8], to: &mut Vec<u8>) -> Progress {
                let max_len = Self::max_len(chunk.len());
                // SAFETY: the library initializes what it wrote.
                unsafe { append(to, max_len, |spare| self.feed(chunk, spare)) }
            }

            $(#[$finish_doc])*
            #[must_use]
            $visibility fn $finish<B: Buffer + ?Sized>(&mut self, to: &mut B) -> Progress {
                let (to, capacity) = to.raw();
                // SAFETY: the pointer and the length come from a mutable slice.
                unsafe { ffi::$end(&mut self.state, self.order, to, capacity) }.into()
            }
        }
    };
}

stream! {
    /// Decodes a stream of UTF-16, cut anywhere, to UTF-8, with U+FFFD for each unpaired surrogate
    /// and for an incomplete character at the end.
    pub struct Decoder([u8; 3]);
    fn max_len(len) = to_utf8_max_len(len.saturating_add(2));
    fn feed = ffi::decoder_feed;
    pub(crate) fn end = ffi::decoder_finish;
}

impl Decoder {
    /// Decodes the next chunk and appends its text. It allocates at most once.
    ///
    /// ```
    /// use dethrux::{ByteOrder::LittleEndian, Decoder};
    ///
    /// let (mut decoder, mut text) = (Decoder::new(LittleEndian), String::new());
    /// for chunk in [&b"h\0\x3D"[..], &b"\xD8\0\xDE\0"[..]] {
    ///     decoder.decode(chunk, &mut text);
    /// }
    /// text.extend(decoder.finish());
    /// assert_eq!(text, "h\u{1F600}\u{FFFD}");
    /// ```
    #[cfg(feature = "alloc")]
    pub fn decode(&mut self, chunk: &[u8], to: &mut String) {
        // SAFETY: the library writes UTF-8.
        self.append(chunk, unsafe { to.as_mut_vec() });
    }

    /// Ends the stream: returns U+FFFD if bytes are pending, else `None`.
    pub fn finish(mut self) -> Option<char> {
        let written = self.end(&mut [0; 3]).written;
        (written != 0).then_some(char::REPLACEMENT_CHARACTER)
    }
}

stream! {
    /// Encodes a stream of UTF-8, cut anywhere, to UTF-16, with U+FFFD for each ill-formed
    /// sequence, like `String::from_utf8_lossy`, and for an incomplete character at the end.
    pub struct Encoder([u8; 3]);
    fn max_len(len) = from_utf8_max_len(len.saturating_add(1));
    fn feed = ffi::encoder_feed;
    pub(crate) fn end = ffi::encoder_finish;
}

impl Encoder {
    /// Encodes the next chunk and appends its UTF-16. It allocates at most once.
    #[cfg(feature = "alloc")]
    pub fn encode(&mut self, chunk: &[u8], to: &mut Vec<u8>) {
        self.append(chunk, to);
    }

    /// Ends the stream: returns U+FFFD in the byte order of the stream if bytes are pending, else
    /// `None`.
    pub fn finish(mut self) -> Option<[u8; 2]> {
        let mut utf16 = [0; 2];
        (self.end(&mut utf16).written != 0).then_some(utf16)
    }
}

stream! {
    /// Decodes a stream of UTF-16, cut anywhere, to WTF-8, with each unpaired surrogate as itself.
    pub struct Wtf8Decoder([u8; 3]);
    fn max_len(len) = crate::Decoder::max_len(len);
    fn feed = ffi::wtf8_decoder_feed;
    /// Ends the stream and begins another: writes the pending leading surrogate, of 3 bytes, if
    /// there is one. [`Status::Incomplete`](crate::Status::Incomplete) is an odd byte at the end,
    /// which is left out. With [`Status::NoSpace`](crate::Status::NoSpace) nothing changes.
    pub fn finish = ffi::wtf8_decoder_finish;
}

impl Wtf8Decoder {
    /// Decodes the next chunk and appends its WTF-8. It allocates at most once.
    #[cfg(feature = "alloc")]
    pub fn decode(&mut self, chunk: &[u8], to: &mut Vec<u8>) {
        self.append(chunk, to);
    }
}

stream! {
    /// Encodes a stream of WTF-8, cut anywhere, to UTF-16, with each surrogate as one code unit.
    pub struct Wtf8Encoder([u8; 6]);
    fn max_len(len) = from_utf8_max_len(len.saturating_add(2));
    ///
    /// With [`Status::IllFormed`](crate::Status::IllFormed) an ill-formed sequence of this many
    /// bytes begins with the pending bytes and continues after `read`. To resume after it, subtract
    /// [`discard`](Wtf8Encoder::discard) from its length, and skip that many bytes of the rest.
    fn feed = ffi::wtf8_encoder_feed;
    /// Ends the stream and begins another: writes the pending leading surrogate, of 2 bytes, if
    /// there is one. [`Status::Incomplete`](crate::Status::Incomplete) is an incomplete character
    /// or surrogate at the end, which is left out. With [`Status::NoSpace`](crate::Status::NoSpace)
    /// the surrogate is still pending.
    pub fn finish = ffi::wtf8_encoder_finish;
}

impl Wtf8Encoder {
    /// Encodes the next chunk and appends its UTF-16, like [`feed`](Wtf8Encoder::feed) with a
    /// buffer that suffices. It allocates at most once.
    #[cfg(feature = "alloc")]
    #[must_use]
    pub fn encode(&mut self, chunk: &[u8], to: &mut Vec<u8>) -> Progress {
        self.append(chunk, to)
    }

    /// Drops the pending bytes, and returns how many there were.
    pub fn discard(&mut self) -> usize {
        let len = self.pending().len();
        self.state = ffi::State::START;
        len
    }
}
