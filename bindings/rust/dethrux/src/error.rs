//! Errors, and the calls that only return one.

use core::fmt;

use crate::{ffi, units_as_bytes, ByteOrder, Progress, Status};

/// Defines an error about ill-formed or incomplete input, with a message for both.
macro_rules! error {
    (
        $(#[$doc:meta])*
        $Error:ident, $units:literal;
        |$len:pat, $at:ident| $ill_formed:literal, $incomplete:literal
    ) => {
        $(#[$doc])*
        #[derive(Clone, Copy, Debug, Eq, PartialEq)]
        pub struct $Error {
            valid_up_to: usize,
            error_len: Option<u8>,
        }

        impl $Error {
            pub(crate) fn new(valid_up_to: usize, error_len: Option<u8>) -> Self {
                $Error { valid_up_to, error_len }
            }

            /// Returns the error that a status of the library is, or `None` for `DETHRUX_DONE`.
            #[allow(dead_code)]
            pub(crate) fn of(valid_up_to: usize, status: u32, error_len: u32) -> Option<Self> {
                let error_len = (status == 1).then_some(error_len as u8);
                (status != 0).then_some($Error { valid_up_to, error_len })
            }

            /// Returns the value, or the error of a conversion that had enough capacity.
            #[allow(dead_code)]
            pub(crate) fn after<T>(progress: Progress, value: T) -> Result<T, Self> {
                match progress.status {
                    Status::Done => Ok(value),
                    Status::IllFormed(len) => Err($Error::new(progress.read, Some(len as u8))),
                    _ => Err($Error::new(progress.read, None)),
                }
            }

            /// Returns the length of the longest well-formed prefix,
            #[doc = concat!("in ", $units, ".")]
            #[must_use]
            pub fn valid_up_to(&self) -> usize {
                self.valid_up_to
            }

            /// Returns the length of the ill-formed sequence after that prefix,
            #[doc = concat!("in ", $units, ".")]
            /// Decoding resumes after it. Returns `None` if the input ends inside a character.
            #[must_use]
            pub fn error_len(&self) -> Option<usize> {
                self.error_len.map(usize::from)
            }
        }

        impl fmt::Display for $Error {
            fn fmt(&self, f: &mut fmt::Formatter<'_>) -> fmt::Result {
                let $at = self.valid_up_to;
                match self.error_len {
                    Some($len) => write!(f, $ill_formed),
                    None => write!(f, $incomplete),
                }
            }
        }

        #[cfg(feature = "std")]
        impl std::error::Error for $Error {}

        /// An error of the kind `InvalidData`, which has this one in it.
        #[cfg(feature = "std")]
        impl From<$Error> for std::io::Error {
            fn from(error: $Error) -> Self {
                std::io::Error::new(std::io::ErrorKind::InvalidData, error)
            }
        }
    };
}

error! {
    /// The bytes are not well-formed UTF-16. It has the fields of std's
    /// [`Utf8Error`](core::str::Utf8Error): an unpaired surrogate has a length of 2, and an
    /// incomplete character at the end has 1 to 3 bytes.
    Utf16Error, "bytes";
    |len, at| "invalid utf-16 sequence of {len} bytes from index {at}",
        "incomplete utf-16 byte sequence from index {at}"
}

error! {
    /// The code units are not well-formed UTF-16. It is [`Utf16Error`], but counts code units.
    UnitsError, "code units";
    |_, at| "unpaired surrogate at code unit {at}", "incomplete surrogate pair from code unit {at}"
}

error! {
    /// The code units are not UTF-32. The first that is ill formed has a length of 1.
    Utf32Error, "code units";
    |_, at| "invalid utf-32 code unit at index {at}", "invalid utf-32 code unit at index {at}"
}

error! {
    /// The bytes are not WTF-8. It has the fields of std's [`Utf8Error`](core::str::Utf8Error).
    Wtf8Error, "bytes";
    |len, at| "invalid wtf-8 sequence of {len} bytes from index {at}",
        "incomplete wtf-8 byte sequence from index {at}"
}

error! {
    /// The bytes of a stream are not UTF-8. It is std's [`Utf8Error`](core::str::Utf8Error), but
    /// its offset is one in the stream.
    Utf8Error, "bytes";
    |len, at| "invalid utf-8 sequence of {len} bytes from index {at}",
        "incomplete utf-8 byte sequence from index {at}"
}

impl UnitsError {
    /// Returns an error about the bytes of code units.
    pub(crate) fn of_bytes(error: Utf16Error) -> Self {
        UnitsError::new(error.valid_up_to / 2, error.error_len.map(|len| len / 2))
    }
}

/// Tests that the bytes are UTF-16. The error has the length of the longest well-formed prefix, and
/// that of the ill-formed sequence after it.
pub fn validate(order: ByteOrder, utf16: &[u8]) -> Result<(), Utf16Error> {
    // SAFETY: the pointer and the length come from a slice.
    let found = unsafe { ffi::validate(order, utf16.as_ptr(), utf16.len()) };
    Utf16Error::of(found.valid_up_to, found.status, found.error_len).map_or(Ok(()), Err)
}

/// Tests that code units, in the byte order of the machine, are UTF-16: [`validate`], but the error
/// counts code units.
pub fn validate_units(units: &[u16]) -> Result<(), UnitsError> {
    validate(ByteOrder::NATIVE, units_as_bytes(units)).map_err(UnitsError::of_bytes)
}

/// Tests that code units are UTF-32: no surrogate, and none above 0x10FFFF. The error has the index
/// of the first one that is ill formed.
pub fn validate_utf32(utf32: &[u32]) -> Result<(), Utf32Error> {
    // SAFETY: the pointer and the length come from a slice.
    let found = unsafe { ffi::validate_utf32(utf32.as_ptr(), utf32.len()) };
    Utf32Error::of(found.valid_up_to, found.status, found.error_len).map_or(Ok(()), Err)
}
