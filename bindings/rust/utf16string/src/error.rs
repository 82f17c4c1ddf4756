use std::alloc::{handle_alloc_error, Layout};
use std::{error, fmt, io};

pub use crate::proved::utf16_units::Utf16Error;

/// An error of the kind `InvalidData`. `get_ref` and `downcast_ref` return the [`Utf16Error`].
impl From<Utf16Error> for io::Error {
    fn from(error: Utf16Error) -> Self {
        io::Error::new(io::ErrorKind::InvalidData, error)
    }
}

/// The vector is not well-formed UTF-16. Like [`std::string::FromUtf8Error`] it has the vector.
///
/// ```
/// use utf16string::{WString, LE};
///
/// let error = WString::<LE>::try_from(b"h\0\0\xDC".to_vec()).unwrap_err();
/// assert_eq!(error.utf16_error().valid_up_to(), 2);
/// assert_eq!(error.into_bytes(), b"h\0\0\xDC");
/// ```
#[derive(Clone, Debug, Eq, PartialEq)]
pub struct FromUtf16Error {
    pub(crate) bytes: Vec<u8>,
    pub(crate) error: Utf16Error,
}

impl FromUtf16Error {
    methods! {
        /// Returns the bytes.
        pub fn as_bytes(&self) -> &[u8] = &self.bytes;
        /// Returns the vector.
        pub fn into_bytes(self) -> Vec<u8> = self.bytes;
        /// Returns where the bytes are ill formed.
        pub fn utf16_error(&self) -> Utf16Error = self.error;
    }
}

impl fmt::Display for FromUtf16Error {
    fn fmt(&self, f: &mut fmt::Formatter<'_>) -> fmt::Result {
        self.error.fmt(f)
    }
}

impl error::Error for FromUtf16Error {}

/// Does what [`Vec`] does if there is no memory for this many bytes.
#[cold]
pub(crate) fn refuse(len: usize, additional: usize) -> ! {
    match Layout::array::<u8>(len.saturating_add(additional)) {
        Ok(layout) => handle_alloc_error(layout),
        Err(_) => panic!("capacity overflow"),
    }
}
