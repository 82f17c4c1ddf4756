// packaging/erase wrote this from crates/utf16_str/src/parse.rt: do not edit it.
//! Values that a text spells.

use crate::proved::utf16_str::wstr::WStr;
use crate::proved::utf16_to_utf8::{write_utf8, SLACK};
use crate::proved::utf16_units::Utf16Order;
use core::error::Error;
use core::fmt;
use core::str::FromStr;

// The most bytes of UTF-8 that are parsed.
const MAX_LEN: usize = 256;

/// The error of `parse`. `Display` writes the text of the type's error, or for `Long` a text of its
/// own.
#[derive(Debug, PartialEq, Eq)]
pub enum ParseError<E> {
    /// The text takes more than 256 bytes in UTF-8.
    Long,
    /// The text does not spell a value: the error of the type's `from_str`.
    Value(E),
}

impl<E: fmt::Display> fmt::Display for ParseError<E> {
    fn fmt(&self, f: &mut fmt::Formatter<'_>) -> fmt::Result {
        match self {
            ParseError::Long => f.write_str("text longer than 256 bytes in UTF-8"),
            ParseError::Value(error) => fmt::Display::fmt(error, f),
        }
    }
}

impl<E: Error> Error for ParseError<E> {}

impl<'a, E: Utf16Order> WStr<'a, E> {
    /// Returns the value that the text spells.
    ///
    /// # Errors
    ///
    /// [`ParseError::Long`], exactly if the text takes more than 256 bytes in UTF-8.
    /// [`ParseError::Value`], with the error of `from_str`, if that returns one.
    ///
    /// # Complexity
    ///
    /// One pass over the text, and `from_str`. Does not allocate: the UTF-8 is written to the
    /// stack.
    ///
    /// # Source
    ///
    /// `str::parse`.
    ///
    /// Proved:
    ///
    /// - ensures `ParsesTo T.from_str_gives (encode_utf8_all (wstr_text self.entry)) result`
    pub fn parse<T: FromStr>(self) -> Result<T, ParseError<T::Err>> {
        let raw = self.as_bytes();
        // Each code unit takes at least one byte.
        if raw.len() > 2 * MAX_LEN {
            return Err(ParseError::Long);
        }
        let mut buffer = [0; MAX_LEN * 3 + SLACK];
        let len = write_utf8::<E>(raw, &mut buffer);
        if len > MAX_LEN {
            return Err(ParseError::Long);
        }
        let utf8 = unsafe { core::str::from_utf8_unchecked(&buffer[..len]) };
        match utf8.parse() {
            Ok(value) => Ok(value),
            Err(error) => Err(ParseError::Value(error)),
        }
    }
}
