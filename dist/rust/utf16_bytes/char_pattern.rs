// packaging/erase wrote this from crates/utf16_bytes/src/char_pattern.rt: do not edit it.
//! A character as a pattern.

use crate::proved::utf16_bytes::backwards::rfind_char;
use crate::proved::utf16_bytes::forwards::find_char;
use crate::proved::utf16_bytes::Pattern;
use crate::proved::utf16_units::ends::first_char;
use crate::proved::utf16_units::{Utf16CharExt, Utf16Order};

impl<E: Utf16Order> Pattern<E> for char {
    #[inline]
    fn encoded_len(self) -> usize {
        self.encoded_utf16_len()
    }

    #[inline]
    fn first_in(self, bytes: &[u8]) -> Option<usize> {
        find_char::<E>(bytes, self)
    }

    // Parts are often short: on words a loop takes half of the time of a search.
    #[inline]
    fn next_in(self, bytes: &[u8]) -> Option<usize> {
        let mut rest = bytes;
        while !rest.is_empty() {
            let (c, size) = first_char::<E>(rest);
            if c == self {
                return Some(bytes.len() - rest.len());
            }
            rest = &rest[size..];
        }
        None
    }

    #[inline]
    fn last_in(self, bytes: &[u8]) -> Option<usize> {
        rfind_char::<E>(bytes, self)
    }

    #[inline]
    fn prefix_len(self, bytes: &[u8]) -> Option<usize> {
        let mut prefix = [0; 4];
        let len = self.encode_utf16_into::<E>(&mut prefix);
        bytes.starts_with(&prefix[..len]).then_some(len)
    }

    #[inline]
    fn suffix_len(self, bytes: &[u8]) -> Option<usize> {
        let mut suffix = [0; 4];
        let len = self.encode_utf16_into::<E>(&mut suffix);
        bytes.ends_with(&suffix[..len]).then_some(len)
    }
}
