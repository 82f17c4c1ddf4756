// packaging/erase wrote this from crates/utf16_str/src/ascii.rt: do not edit it.
//! Texts compared without the case of ASCII letters.

use crate::proved::utf16_str::WStr;
use crate::proved::utf16_units::Utf16Order;

impl<'a, E: Utf16Order> WStr<'a, E> {
    /// Returns `true` if the texts are the same in ASCII lower case. Other characters are compared
    /// as they are.
    ///
    /// # Complexity
    ///
    /// One pass over both, up to the first character that differs, in constant memory.
    ///
    /// # Source
    ///
    /// `str::eq_ignore_ascii_case`.
    ///
    /// Proved:
    ///
    /// - ensures `IsTrue result ↔ (map to_ascii_lowercase (wstr_text self.now) ≡ map
    ///   to_ascii_lowercase (wstr_text other.entry))`
    pub fn eq_ignore_ascii_case(&self, other: WStr<E>) -> bool {
        let mut theirs = other.chars();
        for c in self.chars() {
            let Some(d) = theirs.next() else {
                return false;
            };
            if !c.eq_ignore_ascii_case(&d) {
                return false;
            }
        }
        theirs.next().is_none()
    }
}
