// packaging/erase wrote this from crates/utf16string/src/wstring/retains.rt: do not edit it.
//! The characters of a string that a predicate keeps.

use crate::proved::kit::Allocator;
use crate::proved::utf16_units::Utf16Order;
use crate::proved::utf16string::retain::retain_in_place;
use crate::proved::utf16string::WString;

impl<E: Utf16Order, A: Allocator> WString<E, A> {
    /// Keeps the characters for which the predicate returns `true`, in order, and removes the
    /// others. The predicate is called once for each character, from first to last, and keeps its
    /// state from call to call.
    ///
    /// # Precondition
    ///
    /// The predicate may be called on each character in turn. For a closure that may be called on
    /// anything, this is proved automatically. For other predicates, such as a counter that must
    /// not overflow, the lemma `IsAskable-by` of `proofs/Predicates.antt` takes a fact that each
    /// call preserves.
    ///
    /// # Complexity
    ///
    /// Linear time, in place. Moves nothing before the first character that is removed. Allocates
    /// nothing, and the capacity stays.
    ///
    /// Proved:
    ///
    /// - requires `IsAskable F.FnMut f (wstring_text self.old)`
    /// - ensures text: `Retains F.FnMut f (wstring_text self.old) (wstring_text self.new)`
    /// - ensures capacity: `wstring_capacity self.new ≡ wstring_capacity self.old`
    #[inline]
    pub fn retain<F: FnMut(char) -> bool>(&mut self, f: F) {
        let mut f = f;
        self.retain_by(&mut f);
    }

    /// Does the same as `retain`, with a predicate that you keep, so that you can read its state
    /// afterwards.
    ///
    /// Proved:
    ///
    /// - requires `IsAskable F.FnMut f.old (wstring_text self.old)`
    /// - ensures text: `RetainsTo F.FnMut f.old (wstring_text self.old) (wstring_text self.new)
    ///   f.new`
    /// - ensures capacity: `wstring_capacity self.new ≡ wstring_capacity self.old`
    pub fn retain_by<F: FnMut(char) -> bool>(&mut self, f: &mut F) {
        let kept = retain_in_place::<E, F>(self.raw.as_mut_slice(), f);
        self.raw.truncate(kept);
    }
}
