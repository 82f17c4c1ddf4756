// packaging/erase wrote this from crates/utf16_transcode/src/lossy_direction.rt: do not edit it.
//! What a call needs to continue after ill-formed sequences: how text is written, which bytes are
//! pending, and what is written for each ill-formed sequence.

use crate::proved::utf16_transcode::direction::Direction;
use crate::proved::utf16_units::Moved;

/// A direction that continues after ill-formed sequences.
pub trait LossyDirection {
    /// The direction in which the text between ill-formed sequences is written.
    type Text: Direction;

    /// Writes the replacement of the ill-formed sequence at the start of the input to the start of
    /// a buffer. It may also write what is certain of the bytes after it. Returns `None` exactly if
    /// the replacement does not fit. The bytes of the buffer after the written ones may be
    /// overwritten.
    ///
    /// # Precondition
    ///
    /// The input begins with an ill-formed sequence of `len` bytes.
    ///
    /// Proved:
    ///
    /// - requires some: `0 < length input.now`
    /// - requires ill_formed: `Self.Text.IsIllFormedAt input.now (Some len)`
    /// - ensures decodes: `IfSome result (λ done. DecodesAsTo split into input.now to.new done.read
    ///   done.written)`
    /// - ensures advances: `IfSome result (λ done. 0 < done.read)`
    /// - ensures sequence: `IfSome result (λ done. len ≤ done.read)`
    /// - ensures none: `(result ≡ None) ↔ TextDoesNotFit into (decided split input.now) (length
    ///   to.new)`
    fn write_ill_formed(input: &[u8], len: u8, to: &mut [u8]) -> Option<Moved>;

    /// Writes the replacement of a tail at the end of the input at `at`, and returns where it ends,
    /// or `None` if it does not fit. All other bytes of the buffer are unchanged.
    ///
    /// # Precondition
    ///
    /// `at` is at most the length of the buffer.
    ///
    /// Proved:
    ///
    /// - requires `at ≤ length to.old`
    /// - ensures within: `IfSome result (λ end. end ≤ length to.new)`
    /// - ensures bytes: `IfSome result (λ end. take end to.new ≡ take at to.old ++ flat_map into
    ///   (split.at_end tail.now))`
    /// - ensures rest: `IfSome result (λ end. drop end to.new ≡ drop end to.old)`
    /// - ensures none: `result ≡ None → length to.new - at < length (flat_map into (split.at_end
    ///   tail.now))`
    /// - ensures unchanged: `result ≡ None → to.new ≡ to.old`
    fn write_end(tail: &[u8], to: &mut [u8], at: usize) -> Option<usize>;

    /// States what the proofs of lossy calls and of a stream need, and does nothing. Bytes may come
    /// in chunks. A character takes at most four bytes. A text is decoded as itself. If `transcode`
    /// stops for another reason than an ill-formed sequence, a lossy call stops for the same
    /// reason.
    ///
    /// Proved:
    ///
    /// - ensures chunks: `IsSplitInChunks split`
    /// - ensures short: `(c : ℕ) → length (into c) ≤ 4`
    /// - ensures text: `(input to : List ℕ) (n w : ℕ) → Writes (SameText Self.Text.IsValid
    ///   Self.Text.other) input to n w → DecodesAsTo split into input to n w`
    /// - ensures stops: `(input : List ℕ) (n left : ℕ) (stop : Stop) → ((len : ℕ) → ¬ (stop ≡
    ///   IllFormed len)) → Stops Self.Text.from Self.Text.into Self.Text.IsIllFormed input n left
    ///   stop → StopsPartial split into (drop n input) left stop`
    fn lossy_laws();
}
