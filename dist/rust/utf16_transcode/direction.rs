// packaging/erase wrote this from crates/utf16_transcode/src/direction.rt: do not edit it.
//! What differs between the two directions of transcoding.

use crate::proved::utf16_units::Moved;

// The number of bytes in a block that passes through a buffer on the stack.
pub(crate) const BLOCK_LEN: usize = 64;

// The length of the buffer on the stack. `Direction::write` needs no more space for a block, nor
// does `Direction::write_front` for two blocks and two bytes.
pub(crate) const BLOCK_ROOM: usize = 276;

/// One of the two directions: how the bytes of the first encoding are validated, and how a text is
/// written in the second.
pub trait Direction {
    /// The shortest input, in bytes, that is validated while it is written.
    const FRONT_LEN: usize;

    /// Returns the length in bytes of the longest valid prefix: the bytes before the first
    /// ill-formed sequence.
    ///
    /// Proved:
    ///
    /// - ensures within: `result ≤ length bytes.now`
    /// - ensures valid: `IsValid (take result bytes.now)`
    /// - ensures longest: `(n : ℕ) → n ≤ length bytes.now → IsValid (take n bytes.now) → n ≤
    ///   result`
    fn valid_len(bytes: &[u8]) -> usize;

    /// Returns the first character and its length in bytes, or the `error_len` of the bytes if they
    /// do not begin with a character.
    ///
    /// # Precondition
    ///
    /// There is at least one byte.
    ///
    /// Proved:
    ///
    /// - requires `0 < length rest.now`
    /// - ensures char: `IfOk result (λ first. BeginsWith from rest.now first.0 first.1)`
    /// - ensures ill_formed: `IfErr result (IsIllFormedAt rest.now)`
    fn first_char(rest: &[u8]) -> Result<(char, usize), Option<u8>>;

    /// Begins to write an input to the start of a buffer, as far as few tests suffice: mostly all
    /// of a short input, and often much of a long one. At most seven characters of ASCII are
    /// written if the buffer has four bytes for each.
    ///
    /// Proved:
    ///
    /// - ensures wrote: `Writes (SameText IsValid other) input.now to.new result.read
    ///   result.written`
    /// - ensures few_ascii: `(text : List ℕ) → All (λ c. c < 0x80) text → input.now ≡ flat_map from
    ///   text → length text < 8 → 4 * length text ≤ length to.old → result.read ≡ length input.now`
    fn begin(input: &[u8], to: &mut [u8]) -> Moved;

    /// Writes a character in the second encoding at `at`, and returns where it ends, or `None` if
    /// it does not fit. The bytes after it may be overwritten.
    ///
    /// # Precondition
    ///
    /// `at` is at most the length of the buffer.
    ///
    /// Proved:
    ///
    /// - requires `at ≤ length to.old`
    /// - ensures within: `IfSome result (λ end. end ≤ length to.new)`
    /// - ensures bytes: `IfSome result (λ end. take end to.new ≡ take at to.old ++ into c)`
    /// - ensures none: `result ≡ None → length to.new - at < length (into c)`
    /// - ensures unchanged: `result ≡ None → to.new ≡ to.old`
    fn write_char(c: char, to: &mut [u8], at: usize) -> Option<usize>;

    /// Returns how much of a text fits in `room` bytes of the second encoding: as many whole
    /// characters as possible.
    ///
    /// # Precondition
    ///
    /// `written` is the text in the second encoding, and longer than `room`.
    ///
    /// Proved:
    ///
    /// - requires text: `SameText IsValid other text.now written.now`
    /// - requires long: `room < length written.now`
    /// - ensures prefix: `Writes (SameText IsValid other) text.now written.now result.read
    ///   result.written`
    /// - ensures fits: `result.written ≤ room`
    /// - ensures longest: `(read end : ℕ) → Writes (SameText IsValid other) text.now written.now
    ///   read end → end ≤ room → end ≤ result.written`
    /// - ensures most: `room < result.written + 4`
    fn fitting_prefix(text: &[u8], written: &[u8], room: usize) -> Moved;

    /// Returns a number of bytes, which may be 0, for which `write` needs at most `room` bytes of
    /// space.
    ///
    /// Proved:
    ///
    /// - ensures fits: `0 < result → room_for result ≤ room`
    /// - ensures most: `room < room_for (result + 2)`
    fn surely_fit(room: usize) -> usize;

    /// Writes a text in the second encoding to the start of a buffer, and returns the number of
    /// bytes written.
    ///
    /// # Precondition
    ///
    /// The text is valid, and the buffer has as many bytes as `room_for` gives.
    ///
    /// Proved:
    ///
    /// - requires well_formed: `IsValid text.now`
    /// - requires space: `room_for (length text.now) ≤ length to.old`
    /// - ensures bytes: `take result to.new ≡ other text.now`
    /// - ensures len: `result ≡ length (other text.now)`
    fn write(text: &[u8], to: &mut [u8]) -> usize;

    /// Writes a valid prefix, which may be empty, in the second encoding to the start of a buffer,
    /// as far as it fits, and validates it at the same time. If all of the bytes are valid and
    /// surely fit, it leaves fewer than 66 of them.
    ///
    /// Proved:
    ///
    /// - ensures wrote: `Writes (SameText IsValid other) rest.now to.new result.read
    ///   result.written`
    /// - ensures most: `IsValid rest.now → room_for (length rest.now) ≤ length to.old → length
    ///   rest.now < result.read + 66`
    fn write_front(rest: &[u8], to: &mut [u8]) -> Moved;

    /// States what proofs need, and does nothing. Fewer bytes need no more space, and a block fits
    /// in the buffer on the stack. A character takes at most four bytes. Two texts together are a
    /// text, and so is each character. An ill-formed sequence after a text is an ill-formed
    /// sequence of the whole input, and the reverse.
    ///
    /// Proved:
    ///
    /// - ensures monotone: `(m n : ℕ) → m ≤ n → room_for m ≤ room_for n`
    /// - ensures buffered: `room_for BLOCK_LEN ≤ BLOCK_ROOM`
    /// - ensures short: `(c : ℕ) → length (into c) ≤ 4`
    /// - ensures of_nothing: `SameText IsValid other [] []`
    /// - ensures joins: `Joins (SameText IsValid other)`
    /// - ensures each_char: `(c : ℕ) → IsScalar c → SameText IsValid other (from c) (into c)`
    /// - ensures ill_formed: `(input : List ℕ) (read : ℕ) (len : Option ℕ) → read < length input →
    ///   IsValid (take read input) → IsIllFormedAt (drop read input) len → IsIllFormed input read
    ///   len`
    /// - ensures there: `(input : List ℕ) (read : ℕ) (len : Option ℕ) → IsIllFormed input read len
    ///   → (read < length input) × IsIllFormedAt (drop read input) len`
    fn laws();
}
