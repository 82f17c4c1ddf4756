// packaging/erase wrote this from crates/utf16_units/src/strategy.rt: do not edit it.
//! How a text is converted between UTF-8 and UTF-16, by its length, in both directions.
//!
//! An appended text is first written to a buffer on the stack, because its length is only known
//! afterwards and a writer may go past its end. A larger buffer takes longer to clear.

/// The length in bytes below which a text is converted character by character.
pub const FEW_TEXT: usize = 8;

/// The length in bytes from which a text is converted block by block.
pub const SHORT_TEXT: usize = 192;

/// The most bytes of a piece of a longer text.
pub const PIECE_LEN: usize = 1024;

/// How a text is converted.
#[derive(Clone, Copy)]
pub enum Strategy {
    /// Character by character, because the text is shorter than a vector.
    Chars,
    /// Vector by vector. A string takes the text in one piece, through a small buffer.
    Short,
    /// Block by block. A string takes the text piece by piece, through a larger buffer.
    Blocks,
}

/// Returns the strategy for a text of this length in bytes.
///
/// It was measured on real text. Character by character, `push_utf8` of 8 bytes takes up to 1.67
/// times as long. In blocks, 130 to 190 bytes to UTF-8 take 1.2 times as long. In one piece, CJK of
/// 36 bytes takes 40 % less time than if its length were counted first.
///
/// Proved:
///
/// - ensures chars: `(result ≡ Chars) ↔ (len < FEW_TEXT)`
/// - ensures short: `(result ≡ Short) ↔ ((FEW_TEXT ≤ len) × (len < SHORT_TEXT))`
/// - ensures blocks: `(result ≡ Blocks) ↔ (SHORT_TEXT ≤ len)`
#[inline(always)]
pub fn strategy_for(len: usize) -> Strategy {
    if len < FEW_TEXT {
        Strategy::Chars
    } else if len < SHORT_TEXT {
        Strategy::Short
    } else {
        Strategy::Blocks
    }
}
