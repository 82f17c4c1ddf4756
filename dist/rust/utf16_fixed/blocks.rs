// packaging/erase wrote this from crates/utf16_fixed/src/blocks.rt: do not edit it.
//! The loop over blocks of characters that take one code unit each in both encodings.

// A conversion of characters that all take the same number of units.
pub(crate) trait Fixed {
    type From;

    type To;
}

// A conversion that writes blocks of `N` characters.
pub(crate) trait Block<const N: usize>: Fixed {
    // Writes the block at `at`, and returns how many of its characters count: those before the
    // first that the conversion does not write, or none of them.
    //
    // Proved:
    //
    // - requires within: `Self.read * (at + N) ≤ length from.now`
    // - requires fits: `Self.written * (at + N) ≤ length to.old`
    // - ensures few: `result ≤ N`
    // - ensures written: `(before : List Self.To) → Self.IsWritten from.now before to.old at →
    //   Self.IsWritten from.now before to.new (at + result)`
    // - ensures stops: `result < N → Stops from.now (at + result)`
    fn write(from: &[Self::From], to: &mut [Self::To], at: usize) -> usize;
}

// Writes blocks after the characters before `start`, up to a block that does not count whole, and
// returns how many characters are written.
//
// Proved:
//
// - requires within: `R.read * most ≤ length from.now`
// - requires fits: `R.written * most ≤ length to.old`
// - requires few: `start ≤ most`
// - requires some: `0 < N`
// - ensures written: `(before : List R.To) → R.IsWritten from.now before to.old start → R.IsWritten
//   from.now before to.new result`
// - ensures few: `result ≤ most`
// - ensures stops: `result + N ≤ most → R.Stops from.now result`
#[inline(always)]
pub(crate) fn repeat_block<R: Block<N>, const N: usize>(
    from: &[R::From],
    to: &mut [R::To],
    start: usize,
    most: usize,
) -> usize {
    let mut at = start;
    while most - at >= N {
        let len = R::write(from, to, at);
        at += len;
        if len < N {
            break;
        }
    }
    at
}

// Writes the first `most` characters in blocks, up to the first that the conversion does not write,
// and returns how many are written. The last block ends where the last character does, so some
// characters before it are written again.
//
// Proved:
//
// - requires within: `R.read * most ≤ length from.now`
// - requires fits: `R.written * most ≤ length to.old`
// - requires fewer: `(before out : List R.To) (m n : ℕ) → m ≤ n → R.IsWritten from.now before out n
//   → R.IsWritten from.now before out m`
// - ensures written: `(before : List R.To) → R.IsWritten from.now before to.old 0 → R.IsWritten
//   from.now before to.new result`
// - ensures few: `result ≤ most`
#[inline(always)]
pub(crate) fn write_in_blocks<R: Block<1> + Block<8> + Block<32>>(
    from: &[R::From],
    to: &mut [R::To],
    most: usize,
) -> usize {
    let at = repeat_block::<R, 32>(from, to, 0, most);
    let at = repeat_block::<R, 8>(from, to, at, most);
    if most - at >= 8 {
        return at;
    }
    if most >= 8 {
        let last = most - 8;
        return last + <R as Block<8>>::write(from, to, last);
    }
    repeat_block::<R, 1>(from, to, at, most)
}
