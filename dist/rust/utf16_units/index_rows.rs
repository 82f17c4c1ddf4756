// packaging/erase wrote this from crates/utf16_units/src/index_rows.rt: do not edit it.
//! A table of shuffle indices by what its rows are made of.

/// The rows of a table of shuffle indices, as an array of arrays of sixteen.
///
/// Each step names the indices that it may add to a row, in parentheses, and there is a row for
/// each choice: the first step's choice is the number of the row modulo the number of choices, and
/// so on. Zeros follow the indices of a row.
///
/// ```text
/// index_rows!({() (0 1)} {() (2 3)})   // [[0, 0, ..], [0, 1, ..], [2, 3, ..], [0, 1, 2, 3, ..]]
/// ```
macro_rules! index_rows {
    (@from [$([$($parts:tt)*])*]) => {
        [$($crate::proved::utf16_units::index_rows!(@whole $($parts)*)),*]
    };
    (@from $rows:tt $step:tt $($steps:tt)*) => {
        $crate::proved::utf16_units::index_rows!(@add $rows [] $step $($steps)*)
    };
    (@add $rows:tt $made:tt {} $($steps:tt)*) => {
        $crate::proved::utf16_units::index_rows!(@from $made $($steps)*)
    };
    (@add [$([$($parts:tt)*])*] [$($made:tt)*] {$part:tt $($others:tt)*} $($steps:tt)*) => {
        $crate::proved::utf16_units::index_rows!(@add [$([$($parts)*])*]
            [$($made)* $([$($parts)* $part])*] {$($others)*} $($steps)*)
    };
    (@whole $(($($index:tt)*))*) => {
        $crate::proved::utf16_units::index_rows!(@first_sixteen $($($index)*)* 0 0 0 0 0 0 0 0 0 0 0 0 0 0 0 0)
    };
    (@first_sixteen $a:tt $b:tt $c:tt $d:tt $e:tt $f:tt $g:tt $h:tt $i:tt $j:tt $k:tt $l:tt $m:tt
        $n:tt $o:tt $p:tt $($others:tt)*) => {
        [$a, $b, $c, $d, $e, $f, $g, $h, $i, $j, $k, $l, $m, $n, $o, $p]
    };
    ($($steps:tt)*) => {
        $crate::proved::utf16_units::index_rows!(@from [[]] $($steps)*)
    };
}

pub(crate) use index_rows;
