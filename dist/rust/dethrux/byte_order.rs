// packaging/erase wrote this from crates/dethrux/src/byte_order.rt: do not edit it.
//! The byte order that a caller in C passes.

pub(crate) use crate::proved::utf16_units::{BE, LE};

pub(crate) const LITTLE_ENDIAN: u32 = 0;

pub(crate) const BIG_ENDIAN: u32 = 1;

// Returns whether it is big endian. Every other number is read as little endian.
//
// Proved:
//
// - ensures `result ≡ is_big byte_order`
#[inline(always)]
pub(crate) fn is_big_endian(byte_order: u32) -> bool {
    byte_order == BIG_ENDIAN
}

// Makes a call in the byte order that a caller in C passes. With `=> made`, the result is made of
// the call's in each branch, which takes six instructions less: short texts notice it.
macro_rules! in_order {
    ($byte_order:expr, $call:ident($($argument:expr),*) $(=> $made:ident)?) => {
        if $crate::proved::dethrux::byte_order::is_big_endian($byte_order) {
            $($made)?($call::<$crate::proved::dethrux::byte_order::BE>($($argument),*))
        } else {
            $($made)?($call::<$crate::proved::dethrux::byte_order::LE>($($argument),*))
        }
    };
    ($byte_order:expr, $stream:ident.$call:ident($($argument:expr),*)) => {
        if $crate::proved::dethrux::byte_order::is_big_endian($byte_order) {
            $stream.$call::<$crate::proved::dethrux::byte_order::BE>($($argument),*)
        } else {
            $stream.$call::<$crate::proved::dethrux::byte_order::LE>($($argument),*)
        }
    };
    ($byte_order:expr, $stream:ident.$call:ident::<$direction:ident>($($argument:expr),*)) => {
        if $crate::proved::dethrux::byte_order::is_big_endian($byte_order) {
            $stream.$call::<$direction<$crate::proved::dethrux::byte_order::BE>>($($argument),*)
        } else {
            $stream.$call::<$direction<$crate::proved::dethrux::byte_order::LE>>($($argument),*)
        }
    };
}

pub(crate) use in_order;
