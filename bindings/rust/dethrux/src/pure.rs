//! The calls by the proved source instead of the C library, and their results.

use core::mem::size_of;
use core::slice;

use super::State;
use crate::proved::dethrux::*;
use crate::ByteOrder;

pub(crate) use crate::proved::dethrux::{Bom, Inspection, Progress, Validity};

/// The most elements that a call takes. The proofs are for a `usize` of 64 bits. With fewer, no
/// number that the source computes is too large for a `usize` up to this length.
const MAX_LEN: usize = usize::MAX / 4 - 16;

unsafe fn input<'a, T>(from: *const T, len: usize) -> &'a [T] {
    assert!(len <= MAX_LEN, "the input is too long");
    // SAFETY: the pointer and the length come from a slice.
    unsafe { slice::from_raw_parts(from, len) }
}

unsafe fn output<'a, T>(to: *mut T, capacity: usize) -> &'a mut [T] {
    // SAFETY: the pointer and the length come from a slice, which `Buffer` initialized.
    unsafe { slice::from_raw_parts_mut(to, capacity.min(MAX_LEN)) }
}

/// The state of a stream, which the source has as another type of the same bytes.
unsafe fn stream<'a, S, const N: usize>(state: *mut State<N>) -> &'a mut S {
    assert!(size_of::<S>() == size_of::<State<N>>());
    // SAFETY: both are `repr(C)`, and have the same fields.
    unsafe { &mut *state.cast::<S>() }
}

/// The name of this code: the source is compiled for the target that the crate is built for.
fn dethrux_kernel() -> *const u8 {
    b"rust\0".as_ptr()
}

/// Defines a call.
macro_rules! call {
    ($name:ident $parameters:tt $(-> $Result:ty)? = $proved:expr) => {
        #[allow(unused_unsafe)]
        pub(crate) unsafe fn $name $parameters $(-> $Result)? {
            // SAFETY: the caller passes slices.
            unsafe { $proved }
        }
    };
}

include!("calls.rs");
