//! The calls of `include/dethrux.h`, and the state of a stream.

/// Passes each call of `calls.rs` to the macro `call!`.
macro_rules! calls {
    (
        conversions { $($name:ident($from:ident: $From:ty) -> $to:ident: $To:ty = $call:ident;)* }
        others { $($other:ident $parameters:tt $(-> $Result:ty)? = $proved:expr;)* }
    ) => {
        $(call! {
            $name(
                order: ByteOrder,
                $from: *const $From,
                len: usize,
                $to: *mut $To,
                capacity: usize
            ) -> Progress = $call(order as u32, input($from, len), output($to, capacity))
        })*
        $(call! { $other $parameters $(-> $Result)? = $proved })*
    };
}

#[cfg(not(dethrux_pure))]
#[path = "linked.rs"]
mod calls;
#[cfg(dethrux_pure)]
#[path = "pure.rs"]
mod calls;

pub(crate) use calls::*;

/// The state of a stream, which keeps up to `N` bytes: 3, or 6 for an encoder of WTF-8. All zero
/// begins a stream.
#[repr(C)]
#[derive(Clone, Debug)]
pub(crate) struct State<const N: usize = 3> {
    pending: [u8; N],
    pending_len: u8,
}

impl<const N: usize> State<N> {
    pub(crate) const START: Self = State { pending: [0; N], pending_len: 0 };

    pub(crate) fn pending(&self) -> &[u8] {
        &self.pending[..usize::from(self.pending_len).min(self.pending.len())]
    }
}

/// Returns the offset that a search found, unless it is `DETHRUX_NOT_FOUND`.
pub(crate) fn found(offset: usize) -> Option<usize> {
    (offset != usize::MAX).then_some(offset)
}
