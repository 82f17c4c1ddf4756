#![cfg_attr(feature = "alloc", doc = include_str!("../README.md"))]
//! # Without an allocator
//!
//! Between buffers:
//!
//! ```
//! use dethrux::{find, to_utf8, ByteOrder::LittleEndian, Status};
//!
//! let (utf16, mut utf8) = (b"h\0i\0\0\xDC", [0; 4]);
//! let progress = to_utf8(LittleEndian, utf16, &mut utf8);
//! assert_eq!(progress.status, Status::IllFormed(2));
//! assert_eq!((progress.read, &utf8[..progress.written]), (4, &b"hi"[..]));
//! assert_eq!(find(LittleEndian, utf16, b"i\0"), Some(2));
//! ```

#![no_std]
#![forbid(unsafe_op_in_unsafe_fn)]
#![deny(missing_docs)]
#![warn(missing_debug_implementations)]
#![cfg_attr(docsrs, feature(doc_cfg))]
#![cfg_attr(not(feature = "std"), allow(rustdoc::broken_intra_doc_links))]

#[cfg(any(feature = "alloc", dethrux_pure))]
extern crate alloc;
#[cfg(feature = "std")]
extern crate std;

mod buffer;
mod chunks;
mod display;
mod error;
mod ffi;
#[rustfmt::skip]
mod functions;
#[cfg(feature = "std")]
pub mod io;
mod order;
#[cfg(dethrux_pure)]
#[clippy::msrv = "1.81"]
mod proved;
mod results;
mod stream;
#[cfg(feature = "alloc")]
mod text;
mod views;

pub use buffer::Buffer;
pub use chunks::*;
pub use display::*;
pub use error::*;
pub use functions::*;
pub use order::*;
pub use results::*;
pub use stream::*;
#[cfg(feature = "alloc")]
pub use text::*;
pub use views::*;

/// Returns the version of the library: major, minor and patch. The build script tests that the
/// major and the minor version are those of this crate.
#[must_use]
pub fn version() -> (u32, u32, u32) {
    // SAFETY: the call has no precondition.
    let version = unsafe { ffi::version() };
    (version / 1_000_000, version / 1_000 % 1_000, version % 1_000)
}

/// Returns which code the library runs, for bug reports and benchmarks: `x86-64-v2` or `x86-64-v3`,
/// which are levels of x86-64, `aarch64`, or `rust` with the feature `pure`.
///
/// It is `x86-64-v3` if the processor and the system have all of that level, such as AVX2. The
/// result is the same for all calls of a process. The library that `rt` builds does not have this
/// call.
#[must_use]
pub fn kernel() -> &'static str {
    // SAFETY: the call has no precondition, and returns a constant in ASCII that ends with a zero.
    unsafe {
        let name = ffi::kernel();
        let len = (0..).take_while(|&at| *name.add(at) != 0).count();
        core::str::from_utf8_unchecked(core::slice::from_raw_parts(name, len))
    }
}
