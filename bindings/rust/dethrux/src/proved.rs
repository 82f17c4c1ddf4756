//! The proved source as Rust, which packaging/erase wrote without the contracts.

// The crates are libraries, of which the calls use a part, and some of what they have is only for
// proofs. Their style is theirs.
#![allow(missing_docs, missing_debug_implementations, unreachable_pub, unused)]
#![allow(clippy::all, rustdoc::all)]
#![warn(clippy::incompatible_msrv)]

pub(crate) use ::{memchr, simdutf8};

include!("../../../../dist/rust/shared.rs");
include!("../../../../dist/rust/calls.rs");
#[cfg(test)]
include!("../../../../dist/rust/strings.rs");
