//! The proved source as Rust, which `packaging/erase` wrote without the contracts. Some functions
//! have a precondition, so nothing here is public. The build script says where the source is.

// The crates are libraries, of which this one uses a part. Their style is theirs.
#![allow(clippy::all, rustdoc::all, unused, unreachable_pub)]
#![allow(missing_docs, missing_debug_implementations)]
#![warn(clippy::incompatible_msrv)]

pub(crate) use ::{byteorder, memchr};

include!(concat!(env!("DETHRUX_PROVED"), "/shared.rs"));
include!(concat!(env!("DETHRUX_PROVED"), "/strings.rs"));
