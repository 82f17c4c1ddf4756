//! The calls of the C library, and their results.

use super::State;
use crate::ByteOrder;

include!("structs.rs");

/// Declares a call.
macro_rules! call {
    ($name:ident $parameters:tt $(-> $Result:ty)? = $proved:expr) => {
        extern "C" {
            #[link_name = concat!("dethrux_", stringify!($name))]
            pub(crate) fn $name $parameters $(-> $Result)?;
        }
    };
}

include!("calls.rs");
