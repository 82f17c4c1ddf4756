//! The calls of `dethrux.h`, in a build of the library, or its code for a level, whose names have more.

/// A call in a byte order. It returns the number of bytes that are valid or written, or what it
/// counts. The last argument is a buffer that is long enough.
pub type Call = fn(bool, &[u8], &mut [u8]) -> usize;

/// The calls that are compared.
pub struct Calls {
    pub validate: Call,
    pub count: Call,
    pub to_utf8: Call,
    pub from_utf8: Call,
}

#[repr(C)]
pub struct Progress {
    read: usize,
    written: usize,
    status: u32,
    error_len: u32,
}

impl Progress {
    // Returns the number of bytes written, and tests that all of the input was read and is well
    // formed.
    pub fn done(self, len: usize) -> usize {
        assert_eq!((self.read, self.status, self.error_len), (len, 0, 0));
        self.written
    }
}

#[repr(C)]
pub struct Validity {
    valid_up_to: usize,
    status: u32,
    error_len: u32,
}

impl Validity {
    // Returns the length of the valid prefix, and tests that `error_len` is 2 for an ill-formed
    // sequence and 0 otherwise.
    pub fn valid_up_to(self) -> usize {
        assert_eq!(self.error_len, if self.status == 1 { 2 } else { 0 });
        self.valid_up_to
    }
}

macro_rules! library {
    ($name:ident, $before:literal, $after:literal) => {
        #[allow(dead_code)]
        mod $name {
            use crate::library::{Call, Calls, Progress, Validity};

            unsafe extern "C" {
                #[link_name = concat!($before, "dethrux_validate", $after)]
                fn validate(order: u32, utf16: *const u8, len: usize) -> Validity;
                #[link_name = concat!($before, "dethrux_count_chars", $after)]
                fn count_chars(order: u32, utf16: *const u8, len: usize) -> usize;
                #[link_name = concat!($before, "dethrux_is_ascii", $after)]
                fn is_ascii(order: u32, utf16: *const u8, len: usize) -> bool;
                #[link_name = concat!($before, "dethrux_to_utf8", $after)]
                fn to_utf8(order: u32, utf16: *const u8, len: usize, to: *mut u8, capacity: usize) -> Progress;
                #[link_name = concat!($before, "dethrux_from_utf8", $after)]
                fn from_utf8(order: u32, utf8: *const u8, len: usize, to: *mut u8, capacity: usize) -> Progress;
            }

            pub const CALLS: Calls = Calls {
                validate: |big, raw, _| unsafe { validate(big.into(), raw.as_ptr(), raw.len()) }.valid_up_to(),
                count: |big, raw, _| unsafe { count_chars(big.into(), raw.as_ptr(), raw.len()) },
                to_utf8: |big, raw, to| {
                    unsafe { to_utf8(big.into(), raw.as_ptr(), raw.len(), to.as_mut_ptr(), to.len()) }.done(raw.len())
                },
                from_utf8: |big, text, to| {
                    unsafe { from_utf8(big.into(), text.as_ptr(), text.len(), to.as_mut_ptr(), to.len()) }.done(text.len())
                },
            };
            pub const IS_ASCII: Call = |big, raw, _| unsafe { is_ascii(big.into(), raw.as_ptr(), raw.len()) }.into();
        }
    };
}
