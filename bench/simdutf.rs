//! The calls of `simdutf_calls.cc`, for each kernel of simdutf on x86-64: westmere has lanes of 128
//! bits, haswell of 256 (AVX2), and icelake of 512 (AVX-512).
use crate::library::Calls;
use std::ffi::c_char;

/// A kernel, which is an object of C++.
pub enum Kernel {}

mod calls {
    use super::{Kernel, c_char};

    unsafe extern "C" {
        #[link_name = "bench_kernel"]
        pub fn kernel(word: *const c_char) -> *mut Kernel;
        #[link_name = "bench_valid_up_to"]
        pub fn valid_up_to(by: *const Kernel, big: bool, units: *const u16, len: usize) -> usize;
        #[link_name = "bench_count"]
        pub fn count(by: *const Kernel, big: bool, units: *const u16, len: usize) -> usize;
        #[link_name = "bench_to_utf8"]
        pub fn to_utf8(by: *const Kernel, big: bool, units: *const u16, len: usize, to: *mut u8) -> usize;
        #[link_name = "bench_from_utf8"]
        pub fn from_utf8(by: *const Kernel, big: bool, text: *const u8, len: usize, to: *mut u16) -> usize;
    }
}

fn units(raw: &[u8]) -> &[u16] {
    let (start, units, end) = unsafe { raw.align_to() };
    assert!(start.is_empty() && end.is_empty());
    units
}

macro_rules! kernel {
    ($kernel:ident) => {
        pub mod $kernel {
            use super::{Calls, Kernel, calls, units};
            use std::ptr::null_mut;
            use std::sync::atomic::{AtomicPtr, Ordering::Relaxed};

            static CHOSEN: AtomicPtr<Kernel> = AtomicPtr::new(null_mut());

            // Looks up the kernel by its word. Returns whether this processor can run it.
            pub fn choose() -> bool {
                let word = concat!(stringify!($kernel), "\0");
                CHOSEN.store(unsafe { calls::kernel(word.as_ptr().cast()) }, Relaxed);
                !chosen().is_null()
            }

            fn chosen() -> *const Kernel {
                CHOSEN.load(Relaxed)
            }

            pub fn valid_up_to(big: bool, units: &[u16]) -> usize {
                unsafe { calls::valid_up_to(chosen(), big, units.as_ptr(), units.len()) }
            }

            // The buffer must be long enough, and its address even.
            pub const CALLS: Calls = Calls {
                validate: |big, raw, _| 2 * valid_up_to(big, units(raw)),
                count: |big, raw, _| unsafe { calls::count(chosen(), big, units(raw).as_ptr(), raw.len() / 2) },
                to_utf8: |big, raw, to| unsafe {
                    calls::to_utf8(chosen(), big, units(raw).as_ptr(), raw.len() / 2, to.as_mut_ptr())
                },
                from_utf8: |big, text, to| unsafe {
                    2 * calls::from_utf8(chosen(), big, text.as_ptr(), text.len(), to.as_mut_ptr().cast())
                },
            };
        }
    };
}

kernel!(westmere);
kernel!(haswell);
kernel!(icelake);

/// Returns the kernels that this processor can run.
pub fn kernels() -> Vec<(&'static str, Calls)> {
    let all: [(_, fn() -> bool, Calls); 3] = [
        ("simdutf westmere", westmere::choose, westmere::CALLS),
        ("simdutf haswell", haswell::choose, haswell::CALLS),
        ("simdutf icelake", icelake::choose, icelake::CALLS),
    ];
    all.into_iter().filter(|(_, runs, _)| runs()).map(|(name, _, calls)| (name, calls)).collect()
}
