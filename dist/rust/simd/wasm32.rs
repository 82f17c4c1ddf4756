//! The registers of WebAssembly with `simd128`.

use super::{Half, Register};
use core::arch::wasm32::*;

pub(super) type Narrow = v128;
pub(super) type Wide = v128;

/// Operations that are one instruction.
macro_rules! instructions {
    ($($name:ident $instruction:ident;)*) => { $(
        #[inline(always)]
        fn $name(self, other: Self) -> Self {
            $instruction(self, other)
        }
    )* };
}

/// What is made of one register.
macro_rules! made {
    ($($name:ident($($parameter:ident: $T:ty),*) -> $Made:ty |$register:ident| $made:expr;)*) => { $(
        #[inline(always)]
        fn $name(self $(, $parameter: $T)*) -> $Made {
            let $register = self;
            $made
        }
    )* };
}

impl Register for v128 {
    const LEN: usize = 16;

    #[inline(always)]
    unsafe fn load(from: *const u8) -> Self {
        // SAFETY: the caller has the bytes.
        unsafe { v128_load(from.cast()) }
    }

    #[inline(always)]
    unsafe fn store(self, to: *mut u8) {
        // SAFETY: the caller has the bytes.
        unsafe { v128_store(to.cast(), self) }
    }

    #[inline(always)]
    fn splat8(lane: u8) -> Self {
        u8x16_splat(lane)
    }

    #[inline(always)]
    fn splat16(lane: u16) -> Self {
        u16x8_splat(lane)
    }

    #[inline(always)]
    fn splat32(lane: u32) -> Self {
        u32x4_splat(lane)
    }

    made! {
        bits() -> u64 |v| u64::from(u8x16_bitmask(v));
        shl16(by: u32) -> Self |v| u16x8_shl(v, by);
        shr16(by: u32) -> Self |v| u16x8_shr(v, by);
        shl32(by: u32) -> Self |v| u32x4_shl(v, by);
        shr32(by: u32) -> Self |v| u32x4_shr(v, by);
    }
    instructions! {
        and v128_and; or v128_or; xor v128_xor;
        add8 u8x16_add; add16 u16x8_add; add32 u32x4_add;
        sub8 u8x16_sub; sub16 u16x8_sub; sub32 u32x4_sub; less16 u16x8_sub_sat;
        equal8 u8x16_eq; equal16 u16x8_eq; equal32 u32x4_eq;
        max8 u8x16_max; max16 u16x8_max; max32 u32x4_max;
        min8 u8x16_min; min16 u16x8_min; min32 u32x4_min;
        max_signed16 i16x8_max; min_signed16 i16x8_min;
    }
}

impl Half for v128 {
    const PICKS: bool = true;

    instructions! {
        pick u8x16_swizzle; cut_mask16 i8x16_narrow_i16x8; cut_mask32 i16x8_narrow_i32x4;
    }
    made! {
        zip_low8(other: Self) -> Self |v| u8x16_shuffle::<
            0, 16, 1, 17, 2, 18, 3, 19, 4, 20, 5, 21, 6, 22, 7, 23>(v, other);
        zip_high8(other: Self) -> Self |v| u8x16_shuffle::<
            8, 24, 9, 25, 10, 26, 11, 27, 12, 28, 13, 29, 14, 30, 15, 31>(v, other);
        cut16(other: Self) -> Self |v| {
            let low = u16x8_splat(0xFF);
            u8x16_narrow_i16x8(v128_and(v, low), v128_and(other, low))
        };
        cut32(other: Self) -> Self |v| {
            let low = u32x4_splat(0xFFFF);
            u16x8_narrow_i32x4(v128_and(v, low), v128_and(other, low))
        };
        widen_low8() -> Self |v| u16x8_extend_low_u8x16(v);
        widen_high8() -> Self |v| u16x8_extend_high_u8x16(v);
        widen_low16() -> Self |v| u32x4_extend_low_u16x8(v);
        widen_high16() -> Self |v| u32x4_extend_high_u16x8(v);
    }
}
