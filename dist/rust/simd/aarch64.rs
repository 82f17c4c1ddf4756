//! The registers of ARM64, with NEON, which each processor has.

use super::{Half, Register};
use core::arch::aarch64::*;

pub(super) type Narrow = uint8x16_t;
pub(super) type Wide = uint8x16_t;

/// Operations on lanes of another type: how a register is taken as such lanes, and made of them.
macro_rules! lanes {
    ($from:ident $to:ident: $($name:ident $instruction:ident;)*) => { $(
        #[inline(always)]
        fn $name(self, other: Self) -> Self {
            // SAFETY: each target has NEON.
            unsafe { $to($instruction($from(self), $from(other))) }
        }
    )* };
}

/// Operations on lanes of 8 bits.
macro_rules! bytes {
    ($($name:ident $instruction:ident;)*) => { $(
        #[inline(always)]
        fn $name(self, other: Self) -> Self {
            // SAFETY: each target has NEON.
            unsafe { $instruction(self, other) }
        }
    )* };
}

macro_rules! shifts {
    ($($name:ident |$register:ident, $by:ident| $made:expr;)*) => { $(
        #[inline(always)]
        fn $name(self, $by: u32) -> Self {
            let $register = self;
            // SAFETY: each target has NEON.
            unsafe { $made }
        }
    )* };
}

/// What is made of one register or of two.
macro_rules! made {
    ($($name:ident |$register:ident $(, $other:ident)?| $made:expr;)*) => { $(
        #[inline(always)]
        fn $name(self $(, $other: Self)?) -> Self {
            let $register = self;
            // SAFETY: each target has NEON.
            unsafe { $made }
        }
    )* };
}

impl Register for uint8x16_t {
    const LEN: usize = 16;

    #[inline(always)]
    unsafe fn load(from: *const u8) -> Self {
        // SAFETY: the caller has the bytes.
        unsafe { vld1q_u8(from) }
    }

    #[inline(always)]
    unsafe fn store(self, to: *mut u8) {
        // SAFETY: the caller has the bytes.
        unsafe { vst1q_u8(to, self) }
    }

    #[inline(always)]
    fn splat8(lane: u8) -> Self {
        // SAFETY: each target has NEON.
        unsafe { vdupq_n_u8(lane) }
    }

    #[inline(always)]
    fn splat16(lane: u16) -> Self {
        // SAFETY: each target has NEON.
        unsafe { vreinterpretq_u8_u16(vdupq_n_u16(lane)) }
    }

    #[inline(always)]
    fn splat32(lane: u32) -> Self {
        // SAFETY: each target has NEON.
        unsafe { vreinterpretq_u8_u32(vdupq_n_u32(lane)) }
    }

    #[inline(always)]
    fn bits(self) -> u64 {
        const WEIGHTS: [u8; 16] = [1, 2, 4, 8, 16, 32, 64, 128, 1, 2, 4, 8, 16, 32, 64, 128];
        // SAFETY: each target has NEON, and there are 16 weights.
        unsafe {
            let set = vcltzq_s8(vreinterpretq_s8_u8(self));
            let weights = vandq_u8(set, vld1q_u8(WEIGHTS.as_ptr()));
            let (low, high) = (vget_low_u8(weights), vget_high_u8(weights));
            u64::from(vaddv_u8(low)) | u64::from(vaddv_u8(high)) << 8
        }
    }

    shifts! {
        shl16 |v, by| vreinterpretq_u8_u16(
            vshlq_u16(vreinterpretq_u16_u8(v), vdupq_n_s16(by as i16)));
        shr16 |v, by| vreinterpretq_u8_u16(
            vshlq_u16(vreinterpretq_u16_u8(v), vdupq_n_s16(-(by as i16))));
        shl32 |v, by| vreinterpretq_u8_u32(
            vshlq_u32(vreinterpretq_u32_u8(v), vdupq_n_s32(by as i32)));
        shr32 |v, by| vreinterpretq_u8_u32(
            vshlq_u32(vreinterpretq_u32_u8(v), vdupq_n_s32(-(by as i32))));
    }
    bytes! {
        and vandq_u8; or vorrq_u8; xor veorq_u8; add8 vaddq_u8; sub8 vsubq_u8;
        equal8 vceqq_u8; max8 vmaxq_u8; min8 vminq_u8;
    }
    lanes! { vreinterpretq_u16_u8 vreinterpretq_u8_u16:
        add16 vaddq_u16; sub16 vsubq_u16; less16 vqsubq_u16; equal16 vceqq_u16;
        max16 vmaxq_u16; min16 vminq_u16;
    }
    lanes! { vreinterpretq_u32_u8 vreinterpretq_u8_u32:
        add32 vaddq_u32; sub32 vsubq_u32; equal32 vceqq_u32; max32 vmaxq_u32; min32 vminq_u32;
    }
    lanes! { vreinterpretq_s16_u8 vreinterpretq_u8_s16:
        max_signed16 vmaxq_s16; min_signed16 vminq_s16;
    }
}

impl Half for uint8x16_t {
    const PICKS: bool = true;

    bytes! { pick vqtbl1q_u8; zip_low8 vzip1q_u8; zip_high8 vzip2q_u8; }
    made! {
        cut16 |v, other| vcombine_u8(
            vmovn_u16(vreinterpretq_u16_u8(v)), vmovn_u16(vreinterpretq_u16_u8(other)));
        cut32 |v, other| vreinterpretq_u8_u16(vcombine_u16(
            vmovn_u32(vreinterpretq_u32_u8(v)), vmovn_u32(vreinterpretq_u32_u8(other))));
        cut_mask16 |v, other| v.cut16(other);
        cut_mask32 |v, other| v.cut32(other);
        widen_low8 |v| vreinterpretq_u8_u16(vmovl_u8(vget_low_u8(v)));
        widen_high8 |v| vreinterpretq_u8_u16(vmovl_u8(vget_high_u8(v)));
        widen_low16 |v| vreinterpretq_u8_u32(vmovl_u16(vget_low_u16(vreinterpretq_u16_u8(v))));
        widen_high16 |v| vreinterpretq_u8_u32(vmovl_u16(vget_high_u16(vreinterpretq_u16_u8(v))));
    }
}
