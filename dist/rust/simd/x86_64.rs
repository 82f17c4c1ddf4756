//! The registers of x86: of 16 bytes with SSE2, which x86-64 always has, and of 32 with AVX2.
//! Some operations are one instruction with SSSE3 or SSE4.1.

use super::{Half, Register};
#[cfg(target_arch = "x86")]
use core::arch::x86::*;
#[cfg(target_arch = "x86_64")]
use core::arch::x86_64::*;

pub(super) type Narrow = __m128i;
#[cfg(target_feature = "avx2")]
pub(super) type Wide = __m256i;
#[cfg(not(target_feature = "avx2"))]
pub(super) type Wide = __m128i;

/// Operations that are one instruction.
macro_rules! instructions {
    ($($name:ident $instruction:ident;)*) => { $(
        #[inline(always)]
        fn $name(self, other: Self) -> Self {
            // SAFETY: the target has the instruction.
            unsafe { $instruction(self, other) }
        }
    )* };
}

macro_rules! splats {
    ($($name:ident $T:ty, $instruction:ident;)*) => { $(
        #[inline(always)]
        fn $name(lane: $T) -> Self {
            // SAFETY: the target has the instruction.
            unsafe { $instruction(lane as _) }
        }
    )* };
}

macro_rules! shifts {
    ($($name:ident $instruction:ident;)*) => { $(
        #[inline(always)]
        fn $name(self, by: u32) -> Self {
            // SAFETY: the target has the instruction.
            unsafe { $instruction(self, _mm_cvtsi32_si128(by as i32)) }
        }
    )* };
}

/// Operations that are one instruction with SSE4.1, and several without.
macro_rules! newer {
    ($($name:ident $instruction:ident |$a:ident, $b:ident| $without:expr;)*) => { $(
        #[inline(always)]
        fn $name(self, other: Self) -> Self {
            let ($a, $b) = (self, other);
            #[cfg(target_feature = "sse4.1")]
            // SAFETY: the target has the instruction.
            return unsafe { $instruction($a, $b) };
            #[cfg(not(target_feature = "sse4.1"))]
            // SAFETY: each target has SSE2.
            return unsafe { $without };
        }
    )* };
}

impl Register for __m128i {
    const LEN: usize = 16;

    #[inline(always)]
    unsafe fn load(from: *const u8) -> Self {
        // SAFETY: the caller has the bytes.
        unsafe { _mm_loadu_si128(from.cast()) }
    }

    #[inline(always)]
    unsafe fn store(self, to: *mut u8) {
        // SAFETY: the caller has the bytes.
        unsafe { _mm_storeu_si128(to.cast(), self) }
    }

    #[inline(always)]
    fn bits(self) -> u64 {
        // SAFETY: each target has SSE2.
        unsafe { _mm_movemask_epi8(self) as u64 }
    }

    splats! { splat8 u8, _mm_set1_epi8; splat16 u16, _mm_set1_epi16; splat32 u32, _mm_set1_epi32; }
    shifts! {
        shl16 _mm_sll_epi16; shr16 _mm_srl_epi16; shl32 _mm_sll_epi32; shr32 _mm_srl_epi32;
    }
    instructions! {
        and _mm_and_si128; or _mm_or_si128; xor _mm_xor_si128;
        add8 _mm_add_epi8; add16 _mm_add_epi16; add32 _mm_add_epi32;
        sub8 _mm_sub_epi8; sub16 _mm_sub_epi16; sub32 _mm_sub_epi32; less16 _mm_subs_epu16;
        equal8 _mm_cmpeq_epi8; equal16 _mm_cmpeq_epi16; equal32 _mm_cmpeq_epi32;
        max8 _mm_max_epu8; min8 _mm_min_epu8;
        max_signed16 _mm_max_epi16; min_signed16 _mm_min_epi16;
    }
    newer! {
        max16 _mm_max_epu16 |a, b| _mm_add_epi16(a, _mm_subs_epu16(b, a));
        min16 _mm_min_epu16 |a, b| _mm_sub_epi16(a, _mm_subs_epu16(a, b));
        max32 _mm_max_epu32 |a, b| chosen(above(a, b), a, b);
        min32 _mm_min_epu32 |a, b| chosen(above(a, b), b, a);
    }
}

/// Whether the lanes of 32 bits of `a` are above those of `b`, without SSE4.1.
#[cfg(not(target_feature = "sse4.1"))]
#[inline(always)]
fn above(a: __m128i, b: __m128i) -> __m128i {
    // SAFETY: each target has SSE2.
    unsafe {
        let sign = _mm_set1_epi32(i32::MIN);
        _mm_cmpgt_epi32(_mm_xor_si128(a, sign), _mm_xor_si128(b, sign))
    }
}

#[cfg(not(target_feature = "sse4.1"))]
#[inline(always)]
fn chosen(mask: __m128i, a: __m128i, b: __m128i) -> __m128i {
    b.xor(mask.and(a.xor(b)))
}

impl Half for __m128i {
    const PICKS: bool = cfg!(target_feature = "ssse3");

    #[inline(always)]
    fn pick(self, indices: Self) -> Self {
        // The instruction makes a zero where the upper bit is set, and else looks at four bits.
        #[cfg(target_feature = "ssse3")]
        // SAFETY: the target has the instruction.
        return unsafe { _mm_shuffle_epi8(self, _mm_adds_epu8(indices, _mm_set1_epi8(0x70))) };
        #[cfg(not(target_feature = "ssse3"))]
        // SAFETY: both are 16 bytes.
        unsafe {
            let (mut bytes, mut picked) = ([0; 16], [0; 16]);
            self.store(bytes.as_mut_ptr());
            indices.store(picked.as_mut_ptr());
            picked = picked.map(|at| if at < 16 { bytes[usize::from(at)] } else { 0 });
            Self::load(picked.as_ptr())
        }
    }

    instructions! {
        zip_low8 _mm_unpacklo_epi8; zip_high8 _mm_unpackhi_epi8;
        cut_mask16 _mm_packs_epi16; cut_mask32 _mm_packs_epi32;
    }

    #[inline(always)]
    fn cut16(self, other: Self) -> Self {
        let low = Self::splat16(0xFF);
        // SAFETY: each target has SSE2.
        unsafe { _mm_packus_epi16(self.and(low), other.and(low)) }
    }

    #[inline(always)]
    fn cut32(self, other: Self) -> Self {
        #[cfg(target_feature = "sse4.1")]
        // SAFETY: the target has the instruction.
        return unsafe {
            let low = Self::splat32(0xFFFF);
            _mm_packus_epi32(self.and(low), other.and(low))
        };
        #[cfg(not(target_feature = "sse4.1"))]
        // SAFETY: each target has SSE2.
        unsafe {
            let signed = |lanes| _mm_srai_epi32(_mm_slli_epi32(lanes, 16), 16);
            _mm_packs_epi32(signed(self), signed(other))
        }
    }

    #[inline(always)]
    fn widen_low8(self) -> Self {
        self.zip_low8(Self::splat8(0))
    }

    #[inline(always)]
    fn widen_high8(self) -> Self {
        self.zip_high8(Self::splat8(0))
    }

    #[inline(always)]
    fn widen_low16(self) -> Self {
        // SAFETY: each target has SSE2.
        unsafe { _mm_unpacklo_epi16(self, Self::splat8(0)) }
    }

    #[inline(always)]
    fn widen_high16(self) -> Self {
        // SAFETY: each target has SSE2.
        unsafe { _mm_unpackhi_epi16(self, Self::splat8(0)) }
    }
}

#[cfg(target_feature = "avx2")]
impl Register for __m256i {
    const LEN: usize = 32;

    #[inline(always)]
    unsafe fn load(from: *const u8) -> Self {
        // SAFETY: the caller has the bytes.
        unsafe { _mm256_loadu_si256(from.cast()) }
    }

    #[inline(always)]
    unsafe fn store(self, to: *mut u8) {
        // SAFETY: the caller has the bytes.
        unsafe { _mm256_storeu_si256(to.cast(), self) }
    }

    #[inline(always)]
    fn bits(self) -> u64 {
        // SAFETY: the target has AVX2.
        unsafe { _mm256_movemask_epi8(self) as u32 as u64 }
    }

    splats! {
        splat8 u8, _mm256_set1_epi8; splat16 u16, _mm256_set1_epi16;
        splat32 u32, _mm256_set1_epi32;
    }
    shifts! {
        shl16 _mm256_sll_epi16; shr16 _mm256_srl_epi16;
        shl32 _mm256_sll_epi32; shr32 _mm256_srl_epi32;
    }
    instructions! {
        and _mm256_and_si256; or _mm256_or_si256; xor _mm256_xor_si256;
        add8 _mm256_add_epi8; add16 _mm256_add_epi16; add32 _mm256_add_epi32;
        sub8 _mm256_sub_epi8; sub16 _mm256_sub_epi16; sub32 _mm256_sub_epi32;
        less16 _mm256_subs_epu16;
        equal8 _mm256_cmpeq_epi8; equal16 _mm256_cmpeq_epi16; equal32 _mm256_cmpeq_epi32;
        max8 _mm256_max_epu8; min8 _mm256_min_epu8; max16 _mm256_max_epu16;
        min16 _mm256_min_epu16; max32 _mm256_max_epu32; min32 _mm256_min_epu32;
        max_signed16 _mm256_max_epi16; min_signed16 _mm256_min_epi16;
    }
}
