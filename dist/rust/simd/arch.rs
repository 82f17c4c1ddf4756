//! Registers that are arrays, for a target that has no other module.

use super::{Half, Register};

pub(super) type Narrow = Bytes;
pub(super) type Wide = Bytes;

/// The bytes of a register.
#[derive(Clone, Copy)]
#[repr(transparent)]
pub(super) struct Bytes([u8; 16]);

/// The lanes of a register, in the byte order of the machine.
macro_rules! views {
    ($($get:ident $make:ident $T:ident $size:literal $len:literal;)*) => { $(
        #[inline(always)]
        fn $get(register: Bytes) -> [$T; $len] {
            core::array::from_fn(|lane| {
                let bytes = core::array::from_fn::<u8, $size, _>(|at| register.0[lane * $size + at]);
                $T::from_ne_bytes(bytes)
            })
        }

        #[inline(always)]
        fn $make(lane: impl Fn(usize) -> $T) -> Bytes {
            Bytes(core::array::from_fn(|at| lane(at / $size).to_ne_bytes()[at % $size]))
        }
    )* };
}
views! { get8 make8 u8 1 16; get16 make16 u16 2 8; get32 make32 u32 4 4; }

/// Operations on each two lanes.
macro_rules! lanewise {
    ($($name:ident $get:ident $make:ident |$a:ident, $b:ident| $made:expr;)*) => { $(
        #[inline(always)]
        fn $name(self, other: Self) -> Self {
            let (first, second) = ($get(self), $get(other));
            $make(|at| {
                let ($a, $b) = (first[at], second[at]);
                $made
            })
        }
    )* };
}

macro_rules! splats {
    ($($name:ident $make:ident $T:ty;)*) => { $(
        #[inline(always)]
        fn $name(lane: $T) -> Self {
            $make(|_| lane)
        }
    )* };
}

macro_rules! shifts {
    ($($name:ident $get:ident $make:ident $op:tt;)*) => { $(
        #[inline(always)]
        fn $name(self, by: u32) -> Self {
            let lanes = $get(self);
            $make(|at| lanes[at] $op by)
        }
    )* };
}

impl Register for Bytes {
    const LEN: usize = 16;

    #[inline(always)]
    unsafe fn load(from: *const u8) -> Self {
        // SAFETY: the caller has the bytes.
        Bytes(unsafe { from.cast::<[u8; 16]>().read() })
    }

    #[inline(always)]
    unsafe fn store(self, to: *mut u8) {
        // SAFETY: the caller has the bytes.
        unsafe { to.cast::<[u8; 16]>().write(self.0) }
    }

    #[inline(always)]
    fn bits(self) -> u64 {
        let bit = |(at, byte): (usize, &u8)| u64::from(byte >> 7) << at;
        self.0.iter().enumerate().map(bit).sum()
    }

    splats! { splat8 make8 u8; splat16 make16 u16; splat32 make32 u32; }
    shifts! { shl16 get16 make16 <<; shr16 get16 make16 >>; shl32 get32 make32 <<; shr32 get32 make32 >>; }
    lanewise! {
        and get8 make8 |a, b| a & b; or get8 make8 |a, b| a | b; xor get8 make8 |a, b| a ^ b;
        add8 get8 make8 |a, b| a.wrapping_add(b); add16 get16 make16 |a, b| a.wrapping_add(b);
        add32 get32 make32 |a, b| a.wrapping_add(b); sub8 get8 make8 |a, b| a.wrapping_sub(b);
        sub16 get16 make16 |a, b| a.wrapping_sub(b); sub32 get32 make32 |a, b| a.wrapping_sub(b);
        less16 get16 make16 |a, b| a.saturating_sub(b);
        equal8 get8 make8 |a, b| if a == b { !0 } else { 0 };
        equal16 get16 make16 |a, b| if a == b { !0 } else { 0 };
        equal32 get32 make32 |a, b| if a == b { !0 } else { 0 };
        max8 get8 make8 |a, b| a.max(b); max16 get16 make16 |a, b| a.max(b);
        max32 get32 make32 |a, b| a.max(b); min8 get8 make8 |a, b| a.min(b);
        min16 get16 make16 |a, b| a.min(b); min32 get32 make32 |a, b| a.min(b);
        max_signed16 get16 make16 |a, b| (a as i16).max(b as i16) as u16;
        min_signed16 get16 make16 |a, b| (a as i16).min(b as i16) as u16;
    }
}

/// The lanes of the first register, and behind them the ones of the second.
#[inline(always)]
fn of_both<T: Copy, const N: usize>(first: [T; N], second: [T; N], lane: usize) -> T {
    if lane < N {
        first[lane]
    } else {
        second[lane - N]
    }
}

impl Half for Bytes {
    const PICKS: bool = false;

    #[inline(always)]
    fn pick(self, indices: Self) -> Self {
        Bytes(
            indices
                .0
                .map(|at| if at < 16 { self.0[usize::from(at)] } else { 0 }),
        )
    }

    #[inline(always)]
    fn zip_low8(self, other: Self) -> Self {
        make8(|at| {
            if at % 2 == 0 {
                self.0[at / 2]
            } else {
                other.0[at / 2]
            }
        })
    }

    #[inline(always)]
    fn zip_high8(self, other: Self) -> Self {
        make8(|at| {
            if at % 2 == 0 {
                self.0[8 + at / 2]
            } else {
                other.0[8 + at / 2]
            }
        })
    }

    #[inline(always)]
    fn cut16(self, other: Self) -> Self {
        let (first, second) = (get16(self), get16(other));
        make8(|at| of_both(first, second, at) as u8)
    }

    #[inline(always)]
    fn cut32(self, other: Self) -> Self {
        let (first, second) = (get32(self), get32(other));
        make16(|at| of_both(first, second, at) as u16)
    }

    #[inline(always)]
    fn cut_mask16(self, other: Self) -> Self {
        self.cut16(other)
    }

    #[inline(always)]
    fn cut_mask32(self, other: Self) -> Self {
        self.cut32(other)
    }

    #[inline(always)]
    fn widen_low8(self) -> Self {
        make16(|at| u16::from(self.0[at]))
    }

    #[inline(always)]
    fn widen_high8(self) -> Self {
        make16(|at| u16::from(self.0[8 + at]))
    }

    #[inline(always)]
    fn widen_low16(self) -> Self {
        let lanes = get16(self);
        make32(|at| u32::from(lanes[at]))
    }

    #[inline(always)]
    fn widen_high16(self) -> Self {
        let lanes = get16(self);
        make32(|at| u32::from(lanes[4 + at]))
    }
}
