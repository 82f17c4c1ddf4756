//! What the crates use of `std::simd`, for stable Rust. This is written by hand, and tested, not
//! proved.
//!
//! A vector is an array. An operation takes and makes it in registers of `arch`: each has `Narrow`,
//! of 16 bytes, and `Wide`, which is the widest.

// With the cfg `dethrux_arrays` there are no instructions, for tests and for Miri.
#[cfg_attr(
    all(
        not(dethrux_arrays),
        any(target_arch = "x86_64", target_arch = "x86"),
        target_feature = "sse2"
    ),
    path = "x86_64.rs"
)]
#[cfg_attr(
    all(not(dethrux_arrays), target_arch = "aarch64", target_feature = "neon"),
    path = "aarch64.rs"
)]
#[cfg_attr(
    all(
        not(dethrux_arrays),
        target_arch = "wasm32",
        target_feature = "simd128"
    ),
    path = "wasm32.rs"
)]
mod arch;

use arch::{Narrow, Wide};
use core::mem::{size_of, MaybeUninit};
use core::ops::{Add, BitAnd, BitOr, BitXor, Not, Shl, Shr, Sub};

/// Operations on two registers.
macro_rules! binary {
    ($($name:ident)*) => { $(fn $name(self, other: Self) -> Self;)* };
}

/// A register. The number in a name is the number of bits of a lane.
trait Register: Copy {
    const LEN: usize;
    /// # Safety
    ///
    /// There are `LEN` bytes to read.
    unsafe fn load(from: *const u8) -> Self;
    /// # Safety
    ///
    /// There are `LEN` bytes to write.
    unsafe fn store(self, to: *mut u8);
    fn splat8(lane: u8) -> Self;
    fn splat16(lane: u16) -> Self;
    fn splat32(lane: u32) -> Self;
    fn shl16(self, by: u32) -> Self;
    fn shr16(self, by: u32) -> Self;
    fn shl32(self, by: u32) -> Self;
    fn shr32(self, by: u32) -> Self;
    /// The upper bit of each byte.
    fn bits(self) -> u64;
    binary! {
        and or xor add8 add16 add32 sub8 sub16 sub32 less16 equal8 equal16 equal32
        max8 max16 max32 min8 min16 min32 max_signed16 min_signed16
    }
}

/// A register of 16 bytes.
trait Half: Register {
    /// Whether `pick` is an instruction.
    const PICKS: bool;
    /// The bytes at these indices, and zero for an index from 16 on.
    fn pick(self, indices: Self) -> Self;
    // The lower or the upper bytes of both in turn; the lanes of both, each cut to its lower half;
    // the same for lanes that are all ones or zero.
    binary! { zip_low8 zip_high8 cut16 cut32 cut_mask16 cut_mask32 }
    /// The lower lanes, or the upper ones, each as one of twice its bits.
    fn widen_low8(self) -> Self;
    fn widen_high8(self) -> Self;
    fn widen_low16(self) -> Self;
    fn widen_high16(self) -> Self;
}

/// Lanes, from the first on.
#[derive(Clone, Copy, Debug, PartialEq, Eq)]
#[repr(transparent)]
pub struct Simd<T, const N: usize>([T; N]);

/// Lanes that are all ones or zero.
#[derive(Clone, Copy, Debug, PartialEq, Eq)]
#[repr(transparent)]
pub struct Mask<T, const N: usize>([T; N]);

macro_rules! names {
    ($($name:ident: $T:ty, $len:literal;)*) => {
        $(#[allow(non_camel_case_types)] pub type $name = Simd<$T, $len>;)*
    };
}
names! {
    u8x8: u8, 8; u8x16: u8, 16; u8x32: u8, 32; u8x64: u8, 64;
    u16x4: u16, 4; u16x8: u16, 8; u16x16: u16, 16; u16x32: u16, 32;
    u32x4: u32, 4; u32x8: u32, 8; u32x16: u32, 16;
}

/// Reads the register at an offset. A value of fewer bytes is followed by zeros.
#[inline(always)]
fn read<R>(from: &R, at: usize) -> Narrow {
    let bytes = (from as *const R).cast::<u8>();
    if size_of::<R>() < 16 {
        let mut whole = [0; 16];
        // SAFETY: the array has more bytes than the value.
        unsafe {
            bytes.copy_to_nonoverlapping(whole.as_mut_ptr(), size_of::<R>());
            return Narrow::load(whole.as_ptr());
        }
    }
    assert!(at + 16 <= size_of::<R>());
    // SAFETY: there are 16 bytes.
    unsafe { Narrow::load(bytes.add(at)) }
}

/// Makes an array of at most 16, or of 32 or 64 bytes, register by register.
#[inline(always)]
fn make<R>(part: impl Fn(usize) -> Narrow) -> R {
    let mut made = MaybeUninit::<R>::uninit();
    let to = made.as_mut_ptr().cast::<u8>();
    assert!(matches!(size_of::<R>(), 0..=16 | 32 | 64));
    // SAFETY: exactly the bytes of the value are written.
    unsafe {
        if size_of::<R>() < 16 {
            let mut whole = [0_u8; 16];
            part(0).store(whole.as_mut_ptr());
            to.copy_from_nonoverlapping(whole.as_ptr(), size_of::<R>());
        } else {
            part(0).store(to);
        }
        if size_of::<R>() >= 32 {
            part(16).store(to.add(16));
        }
        if size_of::<R>() == 64 {
            part(32).store(to.add(32));
            part(48).store(to.add(48));
        }
        made.assume_init()
    }
}

/// Makes an array by an operation on the registers of two.
#[inline(always)]
fn lanewise<A, R>(
    a: &A,
    b: &A,
    narrow: impl Fn(Narrow, Narrow) -> Narrow,
    wide: impl Fn(Wide, Wide) -> Wide,
) -> R {
    const { assert!(size_of::<A>() == size_of::<R>()) };
    if size_of::<R>() < Wide::LEN || Wide::LEN == 16 {
        return make(|at| narrow(read(a, at), read(b, at)));
    }
    let mut made = MaybeUninit::<R>::uninit();
    let to = made.as_mut_ptr().cast::<u8>();
    let (a, b) = ((a as *const A).cast::<u8>(), (b as *const A).cast::<u8>());
    const { assert!(Wide::LEN == 16 || Wide::LEN == 32 && size_of::<R>() <= 64) };
    // SAFETY: the three have 32 or 64 bytes.
    unsafe {
        wide(Wide::load(a), Wide::load(b)).store(to);
        if size_of::<R>() == 64 {
            wide(Wide::load(a.add(32)), Wide::load(b.add(32))).store(to.add(32));
        }
        made.assume_init()
    }
}

/// A type of lanes.
pub trait Lane: Copy {
    #[doc(hidden)]
    fn splat<const N: usize>(self) -> [Self; N];
}

/// Lanes of one type that can become lanes of another.
pub trait Cast<U>: Lane {
    #[doc(hidden)]
    fn cast<const N: usize>(from: [Self; N]) -> [U; N];
}

impl<T: Lane, const N: usize> Simd<T, N> {
    #[inline(always)]
    pub fn splat(lane: T) -> Self {
        Simd(lane.splat())
    }

    #[inline(always)]
    pub const fn from_array(lanes: [T; N]) -> Self {
        Simd(lanes)
    }

    #[inline(always)]
    pub const fn to_array(self) -> [T; N] {
        self.0
    }

    /// Reads the first lanes.
    #[inline(always)]
    pub fn from_slice(from: &[T]) -> Self {
        // SAFETY: the slice has `N` lanes.
        Simd(unsafe { from[..N].as_ptr().cast::<[T; N]>().read() })
    }

    /// Writes the lanes to the front of a slice.
    #[inline(always)]
    pub fn copy_to_slice(self, to: &mut [T]) {
        // SAFETY: the slice has `N` lanes.
        unsafe { to[..N].as_mut_ptr().cast::<[T; N]>().write(self.0) }
    }

    #[inline(always)]
    pub fn cast<U>(self) -> Simd<U, N>
    where
        T: Cast<U>,
    {
        Simd(T::cast(self.0))
    }

    /// Returns `LEN` lanes from `START` on.
    #[inline(always)]
    pub fn extract<const START: usize, const LEN: usize>(self) -> Simd<T, LEN> {
        const { assert!(START + LEN <= N) };
        // SAFETY: they are lanes of the array.
        Simd(unsafe { self.0.as_ptr().add(START).cast::<[T; LEN]>().read() })
    }

    /// Returns the lanes of both at constant positions.
    #[inline(always)]
    pub fn shuffled<P: Positions, const M: usize>(self, other: Self) -> Simd<T, M> {
        if !Narrow::PICKS {
            return Simd(core::array::from_fn(|lane| match P::AT[lane] {
                at if at < N => self.0[at],
                at => other.0[at - N],
            }));
        }
        let places = const { Places::of::<T, N>(P::AT) };
        Simd(make(|to| {
            let mut found = Narrow::splat8(0);
            let mut source = |at: usize, from: &[T; N], offset: usize| {
                if places.uses[to / 16][at] {
                    let picked = read(from, offset).pick(read(&places.indices[to / 16][at], 0));
                    found = found.or(picked);
                }
            };
            let size = size_of::<[T; N]>();
            source(0, &self.0, 0);
            if size > 16 {
                source(1, &self.0, 16);
            }
            if size > 32 {
                source(2, &self.0, 32);
                source(3, &self.0, 48);
            }
            source(4, &other.0, 0);
            if size > 16 {
                source(5, &other.0, 16);
            }
            if size > 32 {
                source(6, &other.0, 32);
                source(7, &other.0, 48);
            }
            found
        }))
    }
}

/// The constant positions of `shuffle!`.
pub trait Positions {
    const AT: &'static [usize];
}

/// For each register that is made, and each of the four of the two vectors, what to pick of it.
struct Places {
    indices: [[[u8; 16]; 8]; 4],
    uses: [[bool; 8]; 4],
}

impl Places {
    const fn of<T, const N: usize>(positions: &[usize]) -> Self {
        let mut places = Places {
            indices: [[[0x80; 16]; 8]; 4],
            uses: [[false; 8]; 4],
        };
        let (size, len) = (size_of::<T>(), N * size_of::<T>());
        let mut to = 0;
        while to < positions.len() * size {
            let from = positions[to / size] * size + to % size;
            let (source, place) = (from / len * 4 + from % len / 16, from % len % 16);
            places.indices[to / 16][source][to % 16] = place as u8;
            places.uses[to / 16][source] = true;
            to += 1;
        }
        places
    }
}

/// `shuffle!(a, b, [..])` is the lanes of both at constant positions: those of `b` follow the ones
/// of `a`.
macro_rules! shuffle {
    ($a:expr, $b:expr, [$($at:expr),* $(,)?] $(,)?) => {{
        struct At;
        impl $crate::proved::simd::Positions for At {
            const AT: &'static [usize] = &[$($at),*];
        }
        ($a).shuffled::<At, { [$($at),*].len() }>($b)
    }};
}

/// `swizzle!(a, [..])` is the lanes at constant positions.
macro_rules! swizzle {
    ($a:expr, [$($at:expr),* $(,)?] $(,)?) => {{
        let a = $a;
        $crate::proved::simd::shuffle!(a, a, [$($at),*])
    }};
}

pub(crate) use {shuffle, swizzle};

/// What a type of lanes has by operations of registers.
macro_rules! lanes {
    ($($T:ident: $splat:ident $equal:ident $max:ident $min:ident
        $(, $Trait:ident $method:ident $op:ident)*;)*) => { $(
        impl Lane for $T {
            #[inline(always)]
            fn splat<const N: usize>(self) -> [$T; N] {
                let none = [0 as $T; N];
                let (narrow, wide) = (Narrow::$splat(self as _), Wide::$splat(self as _));
                lanewise(&none, &none, |_, _| narrow, |_, _| wide)
            }
        }

        impl<const N: usize> Simd<$T, N> {
            #[inline(always)]
            pub fn simd_eq(self, other: Self) -> Mask<$T, N> {
                Mask(lanewise(&self.0, &other.0, Narrow::$equal, Wide::$equal))
            }

            #[inline(always)]
            pub fn simd_ne(self, other: Self) -> Mask<$T, N> {
                Mask((!Simd(self.simd_eq(other).0)).0)
            }

            #[inline(always)]
            pub fn simd_ge(self, other: Self) -> Mask<$T, N> {
                self.simd_max(other).simd_eq(self)
            }

            #[inline(always)]
            pub fn simd_lt(self, other: Self) -> Mask<$T, N> {
                Mask((!Simd(self.simd_ge(other).0)).0)
            }

            #[inline(always)]
            pub fn simd_gt(self, other: Self) -> Mask<$T, N> {
                other.simd_lt(self)
            }

            #[inline(always)]
            pub fn simd_max(self, other: Self) -> Self {
                Simd(lanewise(&self.0, &other.0, Narrow::$max, Wide::$max))
            }

            #[inline(always)]
            pub fn simd_min(self, other: Self) -> Self {
                Simd(lanewise(&self.0, &other.0, Narrow::$min, Wide::$min))
            }
        }

        impl<const N: usize> Mask<$T, N> {
            /// Returns the lanes of `a` where this is all ones, and else those of `b`.
            #[inline(always)]
            pub fn select(self, a: Simd<$T, N>, b: Simd<$T, N>) -> Simd<$T, N> {
                let mask = Simd(self.0);
                (mask & a) | (!mask & b)
            }
        }

        impl<const N: usize> Not for Simd<$T, N> {
            type Output = Self;

            #[inline(always)]
            fn not(self) -> Self {
                self ^ Self::splat(!0)
            }
        }

        operators! { $T: BitAnd bitand and, BitOr bitor or, BitXor bitxor xor
            $(, $Trait $method $op)* }
    )* };
}

macro_rules! operators {
    ($T:ident: $($Trait:ident $method:ident $op:ident),*) => { $(
        impl<const N: usize> $Trait for Simd<$T, N> {
            type Output = Self;

            #[inline(always)]
            fn $method(self, other: Self) -> Self {
                Simd(lanewise(&self.0, &other.0, Narrow::$op, Wide::$op))
            }
        }
    )* };
}

lanes! {
    u8: splat8 equal8 max8 min8, Add add add8, Sub sub sub8;
    u16: splat16 equal16 max16 min16, Add add add16, Sub sub sub16;
    u32: splat32 equal32 max32 min32, Add add add32, Sub sub sub32;
    i16: splat16 equal16 max_signed16 min_signed16;
}

impl<const N: usize> Simd<u16, N> {
    #[inline(always)]
    pub fn saturating_sub(self, other: Self) -> Self {
        Simd(lanewise(&self.0, &other.0, Narrow::less16, Wide::less16))
    }

    #[inline(always)]
    pub fn reduce_or(self) -> u16 {
        self.0.iter().fold(0, |all, lane| all | lane)
    }
}

/// Shifts of all lanes by the same number of bits.
macro_rules! shifts {
    ($($T:ident $Trait:ident $method:ident $op:ident;)*) => { $(
        impl<const N: usize> $Trait for Simd<$T, N> {
            type Output = Self;

            #[inline(always)]
            fn $method(self, bits: Self) -> Self {
                debug_assert!(bits.0.iter().all(|it| *it == bits.0[0]), "one number of bits");
                let by = bits.0[0] as u32 % $T::BITS;
                Simd(lanewise(&self.0, &self.0, |v, _| v.$op(by), |v, _| v.$op(by)))
            }
        }
    )* };
}
shifts! {
    u16 Shl shl shl16; u16 Shr shr shr16; u32 Shl shl shl32; u32 Shr shr shr32;
}

/// No instruction shifts bytes, so the bits that a byte gets from the next one are cleared.
impl<const N: usize> Shl for Simd<u8, N> {
    type Output = Self;

    #[inline(always)]
    fn shl(self, bits: Self) -> Self {
        let by = bits.0[0] as u32 % 8;
        let all = lanewise(&self.0, &self.0, |v, _| v.shl16(by), |v, _| v.shl16(by));
        Simd::<u8, N>(all) & Simd::splat(0xFF << by)
    }
}

impl<const N: usize> Shr for Simd<u8, N> {
    type Output = Self;

    #[inline(always)]
    fn shr(self, bits: Self) -> Self {
        let by = bits.0[0] as u32 % 8;
        let all = lanewise(&self.0, &self.0, |v, _| v.shr16(by), |v, _| v.shr16(by));
        Simd::<u8, N>(all) & Simd::splat(0xFF >> by)
    }
}

/// Lanes of half the bits: the lower half of each.
macro_rules! cuts {
    ($($T:ty => $U:ty: $cut:ident;)*) => { $(
        impl Cast<$U> for $T {
            #[inline(always)]
            fn cast<const N: usize>(from: [$T; N]) -> [$U; N] {
                make(|at| {
                    let low = read(&from, 2 * at);
                    let has_high = size_of::<[$T; N]>() > 16;
                    low.$cut(if has_high { read(&from, 2 * at + 16) } else { low })
                })
            }
        }
    )* };
}
cuts! { u16 => u8: cut16; i16 => u8: cut16; u32 => u16: cut32; }

/// Lanes of twice the bits.
macro_rules! widens {
    ($($T:ty => $U:ty: $low:ident $high:ident;)*) => { $(
        impl Cast<$U> for $T {
            #[inline(always)]
            fn cast<const N: usize>(from: [$T; N]) -> [$U; N] {
                make(|at| {
                    let part = read(&from, at / 32 * 16);
                    if at % 32 == 0 { part.$low() } else { part.$high() }
                })
            }
        }
    )* };
}
widens! { u8 => u16: widen_low8 widen_high8; u16 => u32: widen_low16 widen_high16; }

impl Cast<i16> for u16 {
    #[inline(always)]
    fn cast<const N: usize>(from: [u16; N]) -> [i16; N] {
        lanewise(&from, &from, |v, _| v, |v, _| v)
    }
}

impl<const N: usize> Mask<u8, N> {
    /// Returns a bit for each lane.
    #[inline(always)]
    pub fn to_bitmask(self) -> u64 {
        if N < Wide::LEN || Wide::LEN == 16 {
            let mut bits = read(&self.0, 0).bits();
            if N > 16 {
                bits |= read(&self.0, 16).bits() << 16;
            }
            if N > 32 {
                bits |= read(&self.0, 32).bits() << 32 | read(&self.0, 48).bits() << 48;
            }
            return if N < 16 { bits & ((1 << N) - 1) } else { bits };
        }
        // SAFETY: there are 32 or 64 bytes.
        unsafe {
            let bits = Wide::load(self.0.as_ptr()).bits();
            match N {
                32 => bits,
                _ => bits | Wide::load(self.0.as_ptr().add(32)).bits() << 32,
            }
        }
    }
}

/// Masks of wider lanes, which become narrower first.
macro_rules! bitmasks {
    ($($T:ty => $U:ty: $cut:ident;)*) => { $(
        impl<const N: usize> Mask<$T, N> {
            /// Returns a bit for each lane.
            #[inline(always)]
            pub fn to_bitmask(self) -> u64 {
                let part = |at: usize| {
                    let low = read(&self.0, 2 * at);
                    let has_high = size_of::<[$T; N]>() > 16;
                    low.$cut(if has_high { read(&self.0, 2 * at + 16) } else { low })
                };
                if size_of::<[$T; N]>() == 64 {
                    return Mask::<$U, N>(make(part)).to_bitmask();
                }
                // The upper lanes repeat the lower ones if there are fewer.
                part(0).mask_bits::<$U>() & ((1 << N) - 1)
            }
        }
    )* };
}

/// The bits of the lanes of a register.
trait MaskBits: Half {
    #[inline(always)]
    fn mask_bits<T>(self) -> u64 {
        match size_of::<T>() {
            1 => self.bits(),
            _ => self.cut_mask16(self).bits(),
        }
    }
}
impl<R: Half> MaskBits for R {}
bitmasks! { u16 => u8: cut_mask16; u32 => u16: cut_mask32; }

impl<const N: usize> Simd<u8, N> {
    /// Returns the lanes of both in turn: the first half and the second half.
    #[inline(always)]
    pub fn interleave(self, other: Self) -> (Self, Self) {
        let part = |at: usize| {
            let (a, b) = (read(&self.0, at / 32 * 16), read(&other.0, at / 32 * 16));
            if at % 32 == 0 {
                a.zip_low8(b)
            } else {
                a.zip_high8(b)
            }
        };
        const { assert!(N >= 16) };
        (Simd(make(part)), Simd(make(|at| part(N + at))))
    }
}

impl u8x16 {
    /// Returns the bytes at these indices, and zero for an index from 16 on.
    #[inline(always)]
    pub fn swizzle_dyn(self, indices: Self) -> Self {
        Simd(make(|_| read(&self.0, 0).pick(read(&indices.0, 0))))
    }
}

/// Lanes as their bytes, the low byte first.
macro_rules! bytes {
    ($($T:ident $len:literal $bytes:literal;)*) => { $(
        impl Simd<$T, $len> {
            #[inline(always)]
            pub fn to_le_bytes(self) -> Simd<u8, $bytes> {
                let lanes = if cfg!(target_endian = "big") { self.0.map($T::to_le) } else { self.0 };
                // SAFETY: both are arrays of as many bytes.
                Simd(unsafe { core::mem::transmute::<[$T; $len], [u8; $bytes]>(lanes) })
            }

            #[inline(always)]
            pub fn from_le_bytes(bytes: Simd<u8, $bytes>) -> Self {
                // SAFETY: both are arrays of as many bytes.
                let lanes = unsafe { core::mem::transmute::<[u8; $bytes], [$T; $len]>(bytes.0) };
                Simd(if cfg!(target_endian = "big") { lanes.map($T::from_le) } else { lanes })
            }
        }
    )* };
}
bytes! {
    u16 4 8; u16 8 16; u16 16 32; u16 32 64; u32 4 16; u32 8 32; u32 16 64;
}
