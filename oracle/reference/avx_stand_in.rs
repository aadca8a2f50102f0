// A stand-in for forma's utils/simd/avx.rs, which is not at hand: the operations of auto.rs by AVX2 and FMA intrinsics, for times alone. Coverages are
// those of auto.rs bit by bit; colours need not be: `recip` is the processor's estimate, and bytes are rounded to even.
use std::{
    arch::x86_64::*,
    mem,
    ops::{Add, AddAssign, BitAnd, BitOr, BitOrAssign, BitXor, Div, Mul, MulAssign, Not, Sub},
};

macro_rules! vector {
    ($name:ident, $inner:ty) => {
        #[derive(Clone, Copy, Debug)]
        #[repr(transparent)]
        pub struct $name($inner);
        impl Default for $name {
            #[inline]
            fn default() -> Self {
                unsafe { mem::zeroed() }
            }
        }
    };
}
macro_rules! op {
    ($name:ident, $tr:ident, $f:ident, $i:ident) => {
        impl $tr for $name {
            type Output = Self;
            #[inline]
            fn $f(self, rhs: Self) -> Self {
                Self(unsafe { $i(self.0, rhs.0) })
            }
        }
    };
}
vector!(m8x16, __m128i);
vector!(m32x4, __m128);
vector!(m32x8, __m256);
vector!(u8x8, __m128i);
vector!(u8x32, __m256i);
vector!(i8x16, __m128i);
vector!(i16x16, __m256i);
vector!(i32x8, __m256i);
vector!(u32x4, __m128i);
vector!(u32x8, __m256i);
vector!(f32x4, __m128);
vector!(f32x8, __m256);

impl m8x16 {
    #[inline]
    pub fn all(self) -> bool {
        unsafe { _mm_movemask_epi8(self.0) == 0xffff }
    }
}
impl m32x8 {
    #[inline]
    pub fn all(self) -> bool {
        unsafe { _mm256_movemask_ps(self.0) == 0xff }
    }
    #[inline]
    pub fn any(self) -> bool {
        unsafe { _mm256_movemask_ps(self.0) != 0 }
    }
}
impl Not for m32x8 {
    type Output = Self;
    #[inline]
    fn not(self) -> Self {
        unsafe { Self(_mm256_xor_ps(self.0, _mm256_castsi256_ps(_mm256_set1_epi32(-1)))) }
    }
}
op!(m32x8, BitOr, bitor, _mm256_or_ps);
op!(m32x8, BitXor, bitxor, _mm256_xor_ps);
impl BitOrAssign for m32x8 {
    #[inline]
    fn bitor_assign(&mut self, rhs: Self) {
        *self = *self | rhs;
    }
}

impl From<f32x8> for u8x8 {
    #[inline]
    fn from(val: f32x8) -> Self {
        unsafe {
            let v = _mm256_cvtps_epi32(val.0);
            let v = _mm_packs_epi32(_mm256_castsi256_si128(v), _mm256_extracti128_si256::<1>(v));
            Self(_mm_packus_epi16(v, v))
        }
    }
}
impl u8x32 {
    #[inline]
    pub fn splat(val: u8) -> Self {
        Self(unsafe { _mm256_set1_epi8(val as i8) })
    }
    #[inline]
    pub fn from_u32_interleaved(vals: [u32x8; 4]) -> Self {
        unsafe {
            let low = _mm256_set1_epi32(0xff);
            let a = _mm256_and_si256(vals[0].0, low);
            let b = _mm256_slli_epi32::<8>(_mm256_and_si256(vals[1].0, low));
            let c = _mm256_slli_epi32::<16>(_mm256_and_si256(vals[2].0, low));
            let d = _mm256_slli_epi32::<24>(vals[3].0);
            Self(_mm256_or_si256(_mm256_or_si256(a, b), _mm256_or_si256(c, d)))
        }
    }
}
impl i8x16 {
    #[inline]
    pub fn splat(val: i8) -> Self {
        Self(unsafe { _mm_set1_epi8(val) })
    }
    #[inline]
    pub fn eq(self, other: Self) -> m8x16 {
        m8x16(unsafe { _mm_cmpeq_epi8(self.0, other.0) })
    }
    #[inline]
    pub fn abs(self) -> Self {
        Self(unsafe { _mm_abs_epi8(self.0) })
    }
}
op!(i8x16, Add, add, _mm_add_epi8);
op!(i8x16, BitAnd, bitand, _mm_and_si128);
impl AddAssign for i8x16 {
    #[inline]
    fn add_assign(&mut self, rhs: Self) {
        *self = *self + rhs;
    }
}
impl From<i8x16> for [i32x8; 2] {
    #[inline]
    fn from(val: i8x16) -> Self {
        unsafe { [i32x8(_mm256_cvtepi8_epi32(val.0)), i32x8(_mm256_cvtepi8_epi32(_mm_srli_si128::<8>(val.0)))] }
    }
}
impl i16x16 {
    #[inline]
    pub fn splat(val: i16) -> Self {
        Self(unsafe { _mm256_set1_epi16(val) })
    }
}
impl From<i16x16> for [i32x8; 2] {
    #[inline]
    fn from(val: i16x16) -> Self {
        unsafe {
            [
                i32x8(_mm256_cvtepi16_epi32(_mm256_castsi256_si128(val.0))),
                i32x8(_mm256_cvtepi16_epi32(_mm256_extracti128_si256::<1>(val.0))),
            ]
        }
    }
}
impl i32x8 {
    #[inline]
    pub fn splat(val: i32) -> Self {
        Self(unsafe { _mm256_set1_epi32(val) })
    }
    #[inline]
    pub fn eq(self, other: Self) -> m32x8 {
        m32x8(unsafe { _mm256_castsi256_ps(_mm256_cmpeq_epi32(self.0, other.0)) })
    }
    #[inline]
    pub fn shr<const N: i32>(self) -> Self {
        Self(unsafe { _mm256_srai_epi32::<N>(self.0) })
    }
    #[inline]
    pub fn abs(self) -> Self {
        Self(unsafe { _mm256_abs_epi32(self.0) })
    }
}
op!(i32x8, Add, add, _mm256_add_epi32);
op!(i32x8, Sub, sub, _mm256_sub_epi32);
op!(i32x8, Mul, mul, _mm256_mullo_epi32);
op!(i32x8, BitAnd, bitand, _mm256_and_si256);
impl u32x4 {
    #[inline]
    pub fn splat(val: u32) -> Self {
        Self(unsafe { _mm_set1_epi32(val as i32) })
    }
}
impl From<u32x4> for [u8; 4] {
    #[inline]
    fn from(val: u32x4) -> Self {
        let v: [u32; 4] = unsafe { mem::transmute(val.0) };
        [v[0] as u8, v[1] as u8, v[2] as u8, v[3] as u8]
    }
}
impl u32x8 {
    #[inline]
    pub fn splat(val: u32) -> Self {
        Self(unsafe { _mm256_set1_epi32(val as i32) })
    }
    #[inline]
    pub fn to_array(self) -> [u32; 8] {
        unsafe { mem::transmute(self.0) }
    }
    #[inline]
    pub fn mul_add(self, a: Self, b: Self) -> Self {
        Self(unsafe { _mm256_add_epi32(_mm256_mullo_epi32(self.0, a.0), b.0) })
    }
}
impl From<f32x8> for u32x8 {
    #[inline]
    fn from(val: f32x8) -> Self {
        Self(unsafe { _mm256_cvttps_epi32(val.0) })
    }
}
impl f32x4 {
    #[inline]
    pub fn new(vals: [f32; 4]) -> Self {
        Self(unsafe { mem::transmute(vals) })
    }
    #[inline]
    pub fn splat(val: f32) -> Self {
        Self(unsafe { _mm_set1_ps(val) })
    }
    #[inline]
    pub fn from_bits(val: u32x4) -> Self {
        Self(unsafe { _mm_castsi128_ps(val.0) })
    }
    #[inline]
    pub fn to_bits(self) -> u32x4 {
        u32x4(unsafe { _mm_castps_si128(self.0) })
    }
    #[inline]
    pub fn set<const INDEX: i32>(self, val: f32) -> Self {
        let mut v: [f32; 4] = unsafe { mem::transmute(self.0) };
        v[INDEX as usize] = val;
        Self::new(v)
    }
    #[inline]
    pub fn le(self, other: Self) -> m32x4 {
        m32x4(unsafe { _mm_cmple_ps(self.0, other.0) })
    }
    #[inline]
    pub fn select(self, other: Self, mask: m32x4) -> Self {
        Self(unsafe { _mm_blendv_ps(other.0, self.0, mask.0) })
    }
    #[inline]
    pub fn clamp(self, min: Self, max: Self) -> Self {
        Self(unsafe { _mm_min_ps(_mm_max_ps(self.0, min.0), max.0) })
    }
    #[inline]
    pub fn sqrt(self) -> Self {
        Self(unsafe { _mm_sqrt_ps(self.0) })
    }
    #[inline]
    pub fn mul_add(self, a: Self, b: Self) -> Self {
        Self(unsafe { _mm_fmadd_ps(self.0, a.0, b.0) })
    }
}
op!(f32x4, Add, add, _mm_add_ps);
op!(f32x4, Mul, mul, _mm_mul_ps);
impl f32x8 {
    #[inline]
    pub fn splat(val: f32) -> Self {
        Self(unsafe { _mm256_set1_ps(val) })
    }
    #[inline]
    pub fn indexed() -> Self {
        Self::from_array([0.0, 1.0, 2.0, 3.0, 4.0, 5.0, 6.0, 7.0])
    }
    #[inline]
    pub fn from_array(val: [f32; 8]) -> Self {
        Self(unsafe { mem::transmute(val) })
    }
    #[inline]
    pub fn from_bits(val: u32x8) -> Self {
        Self(unsafe { _mm256_castsi256_ps(val.0) })
    }
    #[inline]
    pub fn to_bits(self) -> u32x8 {
        u32x8(unsafe { _mm256_castps_si256(self.0) })
    }
    #[inline]
    pub fn eq(self, other: Self) -> m32x8 {
        m32x8(unsafe { _mm256_cmp_ps::<_CMP_EQ_OQ>(self.0, other.0) })
    }
    #[inline]
    pub fn lt(self, other: Self) -> m32x8 {
        m32x8(unsafe { _mm256_cmp_ps::<_CMP_LT_OQ>(self.0, other.0) })
    }
    #[inline]
    pub fn le(self, other: Self) -> m32x8 {
        m32x8(unsafe { _mm256_cmp_ps::<_CMP_LE_OQ>(self.0, other.0) })
    }
    #[inline]
    pub fn select(self, other: Self, mask: m32x8) -> Self {
        Self(unsafe { _mm256_blendv_ps(other.0, self.0, mask.0) })
    }
    #[inline]
    pub fn abs(self) -> Self {
        Self(unsafe { _mm256_andnot_ps(_mm256_set1_ps(-0.0), self.0) })
    }
    #[inline]
    pub fn min(self, other: Self) -> Self {
        Self(unsafe { _mm256_min_ps(self.0, other.0) })
    }
    #[inline]
    pub fn max(self, other: Self) -> Self {
        Self(unsafe { _mm256_max_ps(self.0, other.0) })
    }
    #[inline]
    pub fn clamp(self, min: Self, max: Self) -> Self {
        self.max(min).min(max)
    }
    #[inline]
    pub fn sqrt(self) -> Self {
        Self(unsafe { _mm256_sqrt_ps(self.0) })
    }
    #[inline]
    pub fn recip(self) -> Self {
        Self(unsafe { _mm256_rcp_ps(self.0) })
    }
    #[inline]
    pub fn mul_add(self, a: Self, b: Self) -> Self {
        Self(unsafe { _mm256_fmadd_ps(self.0, a.0, b.0) })
    }
}
impl From<i32x8> for f32x8 {
    #[inline]
    fn from(val: i32x8) -> Self {
        Self(unsafe { _mm256_cvtepi32_ps(val.0) })
    }
}
op!(f32x8, Add, add, _mm256_add_ps);
op!(f32x8, Sub, sub, _mm256_sub_ps);
op!(f32x8, Mul, mul, _mm256_mul_ps);
op!(f32x8, Div, div, _mm256_div_ps);
impl AddAssign for f32x8 {
    #[inline]
    fn add_assign(&mut self, rhs: Self) {
        *self = *self + rhs;
    }
}
impl MulAssign for f32x8 {
    #[inline]
    fn mul_assign(&mut self, rhs: Self) {
        *self = *self * rhs;
    }
}
impl std::ops::Neg for f32x8 {
    type Output = Self;
    #[inline]
    fn neg(self) -> Self {
        Self(unsafe { _mm256_xor_ps(_mm256_set1_ps(-0.0), self.0) })
    }
}
op!(f32x8, BitOr, bitor, _mm256_or_ps);
impl BitOrAssign for f32x8 {
    #[inline]
    fn bitor_assign(&mut self, rhs: Self) {
        *self = *self | rhs;
    }
}
