//! Eight 32-bit numbers at once, for the inner loops of the fast decoder:
//! on plain arrays everywhere, and on the processor's wide registers where
//! it has them. Both do the same, and the comparison runs both.

pub const LANES: usize = 8;

/// Eight numbers in memory.
#[derive(Clone, Copy, Debug, Default)]
#[repr(align(32))]
pub struct Lane(pub [i32; LANES]);

/// Greater than the key of every word.
pub const NONE: i32 = i32::MAX;

/// Eight numbers being worked on.
pub trait Vector: Copy {
    fn load(lane: &Lane) -> Self;
    fn store(self, lane: &mut Lane);
    fn all(value: i32) -> Self;
    fn plus(self, other: Self) -> Self;
    fn minus(self, other: Self) -> Self;
    fn least(self, other: Self) -> Self;
    fn greatest(self, other: Self) -> Self;
    fn magnitude(self) -> Self;
    /// Turns the sign where `turns` is -1; elsewhere it is 0.
    fn turned(self, turns: Self) -> Self;
    /// Where `mask` is -1 the number, where it is 0, 0.
    fn masked(self, mask: Self) -> Self;
    fn xor(self, other: Self) -> Self;
    /// Number i from number i + BY, going round.
    fn rotated<const BY: usize>(self) -> Self;
    /// Q of document 01.
    fn q(self, other: Self) -> Self;
    /// A word's key from its sum times 2^(8 - SHIFT) and its count.
    fn key<const SHIFT: i32>(self, count: Self) -> Self;
    /// What is not above `above` becomes NONE.
    fn only_above(self, above: Self) -> Self;
    /// What equals `value` becomes NONE.
    fn without(self, value: i32) -> Self;
    /// Bits of the numbers below 0.
    fn signs(self) -> u32;
    /// The least of the eight.
    fn minimum(self) -> i32;
    fn sum(self) -> i32;
    /// The bits of `word` at the positions of `mask`, moved together.
    fn gather(word: u32, mask: u32) -> usize;

    /// 0 to 7.
    #[inline(always)]
    fn count() -> Self {
        Self::load(&Lane([0, 1, 2, 3, 4, 5, 6, 7]))
    }

    /// -1 where the byte's bit is 1, else 0.
    #[inline(always)]
    fn turns_of(byte: u32) -> Self {
        Self::load(&BYTE_TURNS[byte as usize % 256])
    }
}

/// For each byte its bits as 0 or -1.
static BYTE_TURNS: [Lane; 256] = byte_turns();

const fn byte_turns() -> [Lane; 256] {
    let mut out = [Lane([0; LANES]); 256];
    let mut byte = 0;
    while byte < 256 {
        let mut i = 0;
        while i < LANES {
            out[byte].0[i] = -((byte >> i & 1) as i32);
            i += 1;
        }
        byte += 1;
    }
    out
}

/// The plain arrays.
#[derive(Clone, Copy)]
pub struct Narrow([i32; LANES]);

impl Narrow {
    #[inline(always)]
    fn with(self, other: Narrow, f: impl Fn(i32, i32) -> i32) -> Narrow {
        Narrow(std::array::from_fn(|i| f(self.0[i], other.0[i])))
    }
}

impl Vector for Narrow {
    #[inline(always)]
    fn load(lane: &Lane) -> Self {
        Narrow(lane.0)
    }

    #[inline(always)]
    fn store(self, lane: &mut Lane) {
        lane.0 = self.0;
    }

    #[inline(always)]
    fn all(value: i32) -> Self {
        Narrow([value; LANES])
    }

    #[inline(always)]
    fn plus(self, other: Self) -> Self {
        self.with(other, |a, b| a + b)
    }

    #[inline(always)]
    fn minus(self, other: Self) -> Self {
        self.with(other, |a, b| a - b)
    }

    #[inline(always)]
    fn least(self, other: Self) -> Self {
        self.with(other, i32::min)
    }

    #[inline(always)]
    fn greatest(self, other: Self) -> Self {
        self.with(other, i32::max)
    }

    #[inline(always)]
    fn magnitude(self) -> Self {
        Narrow(self.0.map(i32::abs))
    }

    #[inline(always)]
    fn turned(self, turns: Self) -> Self {
        self.with(turns, |value, turn| (value ^ turn) - turn)
    }

    #[inline(always)]
    fn masked(self, mask: Self) -> Self {
        self.with(mask, |value, mask| value & mask)
    }

    #[inline(always)]
    fn q(self, other: Self) -> Self {
        self.with(other, |a, b| {
            let sign = (a ^ b) >> 31;
            (a.abs().min(b.abs()) ^ sign) - sign
        })
    }

    #[inline(always)]
    fn xor(self, other: Self) -> Self {
        self.with(other, |a, b| a ^ b)
    }

    #[inline(always)]
    fn rotated<const BY: usize>(self) -> Self {
        Narrow(std::array::from_fn(|i| self.0[(i + BY) % LANES]))
    }

    #[inline(always)]
    fn key<const SHIFT: i32>(self, count: Self) -> Self {
        self.with(count, |sum, count| sum << SHIFT | count)
    }

    #[inline(always)]
    fn only_above(self, above: Self) -> Self {
        self.with(above, |key, above| if key > above { key } else { NONE })
    }

    #[inline(always)]
    fn without(self, value: i32) -> Self {
        Narrow(self.0.map(|key| if key == value { NONE } else { key }))
    }

    #[inline(always)]
    fn signs(self) -> u32 {
        let bits = self.0.iter().enumerate();
        bits.fold(0, |s, (i, &value)| s | (value as u32 >> 31) << i)
    }

    #[inline(always)]
    fn minimum(self) -> i32 {
        self.0.iter().fold(NONE, |s, &value| s.min(value))
    }

    #[inline(always)]
    fn sum(self) -> i32 {
        self.0.iter().sum()
    }

    #[inline(always)]
    fn gather(word: u32, mask: u32) -> usize {
        let mut out = 0;
        let mut left = mask;
        let mut t = 0;
        while left != 0 {
            out |= (word >> left.trailing_zeros() & 1) << t;
            left &= left - 1;
            t += 1;
        }
        out as usize
    }
}

/// The processor's wide registers. Sound only in functions that run where
/// the processor has AVX2 and BMI2; `fast` sees to that.
#[cfg(target_arch = "x86_64")]
#[derive(Clone, Copy)]
pub struct Wide(std::arch::x86_64::__m256i);

#[cfg(target_arch = "x86_64")]
mod wide {
    use super::{Lane, Vector, Wide, LANES, NONE};
    use std::arch::x86_64::*;

    impl Vector for Wide {
        #[inline(always)]
        fn load(lane: &Lane) -> Self {
            Wide(unsafe { _mm256_load_si256((lane as *const Lane).cast()) })
        }

        #[inline(always)]
        fn store(self, lane: &mut Lane) {
            unsafe { _mm256_store_si256((lane as *mut Lane).cast(), self.0) }
        }

        #[inline(always)]
        fn all(value: i32) -> Self {
            Wide(unsafe { _mm256_set1_epi32(value) })
        }

        #[inline(always)]
        fn plus(self, other: Self) -> Self {
            Wide(unsafe { _mm256_add_epi32(self.0, other.0) })
        }

        #[inline(always)]
        fn minus(self, other: Self) -> Self {
            Wide(unsafe { _mm256_sub_epi32(self.0, other.0) })
        }

        #[inline(always)]
        fn least(self, other: Self) -> Self {
            Wide(unsafe { _mm256_min_epi32(self.0, other.0) })
        }

        #[inline(always)]
        fn greatest(self, other: Self) -> Self {
            Wide(unsafe { _mm256_max_epi32(self.0, other.0) })
        }

        #[inline(always)]
        fn magnitude(self) -> Self {
            Wide(unsafe { _mm256_abs_epi32(self.0) })
        }

        #[inline(always)]
        fn turned(self, turns: Self) -> Self {
            Wide(unsafe { _mm256_sub_epi32(_mm256_xor_si256(self.0, turns.0), turns.0) })
        }

        #[inline(always)]
        fn masked(self, mask: Self) -> Self {
            Wide(unsafe { _mm256_and_si256(self.0, mask.0) })
        }

        #[inline(always)]
        fn q(self, other: Self) -> Self {
            let least = self.magnitude().least(other.magnitude());
            let sign = unsafe { _mm256_srai_epi32::<31>(_mm256_xor_si256(self.0, other.0)) };
            least.turned(Wide(sign))
        }

        #[inline(always)]
        fn xor(self, other: Self) -> Self {
            Wide(unsafe { _mm256_xor_si256(self.0, other.0) })
        }

        #[inline(always)]
        fn rotated<const BY: usize>(self) -> Self {
            let order = Lane(std::array::from_fn(|i| ((i + BY) % LANES) as i32));
            Wide(unsafe { _mm256_permutevar8x32_epi32(self.0, Wide::load(&order).0) })
        }

        #[inline(always)]
        fn key<const SHIFT: i32>(self, count: Self) -> Self {
            Wide(unsafe { _mm256_or_si256(_mm256_slli_epi32::<SHIFT>(self.0), count.0) })
        }

        #[inline(always)]
        fn only_above(self, above: Self) -> Self {
            unsafe {
                let keep = _mm256_cmpgt_epi32(self.0, above.0);
                Wide(_mm256_blendv_epi8(_mm256_set1_epi32(NONE), self.0, keep))
            }
        }

        #[inline(always)]
        fn without(self, value: i32) -> Self {
            unsafe {
                let drop = _mm256_cmpeq_epi32(self.0, _mm256_set1_epi32(value));
                Wide(_mm256_blendv_epi8(self.0, _mm256_set1_epi32(NONE), drop))
            }
        }

        #[inline(always)]
        fn signs(self) -> u32 {
            unsafe { _mm256_movemask_ps(_mm256_castsi256_ps(self.0)) as u32 }
        }

        #[inline(always)]
        fn minimum(self) -> i32 {
            unsafe {
                let high = _mm256_extracti128_si256::<1>(self.0);
                let four = _mm_min_epi32(_mm256_castsi256_si128(self.0), high);
                let two = _mm_min_epi32(four, _mm_shuffle_epi32::<0b01_00_11_10>(four));
                let one = _mm_min_epi32(two, _mm_shuffle_epi32::<0b10_11_00_01>(two));
                _mm_cvtsi128_si32(one)
            }
        }

        #[inline(always)]
        fn sum(self) -> i32 {
            unsafe {
                let high = _mm256_extracti128_si256::<1>(self.0);
                let four = _mm_add_epi32(_mm256_castsi256_si128(self.0), high);
                let two = _mm_add_epi32(four, _mm_shuffle_epi32::<0b01_00_11_10>(four));
                let one = _mm_add_epi32(two, _mm_shuffle_epi32::<0b10_11_00_01>(two));
                _mm_cvtsi128_si32(one)
            }
        }

        #[inline(always)]
        fn gather(word: u32, mask: u32) -> usize {
            unsafe { _pext_u32(word, mask) as usize }
        }
    }
}
