//! The words that lanes are made of, and the places of a vector's rows in them.
use std::ops::{BitAnd, BitOr, BitOrAssign, Shl, Shr};

/// One of the unsigned integers of 8, 16, 32 and 64 bits.
pub trait Word:
    Copy
    + Default
    + Eq
    + BitAnd<Output = Self>
    + BitOr<Output = Self>
    + BitOrAssign
    + Shl<usize, Output = Self>
    + Shr<usize, Output = Self>
{
    const BITS: usize;
    const LANES: usize = 1024 / Self::BITS;
    const ONES: Self;

    fn number(self) -> u64;

    fn from_number(number: u64) -> Self;

    /// The number read as signed.
    fn signed(self) -> i64;
}

macro_rules! word {
    ($($unsigned:ty, $signed:ty;)*) => {
        $(impl Word for $unsigned {
            const BITS: usize = <$unsigned>::BITS as usize;
            const ONES: Self = <$unsigned>::MAX;

            #[inline]
            fn number(self) -> u64 {
                u64::from(self)
            }

            #[inline]
            fn from_number(number: u64) -> Self {
                number as Self
            }

            #[inline]
            fn signed(self) -> i64 {
                i64::from(self as $signed)
            }
        })*
    };
}

word! {
    u8, i8;
    u16, i16;
    u32, i32;
    u64, i64;
}

/// The first row of a group of sixteen lanes: lane `16 * group + i` has its rows from `64 * i` more on.
#[inline]
pub fn first_row<U: Word>(group: usize) -> usize {
    let bits = 6 - U::BITS.trailing_zeros() as usize;
    (0..bits).fold(0, |row, bit| row + ((group >> bit & 1) << (5 - bit)))
}

/// The kernels of packing, each given the width first.
#[derive(Clone, Copy)]
pub struct Kernels<U> {
    pub unpack: fn(usize, &[U], &mut [U; 1024]),
    pub pack: fn(usize, &[U; 1024], &mut [U]),
    pub sum: fn(usize, &[U]) -> u64,
}
