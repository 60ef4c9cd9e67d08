//! Packing as plain Rust has it: loops over the steps, the groups of lanes and the lanes, at the lanes' own type.
use crate::word::{Kernels, Word, first_row};

/// Gives each row and its value of `width` bits, a step at a time.
#[inline]
pub fn each_value<U: Word>(width: usize, words: &[U], mut take: impl FnMut(usize, U)) {
    let mask = U::ONES >> (U::BITS - width);
    for step in 0..U::BITS {
        let shift = step * width % U::BITS;
        let at = step * width / U::BITS * U::LANES;
        for group in 0..U::LANES / 16 {
            let first = first_row::<U>(group) + step;
            let low = &words[at + 16 * group..][..16];
            if shift + width <= U::BITS {
                for i in 0..16 {
                    take(64 * i + first, low[i] >> shift & mask);
                }
            } else {
                let high = &words[at + U::LANES + 16 * group..][..16];
                for i in 0..16 {
                    let value = low[i] >> shift | high[i] << (U::BITS - shift);
                    take(64 * i + first, value & mask);
                }
            }
        }
    }
}

/// Packs the value of each row in `width` bits, a step at a time, into words that are 0.
#[inline]
pub fn pack_each<U: Word>(width: usize, value: impl Fn(usize) -> U, words: &mut [U]) {
    for step in 0..U::BITS {
        let shift = step * width % U::BITS;
        let at = step * width / U::BITS * U::LANES;
        for group in 0..U::LANES / 16 {
            let first = first_row::<U>(group) + step;
            let numbers: [U; 16] = std::array::from_fn(|i| value(64 * i + first));
            let low = &mut words[at + 16 * group..][..16];
            for i in 0..16 {
                low[i] |= numbers[i] << shift;
            }
            if shift + width > U::BITS {
                let high = &mut words[at + U::LANES + 16 * group..][..16];
                for i in 0..16 {
                    high[i] = numbers[i] >> (U::BITS - shift);
                }
            }
        }
    }
}

/// The bits that a number takes.
pub fn width_of(greatest: u64) -> usize {
    64 - greatest.leading_zeros() as usize
}

/// The words that hold each row's number in `width` bits.
pub fn pack_numbers<U: Word>(width: usize, number: impl Fn(usize) -> u64) -> Vec<U> {
    let mut words = vec![U::default(); width * U::LANES];
    if width > 0 {
        pack_each(width, |row| U::from_number(number(row)), &mut words);
    }
    words
}

#[inline(always)]
fn unpack<U: Word>(width: usize, words: &[U], values: &mut [U; 1024]) {
    each_value(width, words, |row, value| values[row] = value);
}

#[inline(always)]
fn pack<U: Word>(width: usize, values: &[U; 1024], words: &mut [U]) {
    words.fill(U::default());
    pack_each(width, |row| values[row], words);
}

#[inline(always)]
fn sum<U: Word>(width: usize, words: &[U]) -> u64 {
    let mut sum = 0u64;
    each_value(width, words, |_, value| sum = sum.wrapping_add(value.number()));
    sum
}

/// At a width that the caller gives.
pub fn kernels<U: Word>() -> Kernels<U> {
    Kernels {
        unpack: |width, words, values| unpack(width, words, values),
        pack: |width, values, words| pack(width, values, words),
        sum: |width, words| sum(width, words),
    }
}

/// At width 3, which the compiler knows.
pub fn kernels_of_three<U: Word>() -> Kernels<U> {
    Kernels {
        unpack: |_, words, values| unpack(3, words, values),
        pack: |_, values, words| pack(3, values, words),
        sum: |_, words| sum(3, words),
    }
}
