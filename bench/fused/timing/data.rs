//! The vectors and masks that are timed.
use crate::mixed::Words;
use crate::native::Native;
use crate::numbers::Numbers;

/// The number modulo the lanes' range, read as signed.
fn fitted<U: Native>(number: u64) -> i64 {
    U::from_number(number).signed()
}

fn ones(bits: usize) -> u64 {
    (1 << bits) - 1
}

/// Values of so many bits above a low one, which are all taken.
pub fn spread<U: Native>(low: i64, width: usize) -> [i64; 1024] {
    let mut numbers = Numbers::new();
    let last = if width == 0 { 0 } else { ones(width) };
    std::array::from_fn(|row| {
        let above = if row == 0 || width == 0 { last } else if row == 1 { 0 } else { numbers.of_bits(width) };
        low + above as i64
    })
}

/// Values from a small one up to the greatest, whose reference and width go past the greatest.
pub fn wrapping<U: Native>() -> [i64; 1024] {
    spread::<U>(0, U::BITS - 1).map(|value| value.max(10))
}

/// Values whose differences are of so many bits.
pub fn walk<U: Native>(width: usize) -> [i64; 1024] {
    let mut numbers = Numbers::new();
    let mut sum = 0u64;
    std::array::from_fn(|row| {
        let above = match row {
            _ if width == 0 => 0,
            1 => ones(width),
            2 => 0,
            _ => numbers.of_bits(width),
        };
        sum = sum.wrapping_add(above.wrapping_sub(ones(width) / 2));
        fitted::<U>(sum)
    })
}

/// Runs of so many values each on average.
pub fn runs<U: Native>(length: u64) -> [i64; 1024] {
    let mut numbers = Numbers::new();
    let mut value = 0;
    std::array::from_fn(|_| {
        if numbers.below(length) == 0 {
            value = fitted::<U>(numbers.below(1000));
        }
        value
    })
}

/// So many values, far apart and in no order.
pub fn few<U: Native>(count: u64) -> [i64; 1024] {
    let mut numbers = Numbers::new();
    std::array::from_fn(|_| fitted::<U>(numbers.below(count).wrapping_mul(0x9e37_79b9_7f4a_7c15)))
}

/// Masks by their names, each of two that are taken by turns.
pub fn masks() -> [(&'static str, [Words; 2]); 3] {
    let mut numbers = Numbers::new();
    let half = [(); 2].map(|()| std::array::from_fn(|_| numbers.of_bits(64)));
    let one = [5, 700].map(|row| std::array::from_fn(|j| if j == row / 64 { 1 << (row % 64) } else { 0 }));
    [("full", [[u64::MAX; 16]; 2]), ("half", half), ("one row", one)]
}
