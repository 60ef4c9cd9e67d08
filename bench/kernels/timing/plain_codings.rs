//! The four codings as plain Rust has them.
use crate::plain_packing::{each_value, pack_numbers, width_of};
use crate::word::{Word, first_row};

/// What each coding does, with the vector's lanes of type `U`.
pub trait Coding<U: Word>: Sized {
    const NAME: &'static str;

    /// The bytes of the form that `encode` gives.
    fn size(values: &[i64; 1024]) -> u16;

    fn encode(values: &[i64; 1024]) -> Self;

    fn decode(&self, values: &mut [i64; 1024]);

    /// A sum over all that is stored.
    fn stored_sum(&self) -> u64;
}

/// A sum that tells words in another order, or other words, apart.
pub fn words_sum<U: Word>(words: &[U]) -> u64 {
    let mix = |sum: u64, word: &U| sum.wrapping_mul(31).wrapping_add(word.number());
    words.iter().fold(0, mix)
}

pub fn values_sum(values: &[i64]) -> u64 {
    let mix = |sum: u64, value: &i64| sum.wrapping_mul(31).wrapping_add(*value as u64);
    values.iter().fold(0, mix)
}

fn each_number<U: Word>(width: usize, words: &[U], mut take: impl FnMut(usize, U)) {
    if width > 0 {
        each_value(width, words, take);
    } else {
        (0..1024).for_each(|row| take(row, U::default()));
    }
}

pub struct For<U> {
    width: usize,
    reference: i64,
    words: Vec<U>,
}

fn range_of(values: &[i64; 1024]) -> (i64, i64) {
    let first = (values[0], values[0]);
    let widen = |(least, greatest): (i64, i64), value: &i64| (least.min(*value), greatest.max(*value));
    values.iter().fold(first, widen)
}

impl<U: Word> Coding<U> for For<U> {
    const NAME: &'static str = "For";

    #[inline(never)]
    fn size(values: &[i64; 1024]) -> u16 {
        let (least, greatest) = range_of(values);
        (U::BITS / 8 + 128 * width_of(greatest.wrapping_sub(least) as u64)) as u16
    }

    #[inline(never)]
    fn encode(values: &[i64; 1024]) -> Self {
        let (reference, greatest) = range_of(values);
        let width = width_of(greatest.wrapping_sub(reference) as u64);
        let words = pack_numbers(width, |row| values[row].wrapping_sub(reference) as u64);
        For { width, reference, words }
    }

    #[inline(never)]
    fn decode(&self, values: &mut [i64; 1024]) {
        let reference = self.reference as u64;
        each_number(self.width, &self.words, |row, number: U| {
            values[row] = U::from_number(number.number().wrapping_add(reference)).signed();
        });
    }

    fn stored_sum(&self) -> u64 {
        words_sum(&self.words).wrapping_add(self.reference as u64)
    }
}

pub struct Delta<U> {
    width: usize,
    least: i64,
    bases: Vec<i64>,
    words: Vec<U>,
}

/// A row's value less the one before, in the range of the lanes' type.
fn difference<U: Word>(values: &[i64; 1024], row: usize) -> i64 {
    U::from_number(values[row].wrapping_sub(values[row - 1]) as u64).signed()
}

/// The least and the greatest difference within the lanes, each of which is as many rows as it has bits.
fn slopes_of<U: Word>(values: &[i64; 1024]) -> (i64, i64) {
    let (mut least, mut greatest) = (i64::MAX, i64::MIN);
    for lane in 0..U::LANES {
        for row in U::BITS * lane + 1..U::BITS * (lane + 1) {
            let difference = difference::<U>(values, row);
            least = least.min(difference);
            greatest = greatest.max(difference);
        }
    }
    (least, greatest)
}

impl<U: Word> Coding<U> for Delta<U> {
    const NAME: &'static str = "Delta";

    #[inline(never)]
    fn size(values: &[i64; 1024]) -> u16 {
        let (least, greatest) = slopes_of::<U>(values);
        let width = width_of(greatest.wrapping_sub(least) as u64);
        (U::BITS / 8 + 128 + 128 * width) as u16
    }

    #[inline(never)]
    fn encode(values: &[i64; 1024]) -> Self {
        let (least, greatest) = slopes_of::<U>(values);
        let width = width_of(greatest.wrapping_sub(least) as u64);
        let gap = |row: usize| {
            if row % U::BITS == 0 { 0 } else { difference::<U>(values, row).wrapping_sub(least) as u64 }
        };
        let base = |lane: usize| {
            let first = values[64 * (lane % 16) + first_row::<U>(lane / 16)];
            U::from_number(first.wrapping_sub(least) as u64).signed()
        };
        let bases = (0..U::LANES).map(base).collect();
        Delta { width, least, bases, words: pack_numbers(width, gap) }
    }

    #[inline(never)]
    fn decode(&self, values: &mut [i64; 1024]) {
        let least = U::from_number(self.least as u64).number();
        each_number(self.width, &self.words, |row, number: U| {
            values[row] = number.number().wrapping_add(least) as i64;
        });
        for lane in 0..U::LANES {
            let first = 64 * (lane % 16) + first_row::<U>(lane / 16);
            let mut sum = self.bases[lane];
            for value in &mut values[first..first + U::BITS] {
                sum = sum.wrapping_add(*value);
                *value = U::from_number(sum as u64).signed();
            }
        }
    }

    fn stored_sum(&self) -> u64 {
        let sum = words_sum(&self.words).wrapping_add(values_sum(&self.bases));
        sum.wrapping_add(self.least as u64)
    }
}

pub struct Runs {
    starts: [u64; 16],
    values: Vec<i64>,
}

impl<U: Word> Coding<U> for Runs {
    const NAME: &'static str = "Runs";

    #[inline(never)]
    fn size(values: &[i64; 1024]) -> u16 {
        let changes = values.windows(2).filter(|pair| pair[0] != pair[1]).count();
        (128 + (changes + 1) * U::BITS / 8) as u16
    }

    #[inline(never)]
    fn encode(values: &[i64; 1024]) -> Self {
        let mut starts = [0; 16];
        let mut runs = vec![values[0]];
        for row in 1..1024 {
            if values[row] != values[row - 1] {
                starts[row / 64] |= 1 << (row % 64);
                runs.push(values[row]);
            }
        }
        Runs { starts, values: runs }
    }

    #[inline(never)]
    fn decode(&self, values: &mut [i64; 1024]) {
        let mut runs = self.values.iter();
        let mut value = *runs.next().expect("a run");
        let mut from = 0;
        for (j, starts) in self.starts.iter().enumerate() {
            let mut rest = *starts;
            while rest != 0 {
                let start = 64 * j + rest.trailing_zeros() as usize;
                values[from..start].fill(value);
                (from, value) = (start, *runs.next().expect("a run"));
                rest &= rest - 1;
            }
        }
        values[from..].fill(value);
    }

    fn stored_sum(&self) -> u64 {
        words_sum(&self.starts).wrapping_add(values_sum(&self.values))
    }
}

pub struct Dict {
    width: usize,
    values: Vec<i64>,
    codes: Vec<u16>,
}

fn distinct(values: &[i64; 1024]) -> Vec<i64> {
    let mut sorted = values.to_vec();
    sorted.sort_unstable();
    sorted.dedup();
    sorted
}

impl<U: Word> Coding<U> for Dict {
    const NAME: &'static str = "Dict";

    #[inline(never)]
    fn size(values: &[i64; 1024]) -> u16 {
        let count = distinct(values).len();
        (count * U::BITS / 8 + 128 * width_of(count as u64 - 1)) as u16
    }

    #[inline(never)]
    fn encode(values: &[i64; 1024]) -> Self {
        let dictionary = distinct(values);
        let width = width_of(dictionary.len() as u64 - 1);
        let code = |value: &i64| dictionary.binary_search(value).expect("a value of the dictionary");
        let places: Vec<u64> = values.iter().map(|value| code(value) as u64).collect();
        let codes = pack_numbers(width, |row| places[row]);
        Dict { width, values: dictionary, codes }
    }

    #[inline(never)]
    fn decode(&self, values: &mut [i64; 1024]) {
        each_number(self.width, &self.codes, |row, code: u16| values[row] = self.values[usize::from(code)]);
    }

    fn stored_sum(&self) -> u64 {
        words_sum(&self.codes).wrapping_add(values_sum(&self.values))
    }
}
