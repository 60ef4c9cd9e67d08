//! The four codings of a vector and their kernels, as plain Rust has them.
use crate::mixed::Words;
use crate::native::{Lanes, Native, lanes_of};
use crate::plain_packing::{pack_numbers, width_of};
use crate::word::{Word, first_row};

pub enum Form<U, const LANES: usize> {
    Lanes(Lanes<U, LANES>),
    Runs(Runs),
    Dict(Dict),
}

pub struct Runs {
    /// The first row of each run, and 1024 after the last.
    starts: Words,
    values: Vec<i64>,
}

pub struct Dict {
    values: Vec<i64>,
    codes: Lanes<u16, 64>,
}

pub fn frame_of<U: Native, const LANES: usize>(values: &[i64; 1024]) -> Form<U, LANES> {
    let least = *values.iter().min().expect("a value");
    let greatest = *values.iter().max().expect("a value");
    let width = width_of(greatest.wrapping_sub(least) as u64);
    let words = pack_numbers(width, |row| values[row].wrapping_sub(least) as u64);
    let starts = [U::default(); LANES];
    Form::Lanes(Lanes { width, words, carried: false, starts, added: U::from_number(least as u64) })
}

pub fn deltas_of<U: Native, const LANES: usize>(values: &[i64; 1024]) -> Form<U, LANES> {
    let difference = |row: usize| U::from_number(values[row].wrapping_sub(values[row - 1]) as u64).signed();
    let later = || (0..1024).filter(|row| row % U::BITS != 0);
    let least = later().map(difference).min().expect("a difference");
    let greatest = later().map(difference).max().expect("a difference");
    let width = width_of(greatest.wrapping_sub(least) as u64);
    let gap = |row: usize| if row % U::BITS == 0 { 0 } else { difference(row).wrapping_sub(least) as u64 };
    let first = |lane: usize| values[64 * (lane % 16) + first_row::<U>(lane / 16)];
    let starts = std::array::from_fn(|lane| U::from_number(first(lane).wrapping_sub(least) as u64));
    Form::Lanes(Lanes { width, words: pack_numbers(width, gap), carried: true, starts, added: U::from_number(least as u64) })
}

pub fn runs_of<U, const LANES: usize>(values: &[i64; 1024]) -> Form<U, LANES> {
    let mut runs = Runs { starts: [0; 16], values: vec![values[0]] };
    for row in 1..1024 {
        if values[row] != values[row - 1] {
            runs.starts[row / 64] |= 1 << (row % 64);
            runs.values.push(values[row]);
        }
    }
    Form::Runs(runs)
}

pub fn dict_of<U, const LANES: usize>(values: &[i64; 1024]) -> Form<U, LANES> {
    let mut sorted = values.to_vec();
    sorted.sort_unstable();
    sorted.dedup();
    let width = width_of(sorted.len() as u64 - 1);
    let places: Vec<u64> = values.iter().map(|value| sorted.binary_search(value).expect("a value") as u64).collect();
    let words = pack_numbers(width, |row| places[row]);
    let codes = Lanes { width, words, carried: false, starts: [0; 64], added: 0 };
    Form::Dict(Dict { values: sorted, codes })
}

impl Runs {
    /// Gives each run's first row, the row after its last, and its value.
    #[inline(always)]
    fn each_run(&self, mut take: impl FnMut(usize, usize, i64)) {
        let mut runs = self.values.iter();
        let mut value = *runs.next().expect("a run");
        let mut from = 0;
        for (j, starts) in self.starts.iter().enumerate() {
            let mut rest = *starts;
            while rest != 0 {
                let start = 64 * j + rest.trailing_zeros() as usize;
                take(from, start, value);
                (from, value) = (start, *runs.next().expect("a run"));
                rest &= rest - 1;
            }
        }
        take(from, 1024, value);
    }
}

/// The bits of word `j` of a mask that are rows from `from` up to `end`, which is not included.
#[inline(always)]
fn part(j: usize, from: usize, end: usize) -> u64 {
    let low = from.max(64 * j) - 64 * j;
    let high = end.min(64 * j + 64) - 64 * j;
    (u64::MAX << low) & (u64::MAX >> (64 - high))
}

#[inline(always)]
fn count(mask: &Words, from: usize, end: usize) -> u32 {
    (from / 64..end.div_ceil(64)).map(|j| (mask[j] & part(j, from, end)).count_ones()).sum()
}

impl Runs {
    #[inline(never)]
    fn sum(&self, mask: &Words) -> i128 {
        let mut sum = 0;
        self.each_run(|from, end, value| sum += i128::from(value) * i128::from(count(mask, from, end)));
        sum
    }

    /// The value that is chosen among those of runs with a row of the mask.
    #[inline(always)]
    fn chosen(&self, mask: &Words, choose: impl Fn(i64, i64) -> i64) -> Option<i64> {
        let mut chosen = None;
        self.each_run(|from, end, value| {
            if count(mask, from, end) > 0 {
                chosen = Some(chosen.map_or(value, |so_far| choose(so_far, value)));
            }
        });
        chosen
    }

    #[inline(never)]
    fn between(&self, low: i64, high: i64) -> Words {
        let mut words = [0; 16];
        self.each_run(|from, end, value| {
            if low <= value && value <= high {
                (from / 64..end.div_ceil(64)).for_each(|j| words[j] |= part(j, from, end));
            }
        });
        words
    }

    #[inline(never)]
    fn decode(&self, values: &mut [i64; 1024]) {
        self.each_run(|from, end, value| values[from..end].fill(value));
    }
}

impl Dict {
    #[inline(never)]
    fn sum(&self, mask: &Words) -> i128 {
        let rows = lanes_of::<u16, 64>(mask);
        let mut sum = 0;
        self.codes.each_step(|step, codes| {
            for i in 0..64 {
                let value = self.values[usize::from(codes[i])];
                sum += i128::from(if rows[i] >> step & 1 == 1 { value } else { 0 });
            }
        });
        sum
    }

    /// The rows whose value is neither below `low` nor above `high`.
    #[inline(never)]
    fn between(&self, low: i64, high: i64) -> Words {
        let first = self.values.partition_point(|value| *value < low);
        let end = self.values.partition_point(|value| *value <= high);
        let (first, end) = (first as i16, end as i16);
        self.codes.found(|code| first <= code && code < end)
    }

    #[inline(never)]
    fn decode(&self, values: &mut [i64; 1024]) {
        self.codes.each_step(|step, codes| {
            for group in 0..4 {
                let first = first_row::<u16>(group) + step;
                for i in 0..16 {
                    values[64 * i + first] = self.values[usize::from(codes[16 * group + i])];
                }
            }
        });
    }
}

impl<U: Native, const LANES: usize> Form<U, LANES> {
    pub fn sum(&self, mask: &Words) -> i128 {
        match self {
            Form::Lanes(lanes) => lanes.sum(mask),
            Form::Runs(runs) => runs.sum(mask),
            Form::Dict(dict) => dict.sum(mask),
        }
    }

    pub fn min(&self, mask: &Words) -> Option<i64> {
        match self {
            Form::Lanes(lanes) => lanes.min(mask),
            Form::Runs(runs) => runs.chosen(mask, i64::min),
            Form::Dict(dict) => dict.codes.min(mask).map(|code| dict.values[code as usize]),
        }
    }

    pub fn max(&self, mask: &Words) -> Option<i64> {
        match self {
            Form::Lanes(lanes) => lanes.max(mask),
            Form::Runs(runs) => runs.chosen(mask, i64::max),
            Form::Dict(dict) => dict.codes.max(mask).map(|code| dict.values[code as usize]),
        }
    }

    /// The rows of the mask whose value is less than a literal, and the others of the mask.
    pub fn compare(&self, literal: i64, mask: &Words) -> (Words, Words) {
        parted(mask, match self {
            Form::Lanes(lanes) => lanes.below(literal),
            Form::Runs(runs) => runs.between(i64::MIN, literal - 1),
            Form::Dict(dict) => dict.between(i64::MIN, literal - 1),
        })
    }

    /// The rows of the mask whose value is neither below `low` nor above `high`, and the others of the mask.
    pub fn range(&self, low: i64, high: i64, mask: &Words) -> (Words, Words) {
        parted(mask, match self {
            Form::Lanes(lanes) => lanes.between(low, high),
            Form::Runs(runs) => runs.between(low, high),
            Form::Dict(dict) => dict.between(low, high),
        })
    }

    /// The rows of the mask whose value is less than that of another vector, and the others of the mask.
    pub fn columns(&self, other: &Self, mask: &Words) -> (Words, Words) {
        parted(mask, match (self, other) {
            (Form::Lanes(lanes), Form::Lanes(others)) => lanes.below_lanes(others),
            _ => self.below_decoded(other),
        })
    }

    fn below_decoded(&self, other: &Self) -> Words {
        let (mut values, mut others) = ([0; 1024], [0; 1024]);
        self.decode(&mut values);
        other.decode(&mut others);
        let word = |j: usize| (0..64).fold(0, |word, row| word | u64::from(values[64 * j + row] < others[64 * j + row]) << row);
        std::array::from_fn(word)
    }

    pub fn decode(&self, values: &mut [i64; 1024]) {
        match self {
            Form::Lanes(lanes) => lanes.decode(values),
            Form::Runs(runs) => runs.decode(values),
            Form::Dict(dict) => dict.decode(values),
        }
    }
}

fn parted(mask: &Words, found: Words) -> (Words, Words) {
    let part = |of: fn(u64, u64) -> u64| std::array::from_fn(|j| of(mask[j], found[j]));
    (part(|rows, found| rows & found), part(|rows, found| rows & !found))
}
