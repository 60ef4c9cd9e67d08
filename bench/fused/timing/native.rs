//! Lanes gone through step by step at their own type, as plain Rust has them.
use crate::mixed::Words;
use crate::word::{Word, first_row};

/// A word whose lanes are added up, compared and joined at its own type.
pub trait Native: Word {
    type Signed: Copy + Ord;
    type Sum: Copy;
    const NOTHING: Self::Sum;
    const LEAST: Self::Signed;
    const GREATEST: Self::Signed;

    fn plus(self, other: Self) -> Self;
    fn value(self) -> Self::Signed;
    fn wide(value: Self::Signed) -> i64;
    /// The value, or the end of the type's range that is nearest.
    fn nearest(value: i64) -> Self::Signed;
    fn add(sum: &mut Self::Sum, number: Self);
    fn total(sums: &[Self::Sum]) -> i128;
}

macro_rules! native {
    ($($unsigned:ty, $signed:ty, $sum:ty;)*) => {
        $(impl Native for $unsigned {
            type Signed = $signed;
            type Sum = $sum;
            const NOTHING: $sum = 0;
            const LEAST: $signed = <$signed>::MIN;
            const GREATEST: $signed = <$signed>::MAX;

            #[inline(always)]
            fn plus(self, other: Self) -> Self {
                self.wrapping_add(other)
            }

            #[inline(always)]
            fn value(self) -> $signed {
                self as $signed
            }

            fn wide(value: $signed) -> i64 {
                i64::from(value)
            }

            fn nearest(value: i64) -> $signed {
                value.clamp(i64::from(<$signed>::MIN), i64::from(<$signed>::MAX)) as $signed
            }

            #[inline(always)]
            fn add(sum: &mut $sum, number: Self) {
                *sum += (number as $signed) as $sum;
            }

            fn total(sums: &[$sum]) -> i128 {
                sums.iter().map(|sum| i128::from(*sum)).sum()
            }
        })*
    };
}

native! {
    u8, i8, i16;
    u16, i16, i32;
    u32, i32, i64;
    u64, i64, i128;
}

/// Packed words, what each lane starts with and each step adds, and whether a lane's number is carried to the next step.
pub struct Lanes<U, const LANES: usize> {
    pub width: usize,
    pub words: Vec<U>,
    pub carried: bool,
    pub starts: [U; LANES],
    pub added: U,
}

impl<U: Native, const LANES: usize> Lanes<U, LANES> {
    /// Gives each step with the numbers of all its lanes.
    #[inline(always)]
    pub fn each_step(&self, mut take: impl FnMut(usize, &[U; LANES])) {
        let mut packed = [U::default(); LANES];
        let mut numbers = self.starts;
        for step in 0..U::BITS {
            self.next_step(step, &mut packed, &mut numbers);
            take(step, &numbers);
        }
    }

    /// Takes the numbers of all lanes to a step.
    #[inline(always)]
    fn next_step(&self, step: usize, packed: &mut [U; LANES], numbers: &mut [U; LANES]) {
        self.unpack(step, packed);
        if self.carried {
            for i in 0..LANES {
                numbers[i] = numbers[i].plus(self.added).plus(packed[i]);
            }
        } else {
            for i in 0..LANES {
                numbers[i] = self.added.plus(packed[i]);
            }
        }
    }

    #[inline(always)]
    fn unpack(&self, step: usize, packed: &mut [U; LANES]) {
        if self.width == 0 {
            return;
        }
        let ones = U::ONES >> (U::BITS - self.width);
        let shift = step * self.width % U::BITS;
        let at = step * self.width / U::BITS * LANES;
        let low = &self.words[at..][..LANES];
        if shift + self.width <= U::BITS {
            for i in 0..LANES {
                packed[i] = low[i] >> shift & ones;
            }
        } else {
            let high = &self.words[at + LANES..][..LANES];
            for i in 0..LANES {
                packed[i] = (low[i] >> shift | high[i] << (U::BITS - shift)) & ones;
            }
        }
    }

    #[inline(never)]
    pub fn sum(&self, mask: &Words) -> i128 {
        let rows = lanes_of::<U, LANES>(mask);
        let mut sums = [U::NOTHING; LANES];
        self.each_step(|step, numbers| {
            for i in 0..LANES {
                let taken = rows[i] >> step & U::from_number(1) != U::default();
                U::add(&mut sums[i], if taken { numbers[i] } else { U::default() });
            }
        });
        U::total(&sums)
    }

    #[inline(never)]
    pub fn min(&self, mask: &Words) -> Option<i64> {
        let rows = lanes_of::<U, LANES>(mask);
        let mut leasts = [U::GREATEST; LANES];
        self.each_step(|step, numbers| {
            for i in 0..LANES {
                let taken = rows[i] >> step & U::from_number(1) != U::default();
                leasts[i] = leasts[i].min(if taken { numbers[i].value() } else { U::GREATEST });
            }
        });
        let least = leasts.iter().min().expect("a lane");
        mask.iter().any(|word| *word != 0).then(|| U::wide(*least))
    }

    #[inline(never)]
    pub fn max(&self, mask: &Words) -> Option<i64> {
        let rows = lanes_of::<U, LANES>(mask);
        let mut greatests = [U::LEAST; LANES];
        self.each_step(|step, numbers| {
            for i in 0..LANES {
                let taken = rows[i] >> step & U::from_number(1) != U::default();
                greatests[i] = greatests[i].max(if taken { numbers[i].value() } else { U::LEAST });
            }
        });
        let greatest = greatests.iter().max().expect("a lane");
        mask.iter().any(|word| *word != 0).then(|| U::wide(*greatest))
    }

    /// The rows whose value passes a test.
    #[inline(always)]
    pub fn found(&self, test: impl Fn(U::Signed) -> bool) -> Words {
        let mut marks = [U::default(); LANES];
        self.each_step(|step, numbers| {
            for i in 0..LANES {
                marks[i] |= U::from_number(u64::from(test(numbers[i].value()))) << step;
            }
        });
        mask_of_lanes(&marks)
    }

    /// The rows whose value is below that of other lanes.
    #[inline(never)]
    pub fn below_lanes(&self, others: &Self) -> Words {
        let mut marks = [U::default(); LANES];
        let (mut packed, mut other_packed) = ([U::default(); LANES], [U::default(); LANES]);
        let (mut numbers, mut other_numbers) = (self.starts, others.starts);
        for step in 0..U::BITS {
            self.next_step(step, &mut packed, &mut numbers);
            others.next_step(step, &mut other_packed, &mut other_numbers);
            for i in 0..LANES {
                marks[i] |= U::from_number(u64::from(numbers[i].value() < other_numbers[i].value())) << step;
            }
        }
        mask_of_lanes(&marks)
    }

    #[inline(never)]
    pub fn below(&self, literal: i64) -> Words {
        let end = U::nearest(literal);
        self.found(|value| value < end)
    }

    #[inline(never)]
    pub fn between(&self, low: i64, high: i64) -> Words {
        let (low, high) = (U::nearest(low), U::nearest(high));
        self.found(|value| low <= value && value <= high)
    }

    #[inline(never)]
    pub fn decode(&self, values: &mut [i64; 1024]) {
        self.each_step(|step, numbers| {
            for group in 0..LANES / 16 {
                let first = first_row::<U>(group) + step;
                for i in 0..16 {
                    values[64 * i + first] = numbers[16 * group + i].signed();
                }
            }
        });
    }
}

/// The bits of a mask's rows in their lanes.
#[inline(always)]
pub fn lanes_of<U: Word, const LANES: usize>(mask: &Words) -> [U; LANES] {
    let mut lanes = [U::default(); LANES];
    for group in 0..LANES / 16 {
        for i in 0..16 {
            lanes[16 * group + i] = U::from_number(mask[i] >> first_row::<U>(group));
        }
    }
    lanes
}

/// The words of a mask whose rows are the marks of the lanes.
#[inline(always)]
fn mask_of_lanes<U: Word, const LANES: usize>(marks: &[U; LANES]) -> Words {
    let mut words = [0; 16];
    for lane in 0..LANES {
        words[lane % 16] |= marks[lane].number() << first_row::<U>(lane / 16);
    }
    words
}
