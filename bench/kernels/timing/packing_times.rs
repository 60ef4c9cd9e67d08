//! Checks and times packing, unpacking and sums of packed values.
use crate::numbers::Numbers;
use crate::plain_codings::words_sum;
use crate::plain_packing;
use crate::proved::ProvedWord;
use crate::timer::{Label, Side, compare, repeat};
use crate::word::{Kernels, Word};
use std::hint::black_box;

/// Values of so many bits, packed and not.
struct Packing<U> {
    width: usize,
    values: [U; 1024],
    words: Vec<U>,
}

impl<U: Word> Packing<U> {
    fn new(width: usize) -> Self {
        let mut numbers = Numbers::new();
        let values = std::array::from_fn(|_| U::from_number(numbers.of_bits(width)));
        let mut words = vec![U::default(); width * U::LANES];
        (plain_packing::kernels().pack)(width, &values, &mut words);
        Packing { width, values, words }
    }

    /// Stops if a side's kernels give other values or words.
    fn check(&self, side: &Kernels<U>) {
        let Packing { width, values, words } = self;
        let mut packed = vec![U::ONES; words.len()];
        (side.pack)(*width, values, &mut packed);
        assert_eq!(words_sum(&packed), words_sum(words), "pack at {width} in {}", U::BITS);
        let mut unpacked = [U::ONES; 1024];
        (side.unpack)(*width, words, &mut unpacked);
        assert_eq!(words_sum(&unpacked), words_sum(values), "unpack at {width} in {}", U::BITS);
        let sum = values.iter().fold(0u64, |sum, value| sum.wrapping_add(value.number()));
        assert_eq!((side.sum)(*width, words), sum, "sum at {width} in {}", U::BITS);
    }

    fn time(&self, data: &str, proved: Kernels<U>, plain: Kernels<U>) {
        self.check(&proved);
        self.check(&plain);
        let Packing { width, values, words } = self;
        let label = |kernel| Label { kernel, lane_width: U::BITS, data: data.to_string() };
        let of = |side| match black_box(side) {
            Side::Proved => proved,
            Side::Plain => plain,
        };
        let mut unpacked = [U::default(); 1024];
        compare(&label("unpack"), &mut |side, calls| {
            repeat(calls, |_| (of(side).unpack)(black_box(*width), black_box(words), black_box(&mut unpacked)));
        });
        let mut packed = words.clone();
        compare(&label("pack"), &mut |side, calls| {
            repeat(calls, |_| (of(side).pack)(black_box(*width), black_box(values), black_box(&mut packed)));
        });
        compare(&label("sum of steps"), &mut |side, calls| {
            repeat(calls, |_| (of(side).sum)(black_box(*width), black_box(words)));
        });
    }
}

pub fn time_all<U: ProvedWord>() {
    for width in [1, 3, U::BITS / 2, U::BITS - 1] {
        Packing::new(width).time(&format!("width {width}"), U::kernels(), plain_packing::kernels());
    }
    Packing::new(3).time("constant width 3", U::kernels_of_three(), plain_packing::kernels_of_three());
}
