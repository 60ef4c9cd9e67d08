//! Checks and times the four codings.
use crate::numbers::Numbers;
use crate::plain_codings::{Coding, Delta, Dict, For, Runs};
use crate::proved::ProvedCoding;
use crate::timer::{Label, Side, compare, repeat};
use crate::word::Word;
use std::hint::black_box;

const VECTORS: usize = 16;

/// Stops if the two sides differ.
fn check<U: Word, C: Coding<U> + ProvedCoding>(values: &[i64; 1024]) {
    let bytes = <C as Coding<U>>::size(values);
    assert_eq!([C::proved_size(values, U::BITS), C::proved_encode(values, U::BITS)], [bytes; 2]);
    let coded = C::encode(values);
    assert_eq!(C::proved_sum(values, U::BITS), coded.stored_sum(), "{} in {}", C::NAME, U::BITS);
    let mut decoded = [[0; 1024]; 2];
    C::proved_decode(values, U::BITS, 1, &mut decoded[0]);
    coded.decode(&mut decoded[1]);
    assert!(decoded == [*values; 2], "{} in {}", C::NAME, U::BITS);
}

/// Times a coding over vectors that are made one after another. Many are coded in turn, so that the processor can't learn
/// the branches of one by heart; one is decoded.
fn time<U: Word, C: Coding<U> + ProvedCoding>(data: &str, make: impl Fn(&mut Numbers) -> [i64; 1024]) {
    let mut numbers = Numbers::new();
    let vectors: [_; VECTORS] = std::array::from_fn(|_| make(&mut numbers));
    vectors.iter().for_each(check::<U, C>);
    let label = |kernel| Label { kernel, lane_width: U::BITS, data: format!("{}, {data}", C::NAME) };
    let coded = C::encode(&vectors[0]);
    let mut decoded = [0; 1024];
    compare(&label("decode"), &mut |side, calls| match side {
        Side::Proved => C::proved_decode(&vectors[0], U::BITS, calls, black_box(&mut decoded)),
        Side::Plain => repeat(calls, |_| black_box(&coded).decode(black_box(&mut decoded))),
    });
    let vector = |i| black_box(&vectors[i % VECTORS]);
    compare(&label("encode"), &mut |side, calls| match side {
        Side::Proved => repeat(calls, |i| C::proved_encode(vector(i), U::BITS)),
        Side::Plain => repeat(calls, |i| C::encode(vector(i))),
    });
    compare(&label("size"), &mut |side, calls| match side {
        Side::Proved => repeat(calls, |i| C::proved_size(vector(i), U::BITS)),
        Side::Plain => repeat(calls, |i| C::size(vector(i))),
    });
}

/// The number modulo the lanes' range, read as signed.
fn fitted<U: Word>(number: u64) -> i64 {
    U::from_number(number).signed()
}

/// Values of so many bits above a low one.
fn spread<U: Word>(numbers: &mut Numbers, width: usize) -> [i64; 1024] {
    let low = (1u64 << (U::BITS - 1)) + 5;
    std::array::from_fn(|_| fitted::<U>(low.wrapping_add(numbers.of_bits(width))))
}

/// Values whose differences are of so many bits.
fn walk<U: Word>(numbers: &mut Numbers, width: usize) -> [i64; 1024] {
    let mut sum = 0u64;
    std::array::from_fn(|_| {
        sum = sum.wrapping_add(numbers.of_bits(width));
        fitted::<U>(sum)
    })
}

/// Runs of so many values each on average.
fn runs(numbers: &mut Numbers, length: u64) -> [i64; 1024] {
    let mut value = 0;
    std::array::from_fn(|_| {
        if numbers.below(length) == 0 {
            value = numbers.below(1000) as i64;
        }
        value
    })
}

/// So many values, far apart and in no order.
fn few<U: Word>(numbers: &mut Numbers, count: u64) -> [i64; 1024] {
    std::array::from_fn(|_| fitted::<U>(numbers.below(count).wrapping_mul(0x9e37_79b9_7f4a_7c15)))
}

pub fn time_all<U: Word>() {
    for width in [3, U::BITS / 2] {
        let data = format!("width {width}");
        time::<U, For<U>>(&data, |numbers| spread::<U>(numbers, width));
        time::<U, Delta<U>>(&data, |numbers| walk::<U>(numbers, width));
    }
    for length in [4, 64] {
        time::<U, Runs>(&format!("about {length} rows a run"), |numbers| runs(numbers, length));
    }
    for count in [16, 500] {
        time::<U, Dict>(&format!("at most {count} values"), |numbers| few::<U>(numbers, count));
    }
}
