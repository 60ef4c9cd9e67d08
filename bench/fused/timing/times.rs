//! Checks and times the kernels in the four codings.
use crate::data::{few, masks, runs, spread, walk, wrapping};
use crate::forms::{Form, deltas_of, dict_of, frame_of, runs_of};
use crate::mixed::{Words, mixed_mask, mixed_sum, mixed_value};
use crate::native::Native;
use crate::proved::Given;
use crate::timer::{Label, Side, compare};
use std::hint::black_box;

/// Checks that both sides mix the same over two calls, and times them.
fn time(kernel: &'static str, lane_width: usize, data: &str, proved: &mut dyn FnMut(usize) -> u64, plain: &mut dyn FnMut(u64, usize) -> u64) {
    let mut many = |times: usize| (0..times).fold(0, |sum, i| plain(sum, i));
    assert_eq!(proved(2), many(2), "{kernel} of {lane_width}, {data}");
    let label = Label { kernel, lane_width, data: data.to_string() };
    compare(&label, &mut |side, calls| {
        black_box(match side {
            Side::Proved => proved(calls),
            Side::Plain => many(calls),
        });
    });
}

fn mixed_both(sum: u64, (yes, no): &(Words, Words)) -> u64 {
    mixed_mask(mixed_mask(sum, yes), no)
}

/// Times the kernels over a vector with each mask, at a literal and a range in the midst of its values, and beside the vector with
/// its values in the other order.
fn time_vector<U: Native, const LANES: usize>(data: &str, coding: usize, values: &[i64; 1024], form_of: fn(&[i64; 1024]) -> Form<U, LANES>) {
    let form = form_of(values);
    let mut sorted = *values;
    sorted.sort_unstable();
    let [low, middle, high] = [256, 512, 768].map(|place| sorted[place]);
    let bits = U::BITS;
    let mut others = *values;
    others.reverse();
    let other = form_of(&others);
    for (name, masks) in masks() {
        let given = Given { values, lane_width: bits, coding, masks: &masks };
        let form = || black_box(&form);
        let mask = |i: usize| black_box(&masks[i % 2]);
        let data = format!("{data}; {name}");
        time("sum", bits, &data, &mut |n| given.sum(n), &mut |sum, i| mixed_sum(sum, form().sum(mask(i))));
        time("min", bits, &data, &mut |n| given.min(n), &mut |sum, i| mixed_value(sum, form().min(mask(i))));
        time("max", bits, &data, &mut |n| given.max(n), &mut |sum, i| mixed_value(sum, form().max(mask(i))));
        time("compare", bits, &data, &mut |n| given.compare(middle, n), &mut |sum, i| {
            mixed_both(sum, &form().compare(middle, mask(i)))
        });
        time("compare_range", bits, &data, &mut |n| given.range(low, high, n), &mut |sum, i| {
            mixed_both(sum, &form().range(low, high, mask(i)))
        });
        time("compare_columns", bits, &data, &mut |n| given.compare_columns(&others, n), &mut |sum, i| {
            mixed_both(sum, &form().columns(black_box(&other), mask(i)))
        });
    }
    let (_, masks) = masks()[0];
    let given = Given { values, lane_width: bits, coding, masks: &masks };
    let (mut ours, mut theirs) = ([0; 1024], [0; 1024]);
    time("decode", bits, data, &mut |n| given.decode(black_box(&mut ours), n), &mut |sum, i| {
        black_box(&form).decode(black_box(&mut theirs));
        mixed_value(mixed_mask(sum, &masks[i % 2]), Some(theirs[1023]))
    });
    assert!(ours == *values && theirs == *values, "{data} is decoded");
}

pub fn time_all<U: Native, const LANES: usize>() {
    let least = U::wide(U::LEAST) + 5;
    for width in [0, 3, U::BITS / 2, U::BITS - 1] {
        let values = spread::<U>(least, width);
        time_vector(&format!("FOR, width {width}"), 0, &values, frame_of::<U, LANES>);
    }
    let values = wrapping::<U>();
    time_vector("FOR, may wrap", 0, &values, frame_of::<U, LANES>);
    for width in [0, 3, U::BITS / 2, U::BITS - 1] {
        let values = walk::<U>(width);
        time_vector(&format!("DELTA, width {width}"), 1, &values, deltas_of::<U, LANES>);
    }
    for length in [4, 64] {
        let values = runs::<U>(length);
        time_vector(&format!("RLE, about {length} rows a run"), 2, &values, runs_of::<U, LANES>);
    }
    for count in [16, 500] {
        let values = few::<U>(count);
        time_vector(&format!("DICT, at most {count} values"), 3, &values, dict_of::<U, LANES>);
    }
}
