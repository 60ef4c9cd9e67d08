//! Times the proved and the plain side of a kernel by turns.
use std::hint::black_box;
use std::time::{Duration, Instant};

const TURNS: usize = 31;
const TURN: Duration = Duration::from_millis(2);

#[derive(Clone, Copy)]
pub enum Side {
    Proved,
    Plain,
}

pub struct Label {
    pub kernel: &'static str,
    pub lane_width: usize,
    pub data: String,
}

/// Makes so many calls, each given its number, and counts what each gives as used.
pub fn repeat<T>(calls: usize, mut call: impl FnMut(usize) -> T) {
    for i in 0..calls {
        black_box(call(i));
    }
}

/// The nanoseconds that so many calls of a side take.
fn spent(call: &mut dyn FnMut(Side, usize), side: Side, calls: usize) -> f64 {
    let start = Instant::now();
    call(side, calls);
    start.elapsed().as_nanos() as f64
}

/// How many calls of a side take about as long as a turn.
fn calls_of(call: &mut dyn FnMut(Side, usize), side: Side) -> usize {
    let mut calls = 16;
    while spent(call, side, calls) < TURN.as_nanos() as f64 {
        calls *= 2;
    }
    calls
}

/// Prints how many values a nanosecond each side works through at its best turn. `call` is to make so many calls of a
/// side, each of 1024 values; what it takes to make none is not counted.
pub fn compare(label: &Label, call: &mut dyn FnMut(Side, usize)) {
    let sides = [Side::Proved, Side::Plain];
    let calls = sides.map(|side| calls_of(call, side));
    let mut none = [f64::MAX; 2];
    let mut all = [f64::MAX; 2];
    for _ in 0..TURNS {
        for (i, side) in sides.into_iter().enumerate() {
            none[i] = none[i].min(spent(call, side, 0));
            all[i] = all[i].min(spent(call, side, calls[i]));
        }
    }
    let [proved, plain] = [0, 1].map(|i| 1024.0 * calls[i] as f64 / (all[i] - none[i]));
    let Label { kernel, lane_width, data } = label;
    println!("{kernel}\t{lane_width}\t{data}\t{proved}\t{plain}");
}
