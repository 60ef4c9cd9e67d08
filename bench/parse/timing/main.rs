//! Times the proved parser compared with a plain tokenizer and descent in one process, after a check that both give the same.
mod digest;
mod plain_parser;
mod plain_query;
mod plain_tokens;
mod proved;
mod texts;

use std::hint::black_box;
use std::time::{Duration, Instant};

const TURNS: usize = 31;
const TURN: Duration = Duration::from_millis(5);

fn check(text: &str) {
    let plain = digest::digest(&plain_parser::parse(text));
    assert_eq!(proved::digest(text), plain, "both sides read the same: {text:.200}");
}

fn check_all(texts: &[(&str, String)]) {
    for length in 0..=texts::EACH_PRODUCTION.len() {
        check(&texts::EACH_PRODUCTION[..length]);
    }
    for deep in [64, 65] {
        check(&format!("SELECT A FROM T WHERE {}A=1{}", "(".repeat(deep), ")".repeat(deep)));
    }
    for (name, text) in texts {
        check(text);
        assert!(proved::parses(text), "{name} is a query");
    }
}

/// The seconds that so many calls take.
fn spent(call: fn(&str) -> bool, text: &str, calls: usize) -> f64 {
    let start = Instant::now();
    for _ in 0..calls {
        black_box(call(black_box(text)));
    }
    start.elapsed().as_secs_f64()
}

/// How many calls take about as long as a turn.
fn calls_of(call: fn(&str) -> bool, text: &str) -> usize {
    let mut calls = 1;
    while spent(call, text, calls) < TURN.as_secs_f64() {
        calls *= 2;
    }
    calls
}

/// Prints how many million bytes a second each side reads at its best turn.
fn compare(name: &str, text: &str) {
    let sides: [fn(&str) -> bool; 2] = [proved::parses, |text| plain_parser::parse(text).is_ok()];
    let calls = sides.map(|side| calls_of(side, text));
    let mut best = [f64::MAX; 2];
    for _ in 0..TURNS {
        for (i, side) in sides.into_iter().enumerate() {
            best[i] = best[i].min(spent(side, text, calls[i]) / calls[i] as f64);
        }
    }
    let [proved, plain] = best.map(|seconds| text.len() as f64 / seconds / 1e6);
    println!("{name}\t{proved}\t{plain}");
}

fn main() {
    let texts = texts::texts();
    check_all(&texts);
    for (name, text) in &texts {
        compare(name, text);
    }
}
