//! COUNT(DISTINCT DAY) of a table's rows by a plain loop: each vector of 1024 days is unpacked from its frame of reference, and
//! each day put into a set. `distinct FOLDER/T.csv N` prints `query Q10 MS,MS,.. ANSWER`, a time a run, as the other programs
//! beside do.
use std::collections::HashSet;
use std::time::Instant;

/// How many rows a vector has.
const ROWS: usize = 1024;

/// A vector of values above its least one, `width` bits each, one after another from the lowest bit on.
struct Frame {
    least: i32,
    width: u32,
    rows: usize,
    words: Vec<u64>,
}

impl Frame {
    fn of(values: &[i32]) -> Frame {
        let least = *values.iter().min().expect("a value");
        let greatest = *values.iter().max().expect("a value");
        let width = u32::BITS - (greatest.wrapping_sub(least) as u32).leading_zeros();
        let mut words = vec![0; (width as usize * ROWS).div_ceil(64) + 2];
        for (row, value) in values.iter().enumerate() {
            let number = u64::from(value.wrapping_sub(least) as u32);
            let bit = row * width as usize;
            words[bit / 64] |= number << (bit % 64);
            if bit % 64 + width as usize > 64 {
                words[bit / 64 + 1] |= number >> (64 - bit % 64);
            }
        }
        Frame { least, width, rows: values.len(), words }
    }

    fn decode(&self, values: &mut [i32; ROWS]) {
        let mask = (1_u64 << self.width) - 1;
        for (row, value) in values.iter_mut().enumerate().take(self.rows) {
            let bit = row * self.width as usize;
            let low = self.words[bit / 64] >> (bit % 64);
            let high = (self.words[bit / 64 + 1] << 1) << (63 - bit % 64);
            *value = self.least.wrapping_add(((low | high) & mask) as i32);
        }
    }
}

/// The second column of a file of comma-separated rows under a heading.
fn days(path: &str) -> Vec<i32> {
    let text = std::fs::read_to_string(path).expect("the file is read");
    let day = |line: &str| line.split(',').nth(1).and_then(|field| field.trim().parse().ok());
    text.lines().filter_map(day).collect()
}

fn distinct(vectors: &[Frame]) -> usize {
    let mut seen: HashSet<i32> = HashSet::new();
    let mut values = [0; ROWS];
    for vector in vectors {
        vector.decode(&mut values);
        seen.extend(&values[..vector.rows]);
    }
    seen.len()
}

fn main() {
    let arguments: Vec<String> = std::env::args().collect();
    let runs: usize = arguments[2].parse().expect("a number of runs");
    let vectors: Vec<Frame> = days(&arguments[1]).chunks(ROWS).map(Frame::of).collect();
    let mut times = Vec::new();
    let mut answer = 0;
    for _ in 0..runs {
        let start = Instant::now();
        answer = distinct(std::hint::black_box(&vectors));
        times.push(format!("{:.3}", start.elapsed().as_secs_f64() * 1000.0));
    }
    println!("query Q10 {} {answer}", times.join(","));
}
