//! Reads a canonical file into coded vectors and writes the same bytes to another file, in plain Rust and with no checks, and prints
//! the best of some turns of each in milliseconds.
//!
//!     plain IN OUT TURNS

use std::fs::File;
use std::io::{BufWriter, Write};
use std::time::Instant;

enum Words {
    Of16(Vec<u16>),
    Of32(Vec<u32>),
    Of64(Vec<u64>),
}

struct Vector {
    nulls: Option<[u64; 16]>,
    tag: u8,
    width: u8,
    count: u16,
    starts: Option<[u64; 16]>,
    values: Vec<i64>,
    words: Words,
}

struct Batch {
    name: [u32; 2],
    rows: usize,
    columns: Vec<Vec<Vector>>,
}

struct Table {
    head: Vec<u8>,
    bytes: Vec<usize>,
    batches: Vec<Batch>,
    ranges: Vec<u8>,
}

struct Input<'a>(&'a [u8]);

impl Input<'_> {
    fn take(&mut self, count: usize) -> &[u8] {
        let (front, rest) = self.0.split_at(count);
        self.0 = rest;
        front
    }

    fn number(&mut self, size: usize) -> u64 {
        let mut bytes = [0; 8];
        bytes[..size].copy_from_slice(self.take(size));
        u64::from_le_bytes(bytes)
    }

    fn values(&mut self, count: usize, size: usize) -> Vec<i64> {
        let shift = 64 - 8 * size as u32;
        (0..count).map(|_| ((self.number(size) << shift) as i64) >> shift).collect()
    }

    fn mask(&mut self) -> [u64; 16] {
        std::array::from_fn(|_| self.number(8))
    }

    fn words(&mut self, width: usize, size: usize) -> Words {
        let bytes = self.take(128 * width);
        match size {
            2 => Words::Of16(bytes.chunks_exact(2).map(|x| u16::from_le_bytes(x.try_into().unwrap())).collect()),
            4 => Words::Of32(bytes.chunks_exact(4).map(|x| u32::from_le_bytes(x.try_into().unwrap())).collect()),
            _ => Words::Of64(bytes.chunks_exact(8).map(|x| u64::from_le_bytes(x.try_into().unwrap())).collect()),
        }
    }

    /// A vector of a column whose values have so many bytes.
    fn vector(&mut self, size: usize) -> Vector {
        let nulls = (self.number(1) == 1).then(|| self.mask());
        let (tag, width, count) = (self.number(1) as u8, self.number(1) as u8, self.number(2) as u16);
        let starts = (tag == 2).then(|| self.mask());
        let values = match tag {
            0 => 1,
            1 => 1 + 128 / size,
            _ => count as usize,
        };
        let values = self.values(values, size);
        let words = match tag {
            2 => self.words(0, size),
            3 => self.words(width as usize, 2),
            _ => self.words(width as usize, size),
        };
        Vector { nulls, tag, width, count, starts, values, words }
    }
}

fn read(bytes: &[u8]) -> Table {
    let mut input = Input(bytes);
    let _ = input.take(6);
    let columns = input.number(2) as usize;
    let length = input.number(1) as usize;
    let _ = input.take(length);
    let sizes: Vec<usize> = (0..columns)
        .map(|_| {
            let size = input.number(1) as usize;
            let length = input.number(1) as usize;
            let _ = input.take(length);
            size
        })
        .collect();
    let head = bytes[..bytes.len() - input.0.len()].to_vec();
    let batches = (0..input.number(4))
        .map(|_| {
            let name = [input.number(4) as u32, input.number(4) as u32];
            let rows = input.number(2) as usize + 1;
            let vectors = rows.div_ceil(1024);
            let columns = sizes.iter().map(|size| (0..vectors).map(|_| input.vector(*size)).collect()).collect();
            Batch { name, rows, columns }
        })
        .collect();
    Table { head, bytes: sizes, batches, ranges: input.0.to_vec() }
}

fn write_vector(out: &mut impl Write, vector: &Vector, size: usize) -> std::io::Result<()> {
    out.write_all(&[vector.nulls.is_some() as u8])?;
    for word in vector.nulls.iter().flatten() {
        out.write_all(&word.to_le_bytes())?;
    }
    out.write_all(&[vector.tag, vector.width])?;
    out.write_all(&vector.count.to_le_bytes())?;
    for word in vector.starts.iter().flatten() {
        out.write_all(&word.to_le_bytes())?;
    }
    for value in &vector.values {
        out.write_all(&value.to_le_bytes()[..size])?;
    }
    match &vector.words {
        Words::Of16(words) => words.iter().try_for_each(|x| out.write_all(&x.to_le_bytes())),
        Words::Of32(words) => words.iter().try_for_each(|x| out.write_all(&x.to_le_bytes())),
        Words::Of64(words) => words.iter().try_for_each(|x| out.write_all(&x.to_le_bytes())),
    }
}

fn write(table: &Table, name: &str) -> std::io::Result<()> {
    let mut out = BufWriter::new(File::create(name)?);
    out.write_all(&table.head)?;
    out.write_all(&(table.batches.len() as u32).to_le_bytes())?;
    for batch in &table.batches {
        out.write_all(&batch.name[0].to_le_bytes())?;
        out.write_all(&batch.name[1].to_le_bytes())?;
        out.write_all(&((batch.rows - 1) as u16).to_le_bytes())?;
        for (vectors, size) in batch.columns.iter().zip(&table.bytes) {
            for vector in vectors {
                write_vector(&mut out, vector, *size)?;
            }
        }
    }
    out.write_all(&table.ranges)?;
    out.flush()
}

/// What the last turn made, and the best time of all turns in milliseconds.
fn best<X>(turns: usize, mut turn: impl FnMut() -> X) -> (X, f64) {
    let mut least = f64::MAX;
    let mut made = turn();
    for _ in 0..turns {
        let start = Instant::now();
        made = turn();
        least = least.min(start.elapsed().as_secs_f64() * 1e3);
    }
    (made, least)
}

fn main() {
    let words: Vec<String> = std::env::args().collect();
    let turns = words[3].parse().expect("a number of turns");
    let (table, reading) = best(turns, || read(&std::fs::read(&words[1]).expect("a file")));
    let (_, writing) = best(turns, || write(&table, &words[2]).expect("a file to write"));
    let same = std::fs::read(&words[1]).expect("a file") == std::fs::read(&words[2]).expect("a file");
    assert!(same, "the same bytes are written");
    println!("read\t{reading:.3}\nwrite\t{writing:.3}");
}
