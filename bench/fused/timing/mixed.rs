//! What kernels answer as one number, which tells other answers apart, as the library's exports do.
pub type Words = [u64; 16];

pub fn mixed_mask(sum: u64, words: &Words) -> u64 {
    let mix = |sum: u64, (j, word): (usize, &u64)| sum.wrapping_add(word.rotate_left(j as u32));
    words.iter().enumerate().fold(sum.wrapping_mul(31), mix)
}

pub fn mixed_value(sum: u64, value: Option<i64>) -> u64 {
    sum.wrapping_mul(31).wrapping_add(value.unwrap_or(0) as u64)
}

pub fn mixed_sum(sum: u64, value: i128) -> u64 {
    sum.wrapping_mul(31).wrapping_add(value as u64)
}
