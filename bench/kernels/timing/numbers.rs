//! Numbers that look like chance, the same in each run.
pub struct Numbers(u64);

impl Numbers {
    pub fn new() -> Self {
        Numbers(0x9e37_79b9_7f4a_7c15)
    }

    pub fn of_bits(&mut self, bits: usize) -> u64 {
        self.0 ^= self.0 << 13;
        self.0 ^= self.0 >> 7;
        self.0 ^= self.0 << 17;
        self.0 >> (64 - bits)
    }

    pub fn below(&mut self, end: u64) -> u64 {
        self.of_bits(64) % end
    }
}
