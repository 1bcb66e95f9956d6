//! What the comparisons share: made-up texts, and the middle of some times.

/// A xorshift generator, so that a seed names a run.
pub struct Random(pub u64);

impl Random {
    pub fn next(&mut self) -> u64 {
        self.0 ^= self.0 << 13;
        self.0 ^= self.0 >> 7;
        self.0 ^= self.0 << 17;
        self.0
    }

    pub fn below(&mut self, n: usize) -> usize {
        (self.next() % n as u64) as usize
    }

    /// At least `len` bytes of characters, each of one of the sizes.
    pub fn text(&mut self, len: usize, sizes: &[usize]) -> Vec<u8> {
        let mut text = String::new();
        while text.len() < len {
            let (first, last) = match sizes[self.below(sizes.len())] {
                1 => (0x20, 0x7e),
                2 => (0x80, 0x7ff),
                3 => (0x800, 0xffff),
                _ => (0x1_0000, 0x10_ffff),
            };
            text.extend(char::from_u32((first + self.below(last - first + 1)) as u32));
        }
        text.into_bytes()
    }
}

pub fn median(mut times: Vec<f64>) -> f64 {
    times.sort_by(f64::total_cmp);
    times[times.len() / 2]
}
