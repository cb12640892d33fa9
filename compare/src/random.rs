//! A small generator of numbers (splitmix64), so that a seed gives the same run everywhere.

pub struct Random(u64);

impl Random {
    pub fn new(seed: u64) -> Random {
        Random(seed)
    }

    pub fn next(&mut self) -> u64 {
        self.0 = self.0.wrapping_add(0x9E37_79B9_7F4A_7C15);
        let z = (self.0 ^ (self.0 >> 30)).wrapping_mul(0xBF58_476D_1CE4_E5B9);
        let z = (z ^ (z >> 27)).wrapping_mul(0x94D0_49BB_1331_11EB);
        z ^ (z >> 31)
    }

    /// A number below n, which is not 0.
    pub fn below(&mut self, n: usize) -> usize {
        (self.next() % n as u64) as usize
    }

    /// True in one of n cases.
    pub fn one_in(&mut self, n: usize) -> bool {
        self.below(n) == 0
    }

    pub fn pick<T: Copy>(&mut self, from: &[T]) -> T {
        from[self.below(from.len())]
    }

    pub fn shuffle<T>(&mut self, list: &mut [T]) {
        for end in (1..list.len()).rev() {
            list.swap(end, self.below(end + 1));
        }
    }

    /// `count` different numbers below n, upwards.
    pub fn ascending(&mut self, count: usize, n: usize) -> Vec<u16> {
        let mut all: Vec<u16> = (0..n as u16).collect();
        self.shuffle(&mut all);
        all.truncate(count);
        all.sort();
        all
    }

    pub fn bytes(&mut self, length: usize) -> Vec<u8> {
        let words = (0..length.div_ceil(8)).flat_map(|_| self.next().to_le_bytes());
        words.take(length).collect()
    }

    /// A number that a caller should not send: 0, 1, around a power of two, the highest, or any.
    pub fn wild(&mut self) -> u32 {
        let power = 1u32 << self.below(32);
        match self.below(7) {
            0 => self.below(2) as u32,
            1 => power,
            2 => power - 1,
            3 => power.wrapping_add(self.below(200) as u32),
            4 => u32::MAX - self.below(3) as u32,
            5 => self.below(300) as u32,
            _ => self.next() as u32,
        }
    }
}
