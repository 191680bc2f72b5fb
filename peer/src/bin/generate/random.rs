//! Chance.

/// A small generator of its own (splitmix64).
pub struct Random(u64);

impl Random {
    pub fn new(seed: u64, index: u64) -> Self {
        let mut random = Random(seed ^ 0x5EED_C11E_0B03_2009);
        let mixed = random.next() ^ index.wrapping_mul(0xD134_2543_DE82_EF95);
        Random(mixed)
    }

    fn next(&mut self) -> u64 {
        self.0 = self.0.wrapping_add(0x9E37_79B9_7F4A_7C15);
        let mut z = self.0;
        z = (z ^ (z >> 30)).wrapping_mul(0xBF58_476D_1CE4_E5B9);
        z = (z ^ (z >> 27)).wrapping_mul(0x94D0_49BB_1331_11EB);
        z ^ (z >> 31)
    }

    pub fn below(&mut self, limit: u64) -> u64 {
        self.next() % limit
    }

    /// From `low` to `high`, both included.
    pub fn between(&mut self, low: u64, high: u64) -> u64 {
        low + self.below(high - low + 1)
    }

    pub fn one_in(&mut self, chances: u64) -> bool {
        self.below(chances) == 0
    }

    pub fn coin(&mut self) -> bool {
        self.one_in(2)
    }

    pub fn index(&mut self, length: usize) -> usize {
        self.below(length as u64) as usize
    }

    pub fn pick<'a, T>(&mut self, choices: &'a [T]) -> &'a T {
        &choices[self.index(choices.len())]
    }

    pub fn byte(&mut self) -> u8 {
        self.below(256) as u8
    }

    pub fn printable(&mut self) -> u8 {
        self.between(32, 126) as u8
    }

    pub fn digit(&mut self) -> u8 {
        self.between(48, 57) as u8
    }

    pub fn unprintable(&mut self) -> u8 {
        match self.below(6) {
            0 => 31,
            1 => 127,
            2 => *self.pick(&[0, 9, 10, 13, 26, 128, 160, 255]),
            3 | 4 => self.below(32) as u8,
            _ => self.between(127, 255) as u8,
        }
    }

    /// A byte for which `fits` holds.
    pub fn byte_that(&mut self, fits: impl Fn(u8) -> bool) -> u8 {
        loop {
            let byte = if self.coin() { self.printable() } else { self.byte() };
            if fits(byte) {
                return byte;
            }
        }
    }
}
