//! Chance that can be repeated: the same seed and file number give the same file.

/// A stream of numbers that look random.
pub struct Chance(u64);

/// The odd constant that takes one state of the stream to the next.
const STRIDE: u64 = 0x9E37_79B9_7F4A_7C15;

impl Chance {
    /// The stream of one file. Every file has its own, so that a file can be
    /// made again without those before it.
    pub fn new(seed: u64, file: u64) -> Chance {
        let mut start = Chance(seed);
        let mixed = start.next() ^ file.wrapping_mul(STRIDE);
        Chance(mixed)
    }

    /// A stream of its own that starts here.
    pub fn branch(&mut self) -> Chance {
        Chance(self.next())
    }

    pub fn next(&mut self) -> u64 {
        self.0 = self.0.wrapping_add(STRIDE);
        let mut mixed = self.0;
        mixed = (mixed ^ mixed >> 30).wrapping_mul(0xBF58_476D_1CE4_E5B9);
        mixed = (mixed ^ mixed >> 27).wrapping_mul(0x94D0_49BB_1331_11EB);
        mixed ^ mixed >> 31
    }

    /// A number from 0 to `limit` - 1; 0 where the limit is 0.
    pub fn below(&mut self, limit: u32) -> u32 {
        (((self.next() >> 32) * limit as u64) >> 32) as u32
    }

    /// A number from `low` to `high`, both included.
    pub fn between(&mut self, low: u32, high: u32) -> u32 {
        low + self.below(high - low + 1)
    }

    pub fn one_in(&mut self, times: u32) -> bool {
        self.below(times) == 0
    }

    pub fn bit(&mut self) -> bool {
        self.one_in(2)
    }

    /// `value` or 0.
    pub fn maybe(&mut self, value: u32) -> u32 {
        if self.bit() {
            value
        } else {
            0
        }
    }

    pub fn pick<T: Copy>(&mut self, list: &[T]) -> T {
        list[self.below(list.len() as u32) as usize]
    }

    /// One of a list in which each entry comes as often as its weight says.
    pub fn weighted<T: Copy>(&mut self, list: &[(u32, T)]) -> T {
        let total = list.iter().map(|(weight, _)| weight).sum();
        let mut left = self.below(total);
        for (weight, entry) in list {
            if left < *weight {
                return *entry;
            }
            left -= weight;
        }
        list[list.len() - 1].1
    }

    /// 32 bits: all kinds of shapes, since edges are where mistakes are.
    pub fn word(&mut self) -> u32 {
        let word = self.next() as u32;
        match self.below(6) {
            0 => 0,
            1 => u32::MAX,
            2 => 1 << (word & 31),
            3 => word & self.next() as u32,
            4 => word & 0xFF,
            _ => word,
        }
    }

    pub fn bytes(&mut self, count: usize) -> Vec<u8> {
        (0..count).map(|_| self.next() as u8).collect()
    }
}

#[cfg(test)]
mod tests {
    use super::*;

    #[test]
    fn a_file_s_stream_can_be_repeated() {
        let stream = |seed, file| {
            let mut chance = Chance::new(seed, file);
            [(); 4].map(|()| chance.next())
        };
        assert_eq!(stream(1, 2), stream(1, 2));
        assert_ne!(stream(1, 2), stream(1, 3));
        assert_ne!(stream(1, 2), stream(2, 2));
    }

    #[test]
    fn numbers_stay_in_their_range() {
        let mut chance = Chance::new(1, 1);
        let mut met = [false; 5];
        for _ in 0..1000 {
            met[chance.below(5) as usize] = true;
            assert!((3..=4).contains(&chance.between(3, 4)));
        }
        assert_eq!(met, [true; 5]);
        assert_eq!(chance.below(0), 0);
    }

    #[test]
    fn weights_count() {
        let mut chance = Chance::new(1, 1);
        for _ in 0..100 {
            assert_eq!(chance.weighted(&[(0, 'a'), (1, 'b'), (0, 'c')]), 'b');
        }
    }
}
