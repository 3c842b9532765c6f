//! A small seeded generator (splitmix64), so that a seed makes the same cases everywhere.

pub struct Random(u64);

impl Random {
    pub fn new(seed: u64) -> Self {
        Random(seed)
    }

    pub fn next(&mut self) -> u64 {
        self.0 = self.0.wrapping_add(0x9e37_79b9_7f4a_7c15);
        let mut mixed = self.0;
        mixed = (mixed ^ (mixed >> 30)).wrapping_mul(0xbf58_476d_1ce4_e5b9);
        mixed = (mixed ^ (mixed >> 27)).wrapping_mul(0x94d0_49bb_1331_11eb);
        mixed ^ (mixed >> 31)
    }

    /// A number from 0 to `limit` - 1. The small bias of the remainder does no harm to tests.
    pub fn below(&mut self, limit: usize) -> usize {
        (self.next() % limit as u64) as usize
    }

    pub fn between(&mut self, first: usize, last: usize) -> usize {
        first + self.below(last - first + 1)
    }

    /// True once in `times`.
    pub fn once_in(&mut self, times: usize) -> bool {
        self.below(times) == 0
    }

    pub fn pick<T: Copy>(&mut self, list: &[T]) -> T {
        list[self.below(list.len())]
    }

    pub fn byte(&mut self) -> u8 {
        self.next() as u8
    }

    /// A 32-bit number whose count of binary digits, 0 to 32, is as likely as any other.
    pub fn sized(&mut self) -> u32 {
        match self.below(33) {
            0 => 0,
            digits => (self.next() as u32 | 1 << 31) >> (32 - digits),
        }
    }
}

#[cfg(test)]
mod tests {
    use super::Random;

    #[test]
    fn numbers_are_those_of_splitmix64() {
        let mut random = Random::new(1234567);
        let first = [6457827717110365317, 3203168211198807973, 9817491932198370423];
        assert_eq!(first.map(|_| random.next()), first);
    }

    #[test]
    fn every_size_is_met() {
        let mut random = Random::new(1);
        let mut met = [false; 33];
        for _ in 0..10_000 {
            met[32 - random.sized().leading_zeros() as usize] = true;
        }
        assert!(met.iter().all(|&size| size));
    }
}
