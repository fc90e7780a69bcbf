//! Numbers that look random and are the same in every run.

/// A generator (splitmix64), by its seed.
pub struct Numbers(pub u64);

impl Numbers {
    pub fn number(&mut self) -> u64 {
        self.0 = self.0.wrapping_add(0x9e3779b97f4a7c15);
        let mut z = self.0;
        z = (z ^ z >> 30).wrapping_mul(0xbf58476d1ce4e5b9);
        z = (z ^ z >> 27).wrapping_mul(0x94d049bb133111eb);
        z ^ z >> 31
    }

    pub fn below(&mut self, limit: usize) -> usize {
        (self.number() % limit as u64) as usize
    }

    /// From a to b, both included.
    pub fn between(&mut self, a: usize, b: usize) -> usize {
        a + self.below(b - a + 1)
    }

    pub fn one_in(&mut self, times: usize) -> bool {
        self.below(times) == 0
    }

    pub fn pick<T: Copy>(&mut self, of: &[T]) -> T {
        of[self.below(of.len())]
    }

    /// So many bytes.
    pub fn bytes(&mut self, length: usize) -> Vec<u8> {
        (0..length).map(|_| self.number() as u8).collect()
    }

    /// Parts of a total, none of them longer than `longest` and some of them empty, until no more than that is left, and something is.
    pub fn parts(&mut self, total: usize, longest: usize) -> Vec<usize> {
        let (mut parts, mut left) = (Vec::new(), total);
        while left > longest {
            parts.push(self.between(0, longest));
            left -= parts[parts.len() - 1];
        }
        parts
    }
}
