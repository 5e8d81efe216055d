//! Random numbers that a seed repeats: the SplitMix64 generator.
use ducatbriar::calls::Kinds;

pub struct Rng(u64);

impl Rng {
    /// The generator of part `stream` under this seed.
    pub fn new(seed: u64, stream: &str) -> Rng {
        let mut rng = Rng(seed);
        for byte in stream.bytes() {
            rng.0 = rng.word() ^ u64::from(byte);
        }
        rng
    }

    pub fn word(&mut self) -> u64 {
        self.0 = self.0.wrapping_add(0x9e37_79b9_7f4a_7c15);
        let mut z = self.0;
        z = (z ^ (z >> 30)).wrapping_mul(0xbf58_476d_1ce4_e5b9);
        z = (z ^ (z >> 27)).wrapping_mul(0x94d0_49bb_1331_11eb);
        z ^ (z >> 31)
    }

    /// 0 to n - 1.
    pub fn below(&mut self, n: usize) -> usize {
        (self.word() % n as u64) as usize
    }

    /// a to b.
    pub fn within(&mut self, a: usize, b: usize) -> usize {
        a + self.below(b - a + 1)
    }

    pub fn pick<T: Clone>(&mut self, items: &[T]) -> T {
        items[self.below(items.len())].clone()
    }

    pub fn shuffle<T>(&mut self, items: &mut [T]) {
        for i in (1..items.len()).rev() {
            items.swap(i, self.below(i + 1));
        }
    }

    /// A way of choosing keys: from a small range, or from all 64 bits with the ends among them.
    pub fn keys(&mut self) -> Keys {
        match self.below(4) {
            0 => Keys::Whole,
            _ => Keys::Below(self.pick(&[1, 2, 3, 4, 8, 20])),
        }
    }

    pub fn key(&mut self, keys: Keys) -> u64 {
        match keys {
            Keys::Below(n) => self.below(n) as u64,
            Keys::Whole => match self.below(6) {
                0 => self.below(3) as u64,
                1 => u64::MAX - self.below(3) as u64,
                2 => (1 << 63) - 1 + self.below(3) as u64,
                3 => (1 << 32) - 1 + self.below(3) as u64,
                _ => self.word(),
            },
        }
    }

    /// Any kinds, past a table's arity too; all plain half of the time.
    pub fn kinds(&mut self) -> Kinds {
        let drawn = self.below(2) == 0;
        Kinds { grade: [(); 8].map(|()| drawn && self.below(2) == 0) }
    }

    pub fn row(&mut self, arity: usize, keys: Keys) -> Vec<u64> {
        (0..arity).map(|_| self.key(keys)).collect()
    }
}

#[derive(Clone, Copy)]
pub enum Keys {
    Below(usize),
    Whole,
}
