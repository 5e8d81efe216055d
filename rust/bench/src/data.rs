//! Rows of two words, of several shapes, the same at every run.
use std::collections::HashSet;

/// A sequence of words that a number repeats.
pub struct Words(pub u64);

impl Words {
    pub fn word(&mut self) -> u64 {
        // xorshift64*: good enough to scatter rows.
        self.0 ^= self.0 >> 12;
        self.0 ^= self.0 << 25;
        self.0 ^= self.0 >> 27;
        self.0.wrapping_mul(0x2545_f491_4f6c_dd1d)
    }

    /// 0 up to, and not, 1.
    fn part(&mut self) -> f64 {
        (self.word() >> 11) as f64 / (1u64 << 53) as f64
    }

    pub fn shuffle<T>(&mut self, items: &mut [T]) {
        for i in (1..items.len()).rev() {
            items.swap(i, (self.word() % (i as u64 + 1)) as usize);
        }
    }
}

pub type Row = [u64; 2];

/// How keys are chosen.
#[derive(Clone, Copy)]
pub enum Shape {
    /// From so many keys, each as often as another.
    Uniform(u64),
    /// Two of three of all pairs.
    Dense,
    /// Small keys often, large ones seldom.
    Skewed,
    /// Every key beside the hub 0, on either side.
    Star,
    /// Speed bands, all under one surface.
    Bands,
}

/// So many rows of one shape.
#[derive(Clone, Copy)]
pub struct Set {
    pub name: &'static str,
    pub shape: Shape,
    pub count: usize,
}

/// The four shapes at this count: in the uniform one a key has about eight others beside it.
pub fn four(count: usize) -> [Set; 4] {
    let set = |name, shape| Set { name, shape, count };
    [
        set("uniform", Shape::Uniform(count as u64 / 8)),
        set("dense", Shape::Dense),
        set("skewed", Shape::Skewed),
        set("star", Shape::Star),
    ]
}

/// What request 14 asks of: 50,000 rows, from few keys, many, and as many as rows, and the two uneven shapes.
pub fn large() -> [Set; 5] {
    let set = |name, shape| Set { name, shape, count: 50_000 };
    [
        set("uniform, 500 keys", Shape::Uniform(500)),
        set("uniform, 5,000 keys", Shape::Uniform(5_000)),
        set("uniform, 50,000 keys", Shape::Uniform(50_000)),
        set("skewed", Shape::Skewed),
        set("star", Shape::Star),
    ]
}

impl Set {
    fn row(&self, words: &mut Words, number: u64) -> Row {
        let count = self.count as f64;
        match self.shape {
            Shape::Uniform(keys) => [0, 1].map(|_| words.word() % keys),
            Shape::Dense => [0, 1].map(|_| words.word() % (1.25 * count.sqrt()) as u64),
            Shape::Skewed => [0, 1].map(|_| (count * words.part().powi(4)) as u64),
            Shape::Star if number % 2 == 0 => [0, number / 2],
            Shape::Star => [number / 2, 0],
            Shape::Bands => [7, 5 * number],
        }
    }

    /// The rows, all different, in no order. `seed` tells the relations of one join apart.
    pub fn rows(&self, seed: u64) -> Vec<Row> {
        let mut words = Words(0x9e37_79b9_7f4a_7c15 ^ (seed + 1));
        let mut seen = HashSet::new();
        let mut rows = vec![];
        let mut number = 0;
        while rows.len() < self.count {
            number += 1;
            let row = self.row(&mut words, number);
            if seen.insert(row) {
                rows.push(row);
            }
        }
        // Some come in order, which no caller promises.
        words.shuffle(&mut rows);
        rows
    }
}
