//! What one would write by hand for triangles, or for squares, and for nothing else: sorted lists of neighbours, and a merge of two of them inside.
use crate::data::Row;

/// The sorted neighbours of each key.
pub struct Neighbours {
    starts: Vec<usize>,
    all: Vec<u64>,
}

impl Neighbours {
    /// Of the keys below `keys`.
    pub fn of(rows: &[Row], keys: usize) -> Neighbours {
        let mut rows = rows.to_vec();
        rows.sort_unstable();
        let mut starts = vec![0; keys + 1];
        rows.iter().for_each(|row| starts[row[0] as usize + 1] += 1);
        (0..keys).for_each(|key| starts[key + 1] += starts[key]);
        Neighbours { starts, all: rows.iter().map(|row| row[1]).collect() }
    }

    /// For each relation, of as many keys as any of them has.
    pub fn of_each(relations: &[Vec<Row>]) -> Vec<Neighbours> {
        let greatest = relations.iter().flatten().flatten().max().map_or(0, |&key| key as usize + 1);
        relations.iter().map(|rows| Neighbours::of(rows, greatest)).collect()
    }

    fn keys(&self) -> u64 {
        self.starts.len() as u64 - 1
    }

    fn beside(&self, key: u64) -> &[u64] {
        &self.all[self.starts[key as usize]..self.starts[key as usize + 1]]
    }
}

/// The keys that two ascending lists share.
fn shared(a: &[u64], b: &[u64], mut found: impl FnMut(u64)) {
    let (mut i, mut j) = (0, 0);
    while i < a.len() && j < b.len() {
        let (x, y) = (a[i], b[j]);
        if x == y {
            found(x);
        }
        i += (x <= y) as usize;
        j += (y <= x) as usize;
    }
}

/// R(0, 1), S(1, 2), T(0, 2), into a window that holds all rows; how many there are.
pub fn triangles(relations: &[Neighbours], window: &mut [u64]) -> usize {
    let [r, s, t] = relations else { panic!("three relations") };
    let mut rows = 0;
    for a in 0..r.keys() {
        for &b in r.beside(a) {
            shared(s.beside(b), t.beside(a), |c| {
                window[3 * rows..3 * rows + 3].copy_from_slice(&[a, b, c]);
                rows += 1;
            });
        }
    }
    rows
}

/// R(0, 1), S(1, 2), T(2, 3), U(0, 3), likewise.
pub fn squares(relations: &[Neighbours], window: &mut [u64]) -> usize {
    let [r, s, t, u] = relations else { panic!("four relations") };
    let mut rows = 0;
    for a in 0..r.keys() {
        for &b in r.beside(a) {
            for &c in s.beside(b) {
                shared(t.beside(c), u.beside(a), |d| {
                    window[4 * rows..4 * rows + 4].copy_from_slice(&[a, b, c, d]);
                    rows += 1;
                });
            }
        }
    }
    rows
}
