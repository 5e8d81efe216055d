//! Seeks in one run: offsets and hits of all strategies and probes of the linear one against kermit, probes of all against document 01's rule.
use crate::case::{lower, shorter, Case, Tally};
use crate::kermit::keys;
use crate::model;
use crate::rng::Rng;
use ducatbriar::calls::{partition_point, SeekStrategy};
use oracle::{taken, BinarySeek, Counted, GallopingSeek, LinearSeek};
use std::fmt;

#[derive(Clone)]
pub struct Seek {
    pub run: Vec<u64>,
    pub target: u64,
}

impl fmt::Display for Seek {
    fn fmt(&self, f: &mut fmt::Formatter) -> fmt::Result {
        write!(f, "run {:?}, target {}", self.run, self.target)
    }
}

/// kermit's offset and probes.
pub fn theirs<S: oracle::SeekStrategy>(run: &[usize], target: usize) -> (u64, u64) {
    taken();
    let offset = <Counted<S> as oracle::SeekStrategy>::partition_point(run, |&key| key < target);
    (offset as u64, taken().1 as u64)
}

impl Case for Seek {
    fn run(&self, tally: &mut Tally) -> Result<(), String> {
        let ascends = self.run.windows(2).all(|pair| pair[0] <= pair[1]);
        let (run, target) = (keys(&self.run), self.target as usize);
        for strategy in SeekStrategy::ALL {
            let ours = partition_point(strategy, &self.run, self.target);
            tally.same(ours, model::partition_point(strategy, &self.run, self.target), || format!("{strategy:?} by the rule"))?;
            let theirs = match strategy {
                SeekStrategy::Linear => theirs::<LinearSeek>(&run, target),
                SeekStrategy::Binary => theirs::<BinarySeek>(&run, target),
                SeekStrategy::Galloping => theirs::<GallopingSeek>(&run, target),
            };
            if strategy == SeekStrategy::Linear {
                tally.same((ours.offset, ours.probes), theirs, || "linear offset and probes".into())?;
            } else if ascends {
                tally.same(ours.offset, theirs.0, || format!("{strategy:?} offset"))?;
            } else {
                continue;
            }
            tally.same(ours.hit, run.get(theirs.0 as usize) == Some(&target), || {
                format!("{strategy:?} hit, by kermit's offset")
            })?;
        }
        Ok(())
    }

    fn smaller(&self) -> Vec<Self> {
        let runs = shorter(&self.run).into_iter().chain(lower(&self.run));
        let mut all: Vec<Seek> = runs.map(|run| Seek { run, ..self.clone() }).collect();
        all.extend(lower(&[self.target]).into_iter().map(|target| Seek { target: target[0], ..self.clone() }));
        all
    }
}

/// Every run of up to five keys from 0 to 3, falling ones too, and every target from 0 to 4.
pub fn exhaustive() -> impl Iterator<Item = Seek> {
    (0..=5).flat_map(|len| {
        (0..4u64.pow(len)).flat_map(move |code| {
            let run: Vec<u64> = (0..len).map(|i| code / 4u64.pow(i) % 4).collect();
            (0..5).map(move |target| Seek { run: run.clone(), target })
        })
    })
}

pub fn random(rng: &mut Rng) -> Seek {
    let len = match rng.below(4) {
        0 => rng.below(5),
        1 => 1 << rng.below(10),
        2 => (1 << rng.within(1, 10)) - 1,
        _ => rng.below(300),
    };
    let keys = rng.keys();
    let mut run = if rng.below(4) == 0 { (0..len as u64).map(|i| 2 * i).collect() } else { rng.row(len, keys) };
    if rng.below(5) != 0 {
        run.sort();
    }
    if rng.below(2) == 0 {
        run.dedup();
    }
    // A target near a key of the run, or any.
    let target = match run.len() {
        0 => rng.key(keys),
        _ if rng.below(4) == 0 => rng.key(keys),
        len => run[rng.below(len)].wrapping_add(rng.word() % 3).wrapping_sub(1),
    };
    Seek { run, target }
}
