//! Seeks in one run, and the search for a place as insert makes it.
use crate::data::{Set, Shape, Words};
use crate::inserts::Growing;
use crate::sides::keys;
use crate::times::{head, medians, micros, side};
use ducatbriar::calls::{self, SeekStrategy};
use oracle::{BinarySeek, GallopingSeek, LinearSeek};

/// An ascending run, and targets for a pass over it: each `step` keys further on average.
fn run_and_targets(count: usize, step: u64) -> (Vec<u64>, Vec<u64>) {
    let mut words = Words(7);
    let mut key = 0;
    let mut further = || {
        key += 1 + words.word() % 9;
        key
    };
    let run: Vec<u64> = (0..count).map(|_| further()).collect();
    let mut at = 0;
    let targets = std::iter::from_fn(|| {
        at += 1 + words.word() % (10 * step);
        (at < key).then_some(at)
    });
    (run, targets.collect())
}

/// A pass by seeks, each in what is left behind the last one's place.
fn pass<S: oracle::SeekStrategy>(times: usize, strategy: SeekStrategy, data: &str, step: u64) {
    let (run, targets) = run_and_targets(4096, step);
    let (their_run, their_targets) = (keys(&run), keys(&targets));
    let kermit = side(|| {
        let seek = |from, target| from + S::partition_point(&their_run[from..], |&key| key < target);
        their_targets.iter().fold(0, |from, &target| seek(from, target))
    });
    let ours = side(|| {
        let seek = |from, target| from + calls::partition_point(strategy, &run[from..], target).offset as usize;
        targets.iter().fold(0, |from, &target| seek(from, target))
    });
    let [kermit, ours] = medians(times, [kermit, ours]);
    println!("| {data} | {strategy:?} | {} | {} | {:.2} |", micros(kermit), micros(ours), ours / kermit);
}

pub fn seeks(times: usize) {
    head(2, &["targets", "strategy", "kermit", "ours", "ours / kermit"]);
    for (data, step) in [("every key", 1), ("one of 8", 8), ("one of 64", 64)] {
        pass::<LinearSeek>(times, SeekStrategy::Linear, data, step);
        pass::<BinarySeek>(times, SeekStrategy::Binary, data, step);
        pass::<GallopingSeek>(times, SeekStrategy::Galloping, data, step);
    }
}

/// The place of a new speed band among 4,000 under one surface: by a scan from the front, by halves, and how much of an insert that is.
pub fn place(times: usize) {
    let bands = Set { name: "", shape: Shape::Bands, count: 4000 };
    let run: Vec<u64> = (1..=4000).map(|i| 5 * i).collect();
    let mut targets: Vec<u64> = run.iter().map(|key| key + 2).collect();
    Words(11).shuffle(&mut targets);
    let found = |strategy| {
        let (run, targets) = (&run, &targets);
        side(move || targets.iter().fold(0, |sum, &target| sum + calls::partition_point(strategy, run, target).offset))
    };
    let growing = Growing::of(bands, 64, 4000);
    let sides = [found(SeekStrategy::Linear), found(SeekStrategy::Binary), growing.ours(), growing.checks(), growing.kermit()];
    let [scan, halves, ours, checks, kermit] = medians(times, sides);
    let insert = ours / 64.0;
    head(1, &["of one new band among 4,000", "time", "of our insert"]);
    let line = |name: &str, time: f64| println!("| {name} | {time:.0} ns | {:.1} % |", 100.0 * time / insert);
    line("the search from front to back", scan / 4000.0);
    line("the search by halves", halves / 4000.0);
    line("the check for damage", checks / 64.0);
    line("our insert, whole", insert);
    line("kermit's insert, whole", kermit / 64.0);
}
