//! Several ways of doing one work, timed in turn.
use std::time::{Duration, Instant};

/// Does the work once, and answers the time that it took.
pub type Side<'a> = Box<dyn FnMut() -> Duration + 'a>;

/// The time of the second function, over what the first prepared.
pub fn timed<T, R>(prepare: impl FnOnce() -> T, work: impl FnOnce(T) -> R) -> Duration {
    let prepared = prepare();
    let start = Instant::now();
    let result = work(prepared);
    let took = start.elapsed();
    drop(std::hint::black_box(result));
    took
}

/// A side that prepares nothing.
pub fn side<'a, R>(mut work: impl FnMut() -> R + 'a) -> Side<'a> {
    Box::new(move || timed(|| (), |()| work()))
}

/// Where turns are long: no more of them than go into this time, but five.
const LONG: Duration = Duration::from_secs(2);

/// The median time of each side in nanoseconds: all in turn, after a turn that isn't counted.
pub fn medians<const N: usize>(times: usize, mut sides: [Side; N]) -> [f64; N] {
    let mut turn = || sides.each_mut().map(|side| side());
    turn();
    let start = Instant::now();
    let mut turns = vec![];
    while turns.len() < times && (turns.len() < 5 || start.elapsed() < LONG) {
        turns.push(turn());
    }
    std::array::from_fn(|i| {
        let mut times: Vec<Duration> = turns.iter().map(|turn| turn[i]).collect();
        times.sort();
        times[times.len() / 2].as_nanos() as f64
    })
}

/// Microseconds.
pub fn micros(nanoseconds: f64) -> String {
    format!("{:.1} µs", nanoseconds / 1e3)
}

/// Milliseconds.
pub fn millis(nanoseconds: f64) -> String {
    format!("{:.2} ms", nanoseconds / 1e6)
}

/// The head of a table: names, those behind the first `left` to the right.
pub fn head(left: usize, names: &[&str]) {
    println!("| {} |", names.join(" | "));
    println!("|{}{}", "---|".repeat(left), "---:|".repeat(names.len() - left));
}
