//! compare [--seed N] [--rounds N] [PART ..]: runs against kermit, each part or those that are named.
//!
//! The exhaustive cases of a part are always run whole; --rounds scales the random ones, and from 1,000 on there are large ones. A part that fails prints
//! what differs on the smallest case found, and the program ends with status 1.
#[cfg(kermit)]
fn main() {
    use compare::runs::{run, NAMES};
    use std::time::Instant;

    let (mut seed, mut rounds, mut parts) = (1, 2000, vec![]);
    let mut words = std::env::args().skip(1);
    while let Some(word) = words.next() {
        let mut number = || words.next().and_then(|word| word.parse().ok()).unwrap_or_else(|| panic!("{word} needs a number"));
        match word.as_str() {
            "--seed" => seed = number(),
            "--rounds" => rounds = number() as usize,
            _ => parts.push(word),
        }
    }
    if parts.is_empty() {
        parts = NAMES.map(String::from).to_vec();
    }
    let start = Instant::now();
    let mut total = 0;
    for part in parts {
        let begun = Instant::now();
        match run(&part, seed, rounds) {
            Ok(tally) => {
                total += tally.comparisons;
                println!("{part}: {} comparisons, {:.1} s", tally.comparisons, begun.elapsed().as_secs_f64());
            }
            Err(text) => {
                println!("{part}, seed {seed}: {text}");
                std::process::exit(1);
            }
        }
    }
    println!("seed {seed}: {total} comparisons, none differs, {:.1} s", start.elapsed().as_secs_f64());
}

#[cfg(not(kermit))]
fn main() {
    println!("{}", oracle::ABSENT);
}
