//! bench [--times N] [GROUP ..]: times kermit and ours in one process, in turn, on the same rows, and prints a table for each group.
//!
//! Without a group it runs all of them. docs/BENCHMARKS.md says what each group times, and records a run.
#[cfg(kermit)]
mod check;
#[cfg(kermit)]
mod counters;
#[cfg(kermit)]
mod cycles;
#[cfg(kermit)]
mod data;
#[cfg(kermit)]
mod engines;
#[cfg(kermit)]
mod files;
#[cfg(kermit)]
mod inserts;
#[cfg(kermit)]
mod merge;
#[cfg(kermit)]
mod orders;
#[cfg(kermit)]
mod overlay;
#[cfg(kermit)]
mod plain_files;
#[cfg(kermit)]
mod removals;
#[cfg(kermit)]
mod seeks;
#[cfg(kermit)]
mod sides;
#[cfg(kermit)]
mod times;
#[cfg(kermit)]
mod verdicts;
mod windows;

/// What a group is called, and what prints its table, given how often each side is timed.
#[cfg(kermit)]
const GROUPS: &[(&str, fn(usize))] = &[
    ("build", inserts::build),
    ("insert", inserts::insert),
    ("remove", removals::remove),
    ("wait", inserts::wait),
    ("place", seeks::place),
    ("check", check::check),
    ("files", files::files),
    ("permute", orders::permute),
    ("seeks", seeks::seeks),
    ("triangle", cycles::triangles),
    ("square", cycles::squares),
    ("overlay", overlay::overlay),
    ("plain", engines::plain),
    ("verdict", verdicts::verdict),
    ("windows", windows::windows),
];

#[cfg(kermit)]
fn main() {
    let (mut times, mut chosen) = (41, vec![]);
    let mut words = std::env::args().skip(1);
    while let Some(word) = words.next() {
        match word.as_str() {
            "--times" => times = words.next().and_then(|word| word.parse().ok()).expect("--times needs a number"),
            name => chosen.push(*GROUPS.iter().find(|group| group.0 == name).unwrap_or_else(|| panic!("no group {name}"))),
        }
    }
    if chosen.is_empty() {
        chosen = GROUPS.to_vec();
    }
    println!("Medians of {times} turns of each side, of fewer where a turn is long. Pools and windows are touched first.");
    for (name, group) in chosen {
        println!("\n{name}\n");
        group(times);
    }
}

#[cfg(not(kermit))]
fn main() {
    println!("{}", oracle::ABSENT);
}
