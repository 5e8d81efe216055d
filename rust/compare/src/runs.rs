//! The runs by name: what is exhaustive, then so many random cases.
use crate::case::{check, Case, Tally};
use crate::rng::Rng;
use crate::{after, changes, cursors, damage, files, joins, orders, overlay, overlay_joins, seeks, tables, verdicts};

pub const NAMES: [&str; 12] =
    ["seeks", "tables", "changes", "files", "cursors", "joins", "overlay", "overlay_joins", "orders", "verdicts", "after", "damage"];

fn all<C: Case>(tally: &mut Tally, cases: impl IntoIterator<Item = C>) -> Result<(), String> {
    cases.into_iter().try_for_each(|case| check(case, tally))
}

/// `rounds` random cases.
fn some<C: Case>(tally: &mut Tally, rng: &mut Rng, rounds: usize, case: impl Fn(&mut Rng) -> C) -> Result<(), String> {
    (0..rounds).try_for_each(|_| check(case(rng), tally))
}

/// From so many rounds on there are tables with as many rows as one can have: each takes as long as hundreds of small ones.
const LARGE: usize = 1000;

/// Runs the part of this name. `rounds` scales the random cases; a case of one part takes longer than one of another, so the parts have different shares.
pub fn run(name: &str, seed: u64, rounds: usize) -> Result<Tally, String> {
    let mut tally = Tally::default();
    let t = &mut tally;
    let rng = &mut Rng::new(seed, name);
    let large = rounds >= LARGE;
    match name {
        "seeks" => {
            all(t, seeks::exhaustive())?;
            some(t, rng, 20 * rounds, seeks::random)?;
        }
        "tables" => {
            all(t, tables::exhaustive())?;
            all(t, large.then(|| tables::large(rng)).into_iter().flatten())?;
            some(t, rng, 2 * rounds, tables::random)?;
            some(t, rng, 10 * rounds, tables::refused)?;
        }
        "changes" => {
            all(t, changes::exhaustive())?;
            all(t, large.then(|| changes::large(rng)).into_iter().flatten())?;
            some(t, rng, 2 * rounds, changes::random)?;
            some(t, rng, rounds / 4, changes::emptied)?;
        }
        "files" => {
            all(t, files::every_table())?;
            all(t, files::every_byte())?;
            all(t, files::every_field())?;
            all(t, files::full_fields(rng))?;
            all(t, files::some_fields(rng))?;
            all(t, large.then(|| files::large_tables(rng)).into_iter().flatten())?;
            all(t, large.then(|| files::large_files(rng)).into_iter().flatten())?;
            some(t, rng, 2 * rounds, files::random_table)?;
            some(t, rng, 20 * rounds, files::random)?;
        }
        "cursors" => {
            all(t, cursors::exhaustive())?;
            all(t, large.then(|| cursors::large(rng)).into_iter().flatten())?;
            some(t, rng, 4 * rounds, cursors::random)?;
        }
        "joins" => {
            all(t, joins::exhaustive())?;
            all(t, joins::every_kind())?;
            all(t, joins::no_variables())?;
            all(t, large.then(|| joins::large(rng)).into_iter().flatten())?;
            some(t, rng, rounds, joins::graded)?;
            some(t, rng, 4 * rounds, joins::changed)?;
        }
        "overlay" => {
            all(t, overlay::exhaustive())?;
            all(t, large.then(|| overlay::large(rng)).into_iter().flatten())?;
            some(t, rng, 2 * rounds, overlay::random)?;
            some(t, rng, 4 * rounds, overlay::damaged)?;
        }
        "overlay_joins" => {
            all(t, overlay_joins::exhaustive())?;
            all(t, overlay_joins::every_number())?;
            all(t, large.then(|| overlay_joins::large(rng)).into_iter().flatten())?;
            some(t, rng, rounds, overlay_joins::random)?;
            some(t, rng, 4 * rounds, overlay_joins::changed)?;
        }
        "orders" => {
            all(t, orders::exhaustive())?;
            all(t, orders::every_number())?;
            all(t, orders::every_order())?;
            all(t, large.then(|| orders::large(rng)).into_iter().flatten())?;
            some(t, rng, 10 * rounds, orders::random)?;
            some(t, rng, rounds, orders::departments)?;
        }
        "verdicts" => {
            all(t, verdicts::exhaustive())?;
            all(t, verdicts::no_variables())?;
            all(t, large.then(|| verdicts::large(rng)).into_iter().flatten())?;
            some(t, rng, 10 * rounds, verdicts::random)?;
        }
        "after" => {
            all(t, after::exhaustive())?;
            if large {
                let (chains, singles) = after::large(rng);
                all(t, chains)?;
                all(t, singles)?;
            }
            some(t, rng, rounds, after::chain)?;
            some(t, rng, 2 * rounds, after::single)?;
        }
        "damage" => {
            all(t, damage::exhaustive())?;
            all(t, large.then(|| damage::large(rng)).into_iter().flatten())?;
            some(t, rng, rounds / 10, damage::random)?;
            some(t, rng, 4 * rounds, damage::larger)?;
        }
        _ => return Err(format!("no part {name}: there are {NAMES:?}")),
    }
    Ok(tally)
}
