//! Removals one by one, beside inserts of the same rows. kermit has no removal: what it has instead is a build over the rest.
use crate::data;
use crate::inserts::Growing;
use crate::sides::{capacity, keys, table};
use crate::times::{head, medians, micros, timed, Side};
use ducatbriar::calls;
use oracle::{ColumnTrie, GallopingSeek, Relation, Tuples};

/// A table of all rows, of which the new ones of `growing` are to go.
struct Shrinking<'a> {
    growing: &'a Growing,
    pool: Vec<u64>,
    table: calls::ColumnTrie,
}

impl<'a> Shrinking<'a> {
    fn of(growing: &'a Growing) -> Shrinking<'a> {
        let rows = [&growing.new[..], &growing.old[..]].concat();
        let (pool, table) = table(&rows, capacity(rows.len()));
        Shrinking { growing, pool, table }
    }

    fn ours(&self) -> Side<'_> {
        let shrunk = |mut pool: Vec<u64>| {
            let table = self.growing.new.iter().fold(self.table, |table, row| calls::remove(&mut pool, table, row).table);
            assert_eq!(table.tuple_count as usize, self.growing.old.len());
            pool
        };
        Box::new(move || timed(|| self.pool.clone(), shrunk))
    }

    /// One build, after which all of them are gone.
    fn kermit(&self) -> Side<'_> {
        let rest = keys(&self.growing.old.concat());
        let batch = move || Tuples::from_flat(2, rest.len() / 2, rest.clone());
        Box::new(move || timed(&batch, |batch| ColumnTrie::<GallopingSeek>::from_tuples(2.into(), batch)))
    }
}

/// As many rows go, each drawn from all.
const GONE: usize = 64;

pub fn remove(times: usize) {
    let sides = ["64 removals", "64 inserts", "64 checks alone", "removals / inserts"];
    head(2, &[&["rows", "data"], &sides[..], &["one removal", "kermit, a build over the rest"]].concat());
    for set in data::four(512).into_iter().chain(data::four(4096)).chain(data::large()) {
        let growing = Growing::of(set, GONE, set.count - GONE);
        let shrinking = Shrinking::of(&growing);
        let all = [shrinking.ours(), growing.ours(), growing.checks(), shrinking.kermit()];
        let [removals, inserts, checks, build] = medians(times, all);
        print!("| {} | {} | {} | {} | {} |", set.count, set.name, micros(removals), micros(inserts), micros(checks));
        println!(" {:.2} | {} | {} |", removals / inserts, micros(removals / GONE as f64), micros(build));
    }
}
