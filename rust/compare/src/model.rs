//! Document 01's rules, written from its text and from nothing else: what every call must answer on any words, damaged ones included.
//!
//! It is plain and slow. Lists are vectors, a relation is a sorted vector of rows, and the join tries every row. Where document 01 leaves a choice to
//! kermit, the runs against kermit decide, not this file.
use crate::model_overlay::{counting, same_shape};
use ducatbriar::calls::*;

pub const MAX: usize = 8;
pub const MAX_CAPACITY: u64 = 65_536;

pub type Row = Vec<u64>;

/// The two lists of a layer.
#[derive(Clone, Debug, Default, PartialEq, Eq)]
pub struct Layer {
    pub data: Vec<u64>,
    pub interval: Vec<u64>,
}

// ---- seeks

/// The halving rule on lo..hi: probe lo + (hi - lo)/2; below moves lo past it, else hi to it.
fn halve(lo: usize, hi: usize, probes: u64, below: impl Fn(usize) -> bool) -> (usize, u64) {
    let (mut lo, mut hi, mut probes) = (lo, hi, probes);
    while lo < hi {
        let mid = lo + (hi - lo) / 2;
        probes += 1;
        if below(mid) {
            lo = mid + 1;
        } else {
            hi = mid;
        }
    }
    (lo, probes)
}

pub fn partition_point(strategy: SeekStrategy, run: &[u64], target: u64) -> Sought {
    let (offset, probes) = probed(strategy, run, target);
    Sought { offset: offset as u64, probes, hit: run.get(offset) == Some(&target) }
}

/// Where the strategy's probes end, and how many they are.
fn probed(strategy: SeekStrategy, run: &[u64], target: u64) -> (usize, u64) {
    let below = |i: usize| run[i] < target;
    match strategy {
        SeekStrategy::Linear => {
            let offset = (0..run.len()).take_while(|&i| below(i)).count();
            (offset, run.len().min(offset + 1) as u64)
        }
        SeekStrategy::Binary => halve(0, run.len(), 0, below),
        SeekStrategy::Galloping => {
            if run.is_empty() {
                return (0, 0);
            }
            if !below(0) {
                return (0, 1);
            }
            // The last bound known below, the next one, and the probes so far.
            let (mut last, mut bound, mut probes) = (0, 1, 1);
            while bound < run.len() {
                probes += 1;
                if !below(bound) {
                    break;
                }
                (last, bound) = (bound, 2 * bound);
            }
            halve(last + 1, bound.min(run.len()), probes, below)
        }
    }
}

// ---- tables

pub fn limits(arity: u64, capacity: u64) -> bool {
    (1..=MAX as u64).contains(&arity) && (1..=MAX_CAPACITY).contains(&capacity)
}

/// The 2ac words lie in a pool of this length.
pub fn lies_in(len: usize, start: u64, arity: u64, capacity: u64) -> bool {
    start as u128 + 2 * arity as u128 * capacity as u128 <= len as u128
}

/// What a cursor asks of a header: arity, capacity and pool range, and no length over the capacity.
fn header_sound(pool: &[u64], t: ColumnTrie) -> bool {
    limits(t.arity, t.capacity)
        && lies_in(pool.len(), t.start, t.arity, t.capacity)
        && t.data_len.iter().chain(&t.interval_len).all(|&len| len <= t.capacity)
}

/// The layers that the words hold, under a header that is sound.
pub fn layers(pool: &[u64], t: ColumnTrie) -> Vec<Layer> {
    let words = |at: u64, len: u64| pool[at as usize..(at + len) as usize].to_vec();
    (0..t.arity)
        .map(|d| {
            let at = t.start + 2 * t.capacity * d;
            Layer { data: words(at, t.data_len[d as usize]), interval: words(at + t.capacity, t.interval_len[d as usize]) }
        })
        .collect()
}

fn ascends(list: &[u64]) -> bool {
    list.windows(2).all(|pair| pair[0] < pair[1])
}

/// Group i of a layer, as start and end; none where interval or group is outside its list.
pub fn group(layer: &Layer, i: u64) -> Option<(u64, u64)> {
    let i = usize::try_from(i).ok()?;
    let start = *layer.interval.get(i)?;
    let end = *layer.interval.get(i + 1).unwrap_or(&(layer.data.len() as u64));
    (start <= end && end <= layer.data.len() as u64).then_some((start, end))
}

pub fn undamaged(pool: &[u64], t: ColumnTrie) -> bool {
    let past = |lengths: [u64; MAX]| lengths[t.arity as usize..].iter().all(|&len| len == 0);
    if !header_sound(pool, t) || !past(t.data_len) || !past(t.interval_len) || t.grade[t.arity as usize..].contains(&true) {
        return false;
    }
    let layers = layers(pool, t);
    if t.tuple_count != layers[layers.len() - 1].data.len() as u64 {
        return false;
    }
    if layers.iter().all(|layer| layer.data.is_empty() && layer.interval.is_empty()) {
        return true;
    }
    layers[0].interval == [0]
        && layers.windows(2).all(|pair| pair[1].interval.len() == pair[0].data.len())
        && layers.iter().all(|layer| {
            layer.interval.first() == Some(&0)
                && ascends(&layer.interval)
                && layer.interval.last().is_some_and(|&last| last < layer.data.len() as u64)
                && (0..layer.interval.len() as u64).all(|i| {
                    let (start, end) = group(layer, i).expect("intervals ascend below the data length");
                    ascends(&layer.data[start as usize..end as usize])
                })
        })
}

/// The rows of an undamaged table: its paths.
pub fn rows_of(pool: &[u64], t: ColumnTrie) -> Vec<Row> {
    let layers = layers(pool, t);
    // Each path so far, with the place of its last key.
    let mut paths = if layers[0].data.is_empty() { vec![] } else { vec![(vec![], 0)] };
    for layer in &layers {
        paths = paths
            .into_iter()
            .flat_map(|(path, place): (Row, u64)| {
                let (start, end) = group(layer, place).expect("an undamaged table");
                (start..end).map(move |i| ([&path[..], &[layer.data[i as usize]]].concat(), i))
            })
            .collect();
    }
    paths.into_iter().map(|(path, _)| path).collect()
}

/// The layers of a set of rows, ascending: keys at one depth grouped by parent, and where each parent's children start.
pub fn layers_of(arity: usize, rows: &[Row]) -> Vec<Layer> {
    (0..arity)
        .map(|d| {
            let mut layer = Layer::default();
            for (i, row) in rows.iter().enumerate() {
                let before = i.checked_sub(1).map(|before| &rows[before]);
                if before.is_none_or(|before| before[..d] != row[..d]) {
                    layer.interval.push(layer.data.len() as u64);
                }
                if before.is_none_or(|before| before[..=d] != row[..=d]) {
                    layer.data.push(row[d]);
                }
            }
            layer
        })
        .collect()
}

/// The layers of the rows laid over the pool for this table, whatever it held, and the header.
pub fn store(pool: &mut [u64], table: ColumnTrie, rows: &[Row]) -> ColumnTrie {
    let mut t = ColumnTrie { tuple_count: rows.len() as u64, ..table };
    for (d, layer) in layers_of(t.arity as usize, rows).iter().enumerate() {
        let at = (t.start + 2 * t.capacity * d as u64) as usize;
        pool[at..at + layer.data.len()].copy_from_slice(&layer.data);
        let at = at + t.capacity as usize;
        pool[at..at + layer.interval.len()].copy_from_slice(&layer.interval);
        t.data_len[d] = layer.data.len() as u64;
        t.interval_len[d] = layer.interval.len() as u64;
    }
    t
}

fn build_number(rows: &[u64], pool: &[u64], start: u64, arity: u64, capacity: u64) -> u64 {
    if !limits(arity, 1) {
        1
    } else if !limits(1, capacity) {
        2
    } else if !lies_in(pool.len(), start, arity, capacity) {
        3
    } else if rows.len() as u64 % arity != 0 {
        4
    } else if rows.len() as u64 / arity > capacity {
        5
    } else {
        0
    }
}

/// A table without rows: of these kinds those inside the arity.
pub fn unfilled(start: u64, arity: u64, capacity: u64, kinds: Kinds) -> ColumnTrie {
    let mut t = ColumnTrie { start, arity, capacity, ..Default::default() };
    t.grade[..arity as usize].copy_from_slice(&kinds.grade[..arity as usize]);
    t
}

pub fn build(rows: &mut [u64], pool: &mut [u64], start: u64, arity: u64, capacity: u64, kinds: Kinds) -> Built {
    let number = build_number(rows, pool, start, arity, capacity);
    if number != 0 {
        return Built { number, table: ColumnTrie::default() };
    }
    let mut sorted: Vec<Row> = rows.chunks(arity as usize).map(<[u64]>::to_vec).collect();
    sorted.sort();
    rows.copy_from_slice(&sorted.concat());
    sorted.dedup();
    Built { number, table: store(pool, unfilled(start, arity, capacity, kinds), &sorted) }
}

pub fn insert(pool: &mut [u64], t: ColumnTrie, tuple: &[u64]) -> Inserted {
    let refused = |number| Inserted { number, is_new: false, table: t };
    if !undamaged(pool, t) {
        return refused(6);
    }
    if tuple.len() as u64 != t.arity {
        return refused(4);
    }
    let mut rows = rows_of(pool, t);
    let Err(place) = rows.binary_search(&tuple.to_vec()) else {
        return refused(0);
    };
    if t.tuple_count == t.capacity {
        return refused(5);
    }
    rows.insert(place, tuple.to_vec());
    Inserted { number: 0, is_new: true, table: store(pool, t, &rows) }
}

/// What is laid over the pool are the layers of the rest, so that words past the new lengths stay.
pub fn remove(pool: &mut [u64], t: ColumnTrie, tuple: &[u64]) -> Removed {
    let refused = |number| Removed { number, was_there: false, table: t };
    if !undamaged(pool, t) {
        return refused(6);
    }
    if tuple.len() as u64 != t.arity {
        return refused(4);
    }
    let mut rows = rows_of(pool, t);
    let Ok(place) = rows.binary_search(&tuple.to_vec()) else {
        return refused(0);
    };
    rows.remove(place);
    Removed { number: 0, was_there: true, table: store(pool, t, &rows) }
}

/// The listing, or the refusal of a damaged table.
pub fn text(pool: &[u64], t: ColumnTrie) -> Option<String> {
    undamaged(pool, t).then(|| {
        let line = |list: &[u64]| list.iter().map(u64::to_string).collect::<Vec<_>>().join(", ");
        layers(pool, t)
            .iter()
            .enumerate()
            .map(|(d, layer)| format!("LAYER {d}\nData: [{}]\nInterval: [{}]\n", line(&layer.data), line(&layer.interval)))
            .collect()
    })
}

pub fn list(pool: &[u64], t: ColumnTrie, destination: &mut [u8]) -> Listed {
    let Some(text) = text(pool, t) else {
        return Listed { number: 6, len: 0 };
    };
    if text.len() > destination.len() {
        return Listed { number: 14, len: 0 };
    }
    destination[..text.len()].copy_from_slice(text.as_bytes());
    Listed { number: 0, len: text.len() as u64 }
}

// ---- cursors

/// A cursor that passed the checks: the layers, and the group that it stands in; none at the root.
struct Stood {
    layers: Vec<Layer>,
    group: Option<(u64, u64)>,
}

impl Stood {
    fn check(pool: &[u64], t: ColumnTrie, i: ColumnTrieIter) -> Result<Stood, u64> {
        if !header_sound(pool, t) {
            return Err(6);
        }
        let layers = layers(pool, t);
        if i.depth == 0 {
            return if i == ColumnTrieIter::default() { Ok(Stood { layers, group: None }) } else { Err(7) };
        }
        if i.depth > t.arity {
            return Err(7);
        }
        let (start, end) = group(&layers[i.depth as usize - 1], i.interval_i).ok_or(7u64)?;
        if i.slice_offset > end - start {
            return Err(7);
        }
        Ok(Stood { layers, group: Some((start, end)) })
    }

    /// The siblings not yet passed; none at the root.
    fn remaining(&self, i: ColumnTrieIter) -> &[u64] {
        match self.group {
            None => &[],
            Some((start, end)) => &self.layers[i.depth as usize - 1].data[(start + i.slice_offset) as usize..end as usize],
        }
    }
}

fn past(i: ColumnTrieIter, n: u64) -> ColumnTrieIter {
    ColumnTrieIter { slice_offset: i.slice_offset + n, ..i }
}

pub fn key(pool: &[u64], t: ColumnTrie, i: ColumnTrieIter) -> KeyAnswer {
    match Stood::check(pool, t, i) {
        Err(number) => KeyAnswer { number, found: false, key: 0 },
        Ok(stood) => {
            let key = stood.remaining(i).first();
            KeyAnswer { number: 0, found: key.is_some(), key: key.copied().unwrap_or(0) }
        }
    }
}

pub fn next(pool: &[u64], t: ColumnTrie, i: ColumnTrieIter) -> NextAnswer {
    match Stood::check(pool, t, i) {
        Err(number) => NextAnswer { number, found: false, key: 0, iter: i },
        Ok(stood) => {
            let remaining = stood.remaining(i);
            let key = remaining.get(1);
            let iter = if remaining.is_empty() { i } else { past(i, 1) };
            NextAnswer { number: 0, found: key.is_some(), key: key.copied().unwrap_or(0), iter }
        }
    }
}

pub fn seek(pool: &[u64], t: ColumnTrie, i: ColumnTrieIter, strategy: SeekStrategy, target: u64) -> SeekAnswer {
    match Stood::check(pool, t, i) {
        Err(number) => SeekAnswer { number, found: false, hit: false, probes: 0, iter: i },
        Ok(stood) => {
            let remaining = stood.remaining(i);
            let sought = partition_point(strategy, remaining, target);
            let found = sought.offset < remaining.len() as u64;
            SeekAnswer { number: 0, found, hit: sought.hit, probes: sought.probes, iter: past(i, sought.offset) }
        }
    }
}

pub fn at_end(pool: &[u64], t: ColumnTrie, i: ColumnTrieIter) -> EndAnswer {
    match Stood::check(pool, t, i) {
        Err(number) => EndAnswer { number, at_end: false },
        Ok(stood) => EndAnswer { number: 0, at_end: stood.remaining(i).is_empty() },
    }
}

pub fn open(pool: &[u64], t: ColumnTrie, i: ColumnTrieIter) -> OpenAnswer {
    let stays = |number| OpenAnswer { number, opened: false, iter: i };
    let stood = match Stood::check(pool, t, i) {
        Err(number) => return stays(number),
        Ok(stood) => stood,
    };
    let place = match stood.group {
        None if stood.layers[0].data.is_empty() => return stays(0),
        None => 0,
        Some(_) if i.depth == t.arity || stood.remaining(i).is_empty() => return stays(0),
        Some((start, _)) => start + i.slice_offset,
    };
    match group(&stood.layers[i.depth as usize], place) {
        None => stays(6),
        Some(_) => {
            let iter = ColumnTrieIter { depth: i.depth + 1, interval_i: place, slice_offset: 0 };
            OpenAnswer { number: 0, opened: true, iter }
        }
    }
}

pub fn up(pool: &[u64], t: ColumnTrie, i: ColumnTrieIter) -> UpAnswer {
    let stays = |number| UpAnswer { number, risen: false, iter: i };
    let risen = |iter| UpAnswer { number: 0, risen: true, iter };
    let stood = match Stood::check(pool, t, i) {
        Err(number) => return stays(number),
        Ok(stood) => stood,
    };
    if i.depth == 0 {
        return stays(0);
    }
    if i.depth == 1 {
        return risen(ColumnTrieIter::default());
    }
    let upper = &stood.layers[i.depth as usize - 2];
    let counted = halve(0, upper.interval.len(), 0, |k| upper.interval[k] <= i.interval_i).0 as u64;
    if counted == 0 {
        return stays(6);
    }
    match group(upper, counted - 1) {
        Some((start, end)) if start <= i.interval_i && i.interval_i < end => {
            risen(ColumnTrieIter { depth: i.depth - 1, interval_i: counted - 1, slice_offset: i.interval_i - start })
        }
        _ => stays(6),
    }
}

// ---- the join

/// The number of the first check that refuses, or 0; the window is so many words long.
pub fn join_number(pool: &[u64], tables: &Tables, query: &Query, window: usize) -> u64 {
    let n = query.n;
    if n > MAX as u64 {
        return 8;
    }
    let order = &query.order[..n as usize];
    if (0..n).any(|v| !order.contains(&v)) {
        return 8;
    }
    if query.atom_count > MAX as u64 || tables.count > MAX as u64 {
        return 9;
    }
    let atoms = &query.atoms[..query.atom_count as usize];
    if atoms.iter().any(|atom| atom.table >= tables.count || (atom.laid_over && atom.maker >= tables.count)) {
        return 9;
    }
    let place = |v: u64| order.iter().position(|&w| w == v);
    let listed = |atom: &Atom| {
        let arity = tables.tables[atom.table as usize].arity;
        atom.len == arity
            && atom.len <= MAX as u64
            && atom.variables[..atom.len as usize].iter().all(|&v| v < n)
            && atom.variables[..atom.len as usize].windows(2).all(|pair| place(pair[0]) < place(pair[1]))
    };
    if !atoms.iter().all(listed) {
        return 10;
    }
    if (0..n).any(|v| !atoms.iter().any(|atom| atom.variables[..atom.len as usize].contains(&v))) {
        return 11;
    }
    let binds = |v: u64, grade: bool| {
        let columns =
            |atom: &Atom| atom.variables.into_iter().zip(tables.tables[atom.table as usize].grade).take(atom.len as usize);
        atoms.iter().any(|atom| columns(atom).any(|column| column == (v, grade)))
    };
    if (0..n).any(|v| binds(v, true) && binds(v, false)) {
        return 15;
    }
    if n > 0 && window as u64 % n != 0 {
        return 16;
    }
    let table = |i: u64| tables.tables[i as usize];
    let makers = || atoms.iter().filter(|atom| atom.laid_over);
    if atoms.iter().any(|atom| !undamaged(pool, table(atom.table))) || makers().any(|atom| !undamaged(pool, table(atom.maker))) {
        return 6;
    }
    if makers().any(|atom| !same_shape(table(atom.table), table(atom.maker))) {
        return 17;
    }
    0
}

/// The rows that an atom's part is to be one of: those stored in its table, or the rows that count of its two.
pub fn atom_rows(pool: &[u64], tables: &Tables, atom: &Atom) -> Vec<Row> {
    let rows = |i: u64| rows_of(pool, tables.tables[i as usize]);
    if atom.laid_over {
        return counting(&rows(atom.table), &rows(atom.maker));
    }
    rows(atom.table)
}

/// The assignments whose part for each atom is a stored row, or a row that counts, ascending as read in the order: found atom by atom, then sorted.
pub fn answers(pool: &[u64], tables: &Tables, query: &Query) -> Vec<Row> {
    let n = query.n as usize;
    let mut partial: Vec<Vec<Option<u64>>> = vec![vec![None; n]];
    for atom in &query.atoms[..query.atom_count as usize] {
        let rows = atom_rows(pool, tables, atom);
        let mut extended = vec![];
        for assignment in &partial {
            for row in &rows {
                let mut assignment = assignment.clone();
                let fits = atom.variables.iter().zip(row).all(|(&v, &key)| *assignment[v as usize].get_or_insert(key) == key);
                if fits {
                    extended.push(assignment);
                }
            }
        }
        partial = extended;
    }
    let mut rows: Vec<Row> = partial.into_iter().map(|row| row.into_iter().map(Option::unwrap).collect()).collect();
    let read = |row: &Row| query.order[..n].iter().map(|&v| row[v as usize]).collect::<Row>();
    rows.sort_by_key(read);
    rows.dedup();
    rows
}

/// What a window of whole rows gets of these. The seeks are left to kermit, which says them (`joins::Joins::found`).
pub fn windowed(n: usize, rows: &[Row], window: &mut [u64]) -> Joined {
    let fit = window.len().checked_div(n).map_or(rows.len(), |fit| fit.min(rows.len()));
    for (place, row) in window.chunks_mut(n.max(1)).zip(&rows[..fit]) {
        place[..n].copy_from_slice(row);
    }
    Joined { number: if fit < rows.len() { 12 } else { 0 }, rows: fit as u64, seeks: 0 }
}

pub fn join(pool: &[u64], tables: &Tables, query: &Query, window: &mut [u64]) -> Joined {
    match join_number(pool, tables, query, window.len()) {
        0 => windowed(query.n as usize, &answers(pool, tables, query), window),
        number => Joined { number, rows: 0, seeks: 0 },
    }
}
