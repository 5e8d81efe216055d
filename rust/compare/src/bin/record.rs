//! record CRATES: writes kermit's answers as text for the programs `replay` and `replay_leapfrogs`, which ask the library the same, each into the data folder of its
//! program below CRATES. docs/REPLAY.md says what is recorded.
//!
//! The answers are kermit's alone: nothing here asks the library. The cases are the same at every run. A reader takes the decimal numbers of the text in
//! sequence, whatever stands between them, so no other text may hold a digit; a listing stands as it is behind its length and a newline.
#[cfg(kermit)]
fn main() {
    let crates = std::env::args().nth(1).expect("record CRATES");
    for (program, name, cases) in [
        ("replay", "seeks", recorded::seeks()),
        ("replay", "tables", recorded::tables()),
        ("replay", "cursors", recorded::cursors()),
        ("replay", "joins", recorded::joins()),
        ("replay_leapfrogs", "leapfrogs", recorded::leapfrogs()),
    ] {
        let text = format!("{} {name}\n{}", cases.len(), cases.concat());
        assert!(text.len() <= 262_144, "{name} has {} bytes, more than {program}'s buffer", text.len());
        println!("{name}: {} cases, {} bytes", cases.len(), text.len());
        std::fs::write(format!("{crates}/{program}/data/{name}"), text).unwrap();
    }
}

#[cfg(not(kermit))]
fn main() {
    println!("{}", oracle::ABSENT);
}

#[cfg(kermit)]
mod recorded {
    use compare::cursors::{self, Move};
    use compare::joins::{self, Joins};
    use compare::kermit::{self, keys};
    use compare::model::Row;
    use compare::rng::{Keys, Rng};
    use compare::seeks::{self, Seek};
    use compare::tables::{self, all_rows, Grown};
    use oracle::{
        taken, BinarySeek, Cardinality, Counted, GallopingSeek, Leapfrog, LinearIterator, LinearSeek, Relation, TrieIterator,
    };
    use std::fmt::{Debug, Write};

    fn words(words: &[u64]) -> String {
        words.iter().map(u64::to_string).collect::<Vec<_>>().join(" ")
    }

    fn rng(name: &str) -> Rng {
        Rng::new(2014, name)
    }

    /// What kermit answers under each of its strategies, which is one answer.
    fn agreed<T: PartialEq + Debug>(linear: T, binary: T, galloping: T) -> T {
        assert_eq!(linear, binary, "kermit's strategies differ");
        assert_eq!(linear, galloping, "kermit's strategies differ");
        linear
    }

    /// All runs of up to four keys below 4 that don't fall, with targets up to 4; larger ones, with targets at some of their keys and beside them.
    pub fn seeks() -> Vec<String> {
        let rng = &mut rng("seeks");
        let ascends = |run: &[u64]| run.windows(2).all(|pair| pair[0] <= pair[1]);
        let mut cases: Vec<(Vec<u64>, Vec<u64>)> = vec![];
        for Seek { run, target } in seeks::exhaustive().filter(|seek| seek.run.len() <= 4 && ascends(&seek.run)) {
            match cases.last_mut() {
                Some((last, targets)) if *last == run => targets.push(target),
                _ => cases.push((run, vec![target])),
            }
        }
        let large = std::iter::repeat_with(|| seeks::random(rng)).filter(|s| ascends(&s.run) && s.run.len() <= 64);
        for Seek { run, target } in large.take(150) {
            let mut targets = vec![target, 0, u64::MAX];
            for key in run.iter().step_by(1 + run.len() / 4) {
                targets.extend([key.wrapping_sub(1), *key, key.wrapping_add(1)]);
            }
            cases.push((run, targets));
        }
        cases.push(((0..1024).map(|k| 3 * k).collect(), (0..40).map(|i| 79 * i).collect()));
        cases.iter().map(|(run, targets)| sought(run, targets)).collect()
    }

    fn sought(run: &[u64], targets: &[u64]) -> String {
        let mut text = format!("run of {}: {}\ntargets {}", run.len(), words(run), targets.len());
        let run = keys(run);
        for &target in targets {
            let (offset, probes) = seeks::theirs::<LinearSeek>(&run, target as usize);
            let (binary, _) = seeks::theirs::<BinarySeek>(&run, target as usize);
            let (galloping, _) = seeks::theirs::<GallopingSeek>(&run, target as usize);
            let offset = agreed(offset, binary, galloping);
            let hit = run.get(offset as usize) == Some(&(target as usize));
            write!(text, "; {target} {offset} {probes} {}", hit as u64).unwrap();
        }
        text + "\n"
    }

    fn table(arity: usize, capacity: usize, rows: &[Row]) -> String {
        let flat = rows.concat();
        format!("arity {arity}, capacity {capacity}, words {}: {}\n", flat.len(), words(&flat))
    }

    /// All sequences of up to three rows over small keys, each with none of them built, some, and all, and the others inserted; larger ones.
    pub fn tables() -> Vec<String> {
        let rng = &mut rng("tables");
        let mut cases = vec![];
        for (arity, keys) in [(1, 3), (2, 2)] {
            for rows in tables::sequences(&all_rows(arity, keys), 3) {
                for built in 0..=rows.len() {
                    let (built, inserted) = (rows[..built].to_vec(), rows[built..].to_vec());
                    cases.push(plain(arity, 4, built, inserted));
                }
            }
        }
        for i in 0..24 {
            let arity = 1 + i % 8;
            let keys = rng.keys();
            let mut rows = |count: usize| -> Vec<Row> { (0..count).map(|_| rng.row(arity, keys)).collect() };
            let (built, inserted) = (rows(1 + i / 3), rows(2));
            cases.push(plain(arity, built.len() + 2, built, inserted));
        }
        for (arity, below, count) in [(1, 2000, 200), (2, 30, 200), (3, 8, 100), (8, 2, 50)] {
            let built: Vec<Row> = (0..count).map(|_| rng.row(arity, Keys::Below(below))).collect();
            let inserted = vec![rng.row(arity, Keys::Below(below))];
            cases.push(plain(arity, count + 1, built, inserted));
        }
        cases
            .iter()
            .map(|case| agreed(grown::<LinearSeek>(case), grown::<BinarySeek>(case), grown::<GallopingSeek>(case)))
            .collect()
    }

    /// The count of tuples, and the listing.
    /// A table of plain columns, which is what kermit has.
    fn plain(arity: usize, capacity: usize, built: Vec<Row>, inserted: Vec<Row>) -> Grown {
        Grown { arity, capacity, margins: (0, 0), kinds: Default::default(), built, inserted }
    }

    fn listing<S: oracle::SeekStrategy>(trie: &oracle::ColumnTrie<S>) -> String {
        let text = trie.to_string();
        format!("tuples {}, listing of {}\n{text}", trie.tuple_count(), text.len())
    }

    fn grown<S: oracle::SeekStrategy>(case: &Grown) -> String {
        let mut trie = kermit::trie::<S>(case.arity, &case.built);
        let mut text = table(case.arity, case.capacity, &case.built) + &listing(&trie);
        writeln!(text, "inserts {}", case.inserted.len()).unwrap();
        for row in &case.inserted {
            let count = trie.tuple_count();
            trie.insert(keys(row));
            let new = (trie.tuple_count() != count) as u64;
            write!(text, "{}: new {new}, {}", words(row), listing(&trie)).unwrap();
        }
        text
    }

    /// Walks over each small relation, and over larger ones.
    pub fn cursors() -> Vec<String> {
        let rng = &mut rng("cursors");
        let mut cases = vec![];
        for (arity, below) in [(1, 3), (2, 2)] {
            for rows in cursors::subsets(&all_rows(arity, below), 4) {
                for count in [8, 16] {
                    let moves = (0..count).map(|_| cursors::random_move(rng, &rows, Keys::Below(4))).collect();
                    cases.push((arity, rows.clone(), moves));
                }
                for count in [24, 32] {
                    cases.push((arity, rows.clone(), steered(rng, arity, &rows, Keys::Below(4), count)));
                }
            }
        }
        for i in 0..64 {
            let arity = 1 + i % 8;
            let keys = rng.keys();
            let rows: Vec<Row> = (0..1 + i / 3).map(|_| rng.row(arity, keys)).collect();
            let moves = steered(rng, arity, &rows, keys, 30);
            cases.push((arity, rows, moves));
        }
        cases.iter().map(|(arity, rows, moves)| walk(*arity, rows, moves)).collect()
    }

    /// Moves that go by where kermit's cursor is, since any moves soon stay at the root or at an end.
    fn steered(rng: &mut Rng, arity: usize, rows: &[Row], keys: Keys, count: usize) -> Vec<Move> {
        let trie = kermit::trie::<LinearSeek>(arity, rows);
        let mut cursor = oracle::ColumnTrieIter::new(&trie);
        let mut next = || {
            let step = match (rng.below(8), cursor.key()) {
                (0, _) => cursors::random_move(rng, rows, keys),
                (1..=3, _) => Move::Open,
                (_, None) => Move::Up,
                (4 | 5, Some(key)) => Move::Seek((key as u64).saturating_add(rng.below(3) as u64)),
                (_, Some(_)) => Move::Next,
            };
            moved(&mut cursor, step);
            step
        };
        (0..count).map(|_| next()).collect()
    }

    fn moved<S: oracle::SeekStrategy>(cursor: &mut oracle::ColumnTrieIter<S>, step: Move) -> bool {
        match step {
            Move::Next => {
                let next = cursor.next();
                assert_eq!(next, cursor.key(), "next shows another key than the cursor then does");
                next.is_some()
            }
            Move::Open => cursor.open(),
            Move::Up => cursor.up(),
            Move::Seek(target) => cursor.seek(target as usize),
        }
    }

    fn walk(arity: usize, rows: &[Row], moves: &[Move]) -> String {
        let (linear, probes) = walked::<LinearSeek>(arity, rows, moves);
        let (binary, _) = walked::<BinarySeek>(arity, rows, moves);
        let (galloping, _) = walked::<GallopingSeek>(arity, rows, moves);
        let mut text = table(arity, rows.len().max(1), rows);
        writeln!(text, "moves {}", moves.len()).unwrap();
        for ((step, answers), probes) in moves.iter().zip(agreed(linear, binary, galloping)).zip(probes) {
            let kind = match step {
                Move::Next => 0,
                Move::Open => 1,
                Move::Up => 2,
                Move::Seek(_) => 3,
            };
            write!(text, "{kind}: {}", words(&answers)).unwrap();
            if let Move::Seek(target) = step {
                write!(text, " ({target} {probes})").unwrap();
            }
            text += "\n";
        }
        text
    }

    /// Of each move its yes or no, whether there is a key then, the key, and whether it is the end; and the probes of each.
    fn walked<S: oracle::SeekStrategy>(arity: usize, rows: &[Row], moves: &[Move]) -> (Vec<[u64; 4]>, Vec<usize>) {
        let trie = kermit::trie::<Counted<S>>(arity, rows);
        let mut cursor = oracle::ColumnTrieIter::new(&trie);
        let mut answer = |step: &Move| {
            taken();
            let yes = moved(&mut cursor, *step);
            let probes = taken().1;
            let key = cursor.key();
            ([yes as u64, key.is_some() as u64, key.unwrap_or(0) as u64, cursor.at_end() as u64], probes)
        };
        moves.iter().map(&mut answer).unzip()
    }

    /// All paths of two atoms over two small relations, all triangles over one; larger triangles, a path of eight variables, and larger ones of any kind.
    pub fn joins() -> Vec<String> {
        let rng = &mut rng("joins");
        let small = cursors::subsets(&all_rows(2, 2), 4);
        let mut cases = vec![];
        for r in &small {
            for s in &small {
                cases.push(Joins {
                    order: vec![0, 1, 2],
                    tables: vec![(2, r.clone()), (2, s.clone())],
                    atoms: vec![(0, vec![0, 1]), (1, vec![1, 2])],
                });
            }
            cases.push(triangle(r.clone()));
        }
        for below in [8, 12, 20] {
            cases.push(triangle((0..60).map(|_| rng.row(2, Keys::Below(below))).collect()));
        }
        cases.push(Joins {
            order: (0..8).collect(),
            tables: vec![(2, vec![vec![0, 1], vec![1, 0], vec![1, 1]])],
            atoms: (0..7).map(|v| (0, vec![v, v + 1])).collect(),
        });
        let mut texts: Vec<String> = cases.iter().map(join).collect();
        // Many have more rows than a test needs: one in eight may be long.
        let large = std::iter::repeat_with(|| join(&joins::random(rng))).enumerate();
        texts.extend(large.filter(|(i, text)| text.len() < if i % 8 == 0 { 4000 } else { 600 }).map(|(_, text)| text).take(160));
        texts
    }

    fn triangle(rows: Vec<Row>) -> Joins {
        Joins { order: vec![2, 0, 1], tables: vec![(2, rows)], atoms: vec![(0, vec![0, 1]), (0, vec![2, 1]), (0, vec![2, 0])] }
    }

    fn join(case: &Joins) -> String {
        let rows = agreed(joined::<LinearSeek>(case), joined::<BinarySeek>(case), joined::<GallopingSeek>(case));
        let numbers = |list: &[usize]| list.iter().map(usize::to_string).collect::<Vec<_>>().join(" ");
        let mut text = format!("tables {}\n", case.tables.len());
        for (arity, rows) in &case.tables {
            text += &table(*arity, rows.len().max(1), rows);
        }
        write!(text, "variables {}: {}\natoms {}", case.order.len(), numbers(&case.order), case.atoms.len()).unwrap();
        for (table, list) in &case.atoms {
            write!(text, "; table {table}, list of {}: {}", list.len(), numbers(list)).unwrap();
        }
        let flat = rows.concat();
        writeln!(text, "\nrows {}, words {}: {}", rows.len(), flat.len(), words(&flat)).unwrap();
        text
    }

    fn joined<S: oracle::SeekStrategy>(case: &Joins) -> Vec<Row> {
        let tries: Vec<_> = case.tables.iter().map(|(arity, rows)| kermit::trie::<Counted<S>>(*arity, rows)).collect();
        kermit::join(&case.order, &case.atoms, &tries).rows
    }

    /// Ascending runs, and calls of a leapfrog over them behind the first one: a seek to a target, or a next.
    struct Hops {
        runs: Vec<Vec<u64>>,
        calls: Vec<Option<u64>>,
    }

    /// All pairs of runs of keys below 3, with one seek each, and with nexts; larger ones of two to four runs.
    pub fn leapfrogs() -> Vec<String> {
        let rng = &mut rng("leapfrogs");
        let small: Vec<Vec<u64>> = cursors::subsets(&all_rows(1, 3), 3).into_iter().map(|set| set.concat()).collect();
        let mut cases = vec![];
        for (a, b) in small.iter().flat_map(|a| small.iter().map(move |b| (a, b))).filter(|(a, b)| !a.is_empty() && !b.is_empty())
        {
            let runs = vec![a.clone(), b.clone()];
            cases.extend((0..4).map(|target| Hops { runs: runs.clone(), calls: vec![Some(target)] }));
            cases.push(Hops { runs, calls: vec![None; 3] });
        }
        cases.extend((0..150).map(|i| hops(rng, 2 + i % 3)));
        // Where the first call finds none, the calls behind it make no difference.
        let mut texts: Vec<String> = cases.iter().map(hopped).collect();
        texts.dedup();
        texts
    }

    /// Runs that share about half their keys, and calls: seeks go to keys of a run, beside them, or anywhere.
    fn hops(rng: &mut Rng, count: usize) -> Hops {
        let keys = rng.pick(&[Keys::Below(12), Keys::Below(12), Keys::Below(40), Keys::Whole]);
        let mut all = rng.row(14, keys);
        all.sort();
        all.dedup();
        let run = |rng: &mut Rng| -> Vec<u64> { all.iter().copied().filter(|_| rng.below(4) != 0).collect() };
        let runs: Vec<Vec<u64>> = (0..count).map(|_| run(rng)).filter(|run| !run.is_empty()).collect();
        let calls = (0..rng.within(1, 6)).map(|_| match rng.below(8) {
            0..=2 => None,
            3 => Some(rng.key(keys)),
            _ => Some(rng.pick(&all).wrapping_add(rng.below(3) as u64).wrapping_sub(1)),
        });
        let calls = calls.collect();
        Hops { runs, calls }
    }

    /// A line for each run; then one for each call, up to the first that finds none: 0 the first, 1 next, 2 seek, and its target; whether there is a key,
    /// the key, the seeks of iterators, and where each iterator then is in its run.
    fn hopped(case: &Hops) -> String {
        let mut text = format!("runs {}\n", case.runs.len());
        case.runs.iter().for_each(|run| writeln!(text, "{}: {}", run.len(), words(run)).unwrap());
        let calls = agreed(hits::<LinearSeek>(case), hits::<BinarySeek>(case), hits::<GallopingSeek>(case));
        text + &format!("calls {}\n{}", calls.len(), calls.concat())
    }

    /// The line of each call.
    fn hits<S: oracle::SeekStrategy>(case: &Hops) -> Vec<String> {
        let tries: Vec<_> = case
            .runs
            .iter()
            .map(|run| kermit::trie::<Counted<S>>(1, &run.iter().map(|&key| vec![key]).collect::<Vec<_>>()))
            .collect();
        let opened = |trie| {
            let mut iterator = oracle::ColumnTrieIter::new(trie);
            assert!(iterator.open());
            iterator
        };
        let mut leapfrog = Leapfrog::new(tries.iter().map(opened).collect());
        let mut texts = vec![];
        let places = |leapfrog: &Leapfrog<oracle::ColumnTrieIter<_>>| -> Vec<u64> {
            let place = |(run, iterator): (&Vec<u64>, &oracle::ColumnTrieIter<_>)| {
                iterator.key().map_or(run.len(), |key| run.binary_search(&(key as u64)).unwrap()) as u64
            };
            case.runs.iter().zip(leapfrog.iterators()).map(place).collect()
        };
        let calls = [(0, 0)].into_iter().chain(case.calls.iter().map(|call| call.map_or((1, 0), |target| (2, target))));
        for (kind, target) in calls {
            taken();
            let found = match kind {
                0 => leapfrog.init(),
                1 => leapfrog.next_key().is_some(),
                _ => leapfrog.seek(target as usize),
            };
            let (seeks, _) = taken();
            let key = if found { leapfrog.key().unwrap() } else { 0 };
            texts.push(format!("{kind} {target}: {} {key}, seeks {seeks}, at {}\n", found as u64, words(&places(&leapfrog))));
            if !found {
                break;
            }
        }
        texts
    }
}
