//! Table files: writes of tables, and reads of files, of files with bytes, fields or rows changed, and of any bytes, against document 02's rules. kermit has
//! no files.
use crate::case::{lower, shorter, show_rows, smaller_rows, Case, Tally};
use crate::model::Row;
use crate::model_files::{self, field_rows, words, File};
use crate::rng::Rng;
use crate::tables::{all_rows, distinct, marked, MOST};
use ducatbriar::calls::*;
use std::fmt;

/// The table's file is these bytes: written into a destination a little longer, exactly as long, one byte short, and into none.
fn same_file(tally: &mut Tally, pool: &[u64], t: ColumnTrie, bytes: &[u8]) -> Result<(), String> {
    for room in [bytes.len() + 3, bytes.len(), bytes.len() - 1, 0] {
        let mut destination = vec![b'~'; room];
        let mut expected = destination.clone();
        let len = if room < bytes.len() { 0 } else { bytes.len() };
        expected[..len].copy_from_slice(&bytes[..len]);
        let number = if room < bytes.len() { 14 } else { 0 };
        let answer = write(pool, t, &mut destination);
        tally.same(answer, FileWritten { number, len: len as u64 }, || format!("answer of the write into {room} bytes"))?;
        tally.same(destination, expected, || format!("{room} bytes after the write"))?;
    }
    Ok(())
}

// ---- tables, written and read

#[derive(Clone)]
pub struct Written {
    file: File,
    capacity: usize,
    /// Words of the pool before the table, and behind it.
    margins: (usize, usize),
}

impl fmt::Display for Written {
    fn fmt(&self, f: &mut fmt::Formatter) -> fmt::Result {
        writeln!(f, "capacity {}, words before and behind {:?}", self.capacity, self.margins)?;
        write!(f, "grades {:?}, rows {}", self.file.kinds, show_rows(&self.file.rows))
    }
}

impl Written {
    fn pool(&self) -> Vec<u64> {
        marked(self.margins.0 + 2 * self.file.kinds.len() * self.capacity + self.margins.1)
    }

    /// The rows built, in whatever order they stand.
    fn built(&self, pool: &mut [u64]) -> Built {
        let mut kinds = Kinds::default();
        kinds.grade[..self.file.kinds.len()].copy_from_slice(&self.file.kinds);
        let (start, arity) = (self.margins.0 as u64, self.file.kinds.len() as u64);
        build(&mut self.file.rows.concat(), pool, start, arity, self.capacity as u64, kinds)
    }
}

impl Case for Written {
    fn run(&self, tally: &mut Tally) -> Result<(), String> {
        let (mut built_pool, mut pool) = (self.pool(), self.pool());
        let built = self.built(&mut built_pool);
        tally.same(built.number, 0, || "the rows fit the table".into())?;

        let mut sorted = self.file.clone();
        sorted.rows.sort();
        sorted.rows.dedup();
        let bytes = sorted.to_bytes();
        tally.same(File::of(&bytes), Some(sorted), || "the model's reader on its writer".into())?;
        same_file(tally, &built_pool, built.table, &bytes)?;

        // At the same capacity and start: header, used words and the words past them, which no call has touched.
        let answer = read(&bytes, &mut pool, self.margins.0 as u64, self.capacity as u64);
        tally.same(answer, built, || "answer of the read and of the build".into())?;
        tally.same(pool, built_pool, || "pool after the read and after the build".into())
    }

    fn smaller(&self) -> Vec<Self> {
        let file = |rows| File { rows, ..self.file.clone() };
        let mut all: Vec<_> =
            smaller_rows(&self.file.rows).into_iter().map(|rows| Written { file: file(rows), ..self.clone() }).collect();
        if self.capacity > self.file.rows.len().max(1) {
            all.push(Written { capacity: self.file.rows.len().max(1), ..self.clone() });
        }
        if self.margins != (0, 0) {
            all.push(Written { margins: (0, 0), ..self.clone() });
        }
        all
    }
}

/// Every set of up to three rows of arity 1 and 2 over the keys 0 to 2, with all kinds.
pub fn every_table() -> impl Iterator<Item = Written> {
    [1, 2].into_iter().flat_map(|arity| {
        crate::cursors::subsets(&all_rows(arity, 3), 3).into_iter().flat_map(move |rows| {
            (0..1 << arity).map(move |kinds| {
                let kinds = (0..arity).map(|column| kinds >> column & 1 == 1).collect();
                Written { file: File { kinds, rows: rows.clone() }, capacity: 3, margins: (1, 1) }
            })
        })
    })
}

/// As many rows as fill a field or two, and one less or more, in tables that are full or not.
pub fn full_fields(rng: &mut Rng) -> Vec<Written> {
    let mut all = vec![];
    for (arity, fields) in [(8, 1), (8, 2), (5, 1), (1, 1), (1, 2)] {
        let full = fields * field_rows(arity);
        for count in [full - 1, full, full + 1] {
            let file = file_of(rng, arity, count);
            all.push(Written { file, capacity: count + rng.below(2), margins: (rng.below(3), rng.below(3)) });
        }
    }
    all
}

/// So many rows of any keys, none twice, in no order.
fn file_of(rng: &mut Rng, arity: usize, count: usize) -> File {
    let kinds = rng.kinds().grade[..arity].to_vec();
    File { kinds, rows: distinct(rng, arity, count) }
}

pub fn random_table(rng: &mut Rng) -> Written {
    let (arity, keys) = (rng.within(1, 8), rng.keys());
    let count = rng.pick(&[0, 1, 2, 3, 10, 40]);
    let rows: Vec<Row> = (0..count).map(|_| rng.row(arity, keys)).collect();
    let file = File { kinds: rng.kinds().grade[..arity].to_vec(), rows };
    Written { file, capacity: count.max(1) + rng.below(3), margins: (rng.below(4), rng.below(4)) }
}

/// As many rows as a table can have.
pub fn large_tables(rng: &mut Rng) -> Vec<Written> {
    [1, 3, 8].map(|arity| Written { file: file_of(rng, arity, MOST), capacity: MOST, margins: (2, 2) }).into()
}

// ---- any bytes, read

#[derive(Clone)]
pub struct Bytes {
    bytes: Vec<u8>,
    /// Words of the pool.
    pool: usize,
    start: u64,
    capacity: u64,
}

impl fmt::Display for Bytes {
    fn fmt(&self, f: &mut fmt::Formatter) -> fmt::Result {
        writeln!(f, "pool of {} words, start {}, capacity {}", self.pool, self.start, self.capacity)?;
        write!(f, "{} bytes:", self.bytes.len())?;
        self.bytes.iter().take(400).try_for_each(|byte| write!(f, " {byte:02x}"))
    }
}

impl Case for Bytes {
    fn run(&self, tally: &mut Tally) -> Result<(), String> {
        let (mut pool, mut expected) = (marked(self.pool), marked(self.pool));
        let answer = read(&self.bytes, &mut pool, self.start, self.capacity);
        let by_model = model_files::read(&self.bytes, &mut expected, self.start, self.capacity);
        tally.same(answer, by_model, || "answer of the read".into())?;
        tally.same(&pool, &expected, || "pool after the read".into())?;
        if answer.number != 0 {
            return Ok(());
        }
        tally.same(undamaged(&pool, answer.table), true, || "undamaged after the read".into())?;
        same_file(tally, &pool, answer.table, &self.bytes)
    }

    fn smaller(&self) -> Vec<Self> {
        let numbers = lower(&[self.pool as u64, self.start, self.capacity]);
        let mut all: Vec<_> = shorter(&self.bytes).into_iter().map(|bytes| Bytes { bytes, ..self.clone() }).collect();
        all.extend(numbers.into_iter().map(|n| Bytes { pool: n[0] as usize, start: n[1], capacity: n[2], ..self.clone() }));
        all
    }
}

/// Read with room for so many rows of any arity.
fn roomy(bytes: Vec<u8>, capacity: usize) -> Bytes {
    Bytes { bytes, pool: 16 * capacity + 3, start: 2, capacity: capacity as u64 }
}

fn small_files() -> Vec<File> {
    let files: [(&[bool], &[&[u64]]); 9] = [
        (&[false], &[]),
        (&[true], &[]),
        (&[false, true, false], &[]),
        (&[false], &[&[258]]),
        (&[true], &[&[0], &[1], &[u64::MAX]]),
        (&[false, false], &[&[1, 2], &[1, 3], &[2, 0]]),
        (&[false, true], &[&[0, 256], &[256, 0]]),
        (&[true, true, true], &[&[0, 0, 1], &[0, 1, 0]]),
        (&[false; 8], &[&[0, 0, 0, 0, 0, 0, 0, 7]]),
    ];
    files.map(|(kinds, rows)| File { kinds: kinds.to_vec(), rows: rows.iter().map(|row| row.to_vec()).collect() }).into()
}

/// The bytes with those from `at` on, `out` of them, replaced.
fn spliced(bytes: &[u8], at: usize, out: usize, with: &[u8]) -> Vec<u8> {
    [&bytes[..at], with, &bytes[at + out..]].concat()
}

/// Small files as they are, cut at every byte, with every byte changed to every other, left out, or with one more before it or behind the end.
pub fn every_byte() -> impl Iterator<Item = Bytes> {
    small_files().into_iter().flat_map(|file| {
        let bytes = file.to_bytes();
        (0..=bytes.len()).flat_map(move |at| {
            let mut all = vec![bytes[..at].to_vec()];
            all.extend((0..=4).chain([254, 255]).map(|more| spliced(&bytes, at, 0, &[more])));
            if at < bytes.len() {
                all.push(spliced(&bytes, at, 1, &[]));
                all.extend((0..=255).filter(|&other| other != bytes[at]).map(|other| spliced(&bytes, at, 1, &[other])));
            }
            all.into_iter().map(|bytes| roomy(bytes, 6))
        })
    })
}

/// A file's fields, by tag and value.
type Fields = Vec<(u8, Vec<u8>)>;

fn fields_of(file: &File) -> Fields {
    let arity = file.kinds.len();
    let mut all = vec![(1, vec![arity as u8])];
    if file.kinds.contains(&true) {
        all.push((4, file.kinds.iter().map(|&kind| u8::from(kind)).collect()));
    }
    all.extend(file.rows.chunks(field_rows(arity)).map(|rows| (2, words(rows))));
    all.push((3, vec![]));
    all
}

/// As bytes. Of a length over 65,535 the low 16 bits are written.
fn joined(fields: &Fields) -> Vec<u8> {
    let one = |(tag, value): &(u8, Vec<u8>)| [&[*tag], &(value.len() as u16).to_be_bytes()[..], value].concat();
    fields.iter().flat_map(one).collect()
}

/// Fields that stand in no file, or not everywhere in one.
fn strays(arity: usize) -> Fields {
    let mut all = vec![(1, vec![]), (1, vec![arity as u8]), (1, vec![arity as u8; 2]), (1, vec![0, arity as u8])];
    all.extend([0, 1, 2, 255].map(|byte| (4, vec![byte; arity])));
    all.extend([0, arity - 1, arity + 1, 8, 9].map(|len| (4, vec![1; len])));
    all.push((4, [&vec![0; arity - 1][..], &[1]].concat()));
    all.push((4, [&[1], &vec![2; arity - 1][..]].concat()));
    all.extend([(2, vec![]), (2, vec![0; 8 * arity]), (2, vec![255; 8 * arity]), (2, vec![255; 8 * arity - 1])]);
    all.extend([(3, vec![]), (3, vec![0]), (3, vec![3, 0, 0]), (0, vec![]), (5, vec![]), (6, vec![7]), (255, vec![])]);
    all
}

/// The fields with one left out, doubled, exchanged with another, under another tag, or with a stray one before it.
fn fields_moved(arity: usize, fields: &Fields) -> Vec<Fields> {
    let with = |at: usize, out: usize, new: &[(u8, Vec<u8>)]| [&fields[..at], new, &fields[at + out..]].concat();
    let mut all = vec![];
    for at in 0..=fields.len() {
        all.extend(strays(arity).into_iter().map(|stray| with(at, 0, &[stray])));
    }
    for (at, (tag, value)) in fields.iter().enumerate() {
        all.push(with(at, 1, &[]));
        all.push(with(at, 0, &[(*tag, value.clone())]));
        all.extend([0, 1, 2, 3, 4, 5, 255].map(|tag| with(at, 1, &[(tag, value.clone())])));
        all.extend(strays(arity).into_iter().map(|stray| with(at, 1, &[stray])));
        for other in 0..at {
            let mut fields = fields.clone();
            fields.swap(at, other);
            all.push(fields);
        }
    }
    all
}

/// The rows put into fields otherwise: a field in two; a field with a row of the one behind it, or with one that the one behind it gets; two fields in one.
fn rows_moved(arity: usize, fields: &Fields) -> Vec<Fields> {
    let size = 8 * arity;
    let with = |at: usize, out: usize, values: &[&[u8]]| {
        let new: Vec<_> = values.iter().map(|value| (2, value.to_vec())).collect();
        [&fields[..at], &new[..], &fields[at + out..]].concat()
    };
    let mut all = vec![];
    for (at, (_, value)) in fields.iter().enumerate().filter(|(_, field)| field.0 == 2) {
        let rows = value.len() / size;
        let cuts = [1, rows / 2, rows.saturating_sub(1)].map(|cut| cut * size);
        all.extend(cuts.map(|cut| with(at, 1, &[&value[..cut], &value[cut..]])));
        all.extend([1, 8, size].map(|less| with(at, 1, &[&value[less..]])));
        all.extend([1, 8, size].map(|less| with(at, 1, &[&value[..value.len() - less]])));
        if let Some((2, behind)) = fields.get(at + 1) {
            let both = [&value[..], behind].concat();
            let cuts = [value.len() - size, value.len() - 8, value.len() + 8, value.len() + size];
            all.extend(cuts.map(|cut| with(at, 2, &[&both[..cut], &both[cut..]])));
            all.push(with(at, 2, &[&both]));
        }
    }
    all
}

/// The rows out of sequence, in full fields: each time a row is exchanged with the one behind it, or is there twice in its place, inside a field and
/// between two.
fn out_of_sequence(file: &File) -> Vec<Fields> {
    let (count, full) = (file.rows.len(), field_rows(file.kinds.len()));
    let places = [0, 1, full - 2, full - 1, full, full + 1, count.saturating_sub(2)];
    let mut all = vec![];
    for at in places.into_iter().filter(|&at| at + 1 < count) {
        let mut exchanged = file.clone();
        exchanged.rows.swap(at, at + 1);
        let mut twice = file.clone();
        twice.rows[at + 1] = twice.rows[at].clone();
        all.extend([fields_of(&exchanged), fields_of(&twice)]);
    }
    all
}

fn changed_fields(file: &File) -> Vec<Fields> {
    let (arity, fields) = (file.kinds.len(), fields_of(file));
    [fields_moved(arity, &fields), rows_moved(arity, &fields), out_of_sequence(file)].concat()
}

/// Small files with fields and rows moved.
pub fn every_field() -> impl Iterator<Item = Bytes> {
    let changed = |file: File| changed_fields(&file).into_iter().map(|fields| roomy(joined(&fields), 8));
    small_files().into_iter().flat_map(changed)
}

/// Files of some fields of rows, as they are and with fields and rows moved.
pub fn some_fields(rng: &mut Rng) -> Vec<Bytes> {
    let mut all = vec![];
    for (arity, more) in [(8, 1), (8, 0), (7, 2), (1, 1)] {
        let mut file = file_of(rng, arity, 2 * field_rows(arity) + more);
        file.rows.sort();
        let capacity = file.rows.len() + 1;
        all.push(roomy(file.to_bytes(), capacity));
        all.extend(rows_moved(arity, &fields_of(&file)).iter().map(|fields| roomy(joined(fields), capacity)));
        all.extend(out_of_sequence(&file).iter().map(|fields| roomy(joined(fields), capacity)));
        let some = |rng: &mut Rng| joined(&rng.pick(&fields_moved(arity, &fields_of(&file))));
        all.extend((0..20).map(|_| roomy(some(rng), capacity)));
    }
    all
}

/// One byte of a file of many rows, somewhere or near its ends, changed.
fn spoiled(rng: &mut Rng, bytes: &[u8]) -> Vec<u8> {
    let mut bytes = bytes.to_vec();
    let (any, near) = (rng.below(bytes.len()), rng.below(12));
    let at = rng.pick(&[any, near, bytes.len() - 1 - near]);
    bytes[at] ^= 1 << rng.below(8);
    bytes
}

/// As many rows as a table can have, and one more, which no table can.
pub fn large_files(rng: &mut Rng) -> Vec<Bytes> {
    let mut all = vec![];
    for arity in [1, 3, 8] {
        let mut file = file_of(rng, arity, MOST + 1);
        file.rows.sort();
        let over = file.to_bytes();
        file.rows.pop();
        let bytes = file.to_bytes();
        let reading = |bytes: &[u8], capacity: usize| Bytes {
            bytes: bytes.to_vec(),
            pool: 2 * arity * MOST + 3,
            start: 3,
            capacity: capacity as u64,
        };
        all.extend([reading(&bytes, MOST), reading(&bytes, MOST - 1), reading(&over, MOST), reading(&over, MOST + 1)]);
        all.push(reading(&bytes[..bytes.len() - 1], MOST));
        all.extend((0..4).map(|_| reading(&spoiled(rng, &bytes), MOST)));
    }
    all
}

/// A file of a few rows.
fn small_file(rng: &mut Rng) -> File {
    let (arity, keys) = (rng.within(1, 8), rng.keys());
    let count = rng.pick(&[0, 1, 2, 3, 8]);
    let mut rows: Vec<Row> = (0..count).map(|_| rng.row(arity, keys)).collect();
    rows.sort();
    rows.dedup();
    File { kinds: rng.kinds().grade[..arity].to_vec(), rows }
}

/// A byte that says something at its place, or any.
fn byte(rng: &mut Rng) -> u8 {
    match rng.below(4) {
        0 => rng.word() as u8,
        1 => rng.pick(&[8, 16, 24, 32, 64, 255, 254]),
        _ => rng.below(6) as u8,
    }
}

/// Bytes that are no file by chance alone: fields of any tags, with a head for the most part.
fn any_bytes(rng: &mut Rng) -> Vec<u8> {
    if rng.below(4) == 0 {
        return (0..rng.below(40)).map(|_| byte(rng)).collect();
    }
    let arity = rng.within(1, 8);
    let mut fields = vec![(1, vec![arity as u8])];
    for _ in 0..rng.below(4) {
        let len = rng.pick(&[0, 1, arity, 8 * arity, 16 * arity]);
        fields.push((rng.pick(&[2, 2, 2, 4, 3, 1]), (0..len).map(|_| byte(rng)).collect()));
    }
    if rng.below(4) != 0 {
        fields.push((3, vec![]));
    }
    joined(&fields)
}

/// The bytes with one or two of them changed, put in, left out, or everything behind cut.
fn changed_bytes(rng: &mut Rng, mut bytes: Vec<u8>) -> Vec<u8> {
    for _ in 0..rng.within(1, 2) {
        let at = rng.below(bytes.len().max(1));
        let other = byte(rng);
        let out = bytes.len().min(1);
        bytes = match rng.below(6) {
            0 => bytes[..at.min(bytes.len())].to_vec(),
            1 => spliced(&bytes, at, 0, &[other]),
            2 => spliced(&bytes, at, out, &[]),
            _ => spliced(&bytes, at, out, &[other]),
        };
    }
    bytes
}

/// A file as it is, with bytes changed, with fields moved; or any bytes. Where they are read there is room, or some number is odd.
pub fn random(rng: &mut Rng) -> Bytes {
    let file = small_file(rng);
    let bytes = match rng.below(6) {
        0 => any_bytes(rng),
        1 => joined(&rng.pick(&changed_fields(&file))),
        2 | 3 => changed_bytes(rng, file.to_bytes()),
        _ => file.to_bytes(),
    };
    let capacity = match rng.below(4) {
        0 => rng.within(0, file.rows.len()),
        _ => file.rows.len().max(1) + rng.below(3),
    };
    let arity = file.kinds.len();
    let (start, behind) = (rng.below(4), rng.below(3));
    let mut reading =
        Bytes { bytes, pool: start + 2 * arity * capacity + behind, start: start as u64, capacity: capacity as u64 };
    if rng.below(4) == 0 {
        reading.pool = reading.pool.saturating_sub(rng.below(4));
    }
    let odd = [0, 1, MOST as u64, MOST as u64 + 1, 1 << 32, (1 << 63) - 1, 1 << 63, u64::MAX - 1, u64::MAX];
    match rng.below(12) {
        0 => reading.start = rng.pick(&odd),
        1 => reading.capacity = rng.pick(&odd),
        2 => (reading.start, reading.capacity) = (rng.pick(&odd), rng.pick(&odd)),
        _ => (),
    }
    reading
}

#[cfg(test)]
mod tests {
    use super::*;
    use crate::model::MAX_CAPACITY;
    use crate::model_files::field;

    /// The model's reader on its writer, and its writer on what its reader accepts.
    fn by_itself(bytes: &[u8]) -> bool {
        let file = File::of(bytes);
        file.iter().for_each(|file| assert_eq!(file.to_bytes(), bytes, "accepted bytes are written again"));
        file.is_some()
    }

    #[test]
    fn the_model_reads_what_it_writes() {
        for file in small_files() {
            assert_eq!(File::of(&file.to_bytes()), Some(file));
        }
        for arity in 1..=8 {
            for count in [0, 1, field_rows(arity), field_rows(arity) + 1, 2 * field_rows(arity)] {
                let rows = (0..count as u64).map(|i| vec![i; arity]).collect();
                let file = File { kinds: vec![false; arity], rows };
                assert_eq!(File::of(&file.to_bytes()), Some(file));
            }
        }
    }

    #[test]
    fn what_the_model_accepts_it_writes_again() {
        let accepted = every_byte().chain(every_field()).filter(|case| by_itself(&case.bytes)).count();
        assert!(accepted > 1000);
        let rng = &mut Rng::new(1, "files");
        assert!((0..20_000).filter(|_| by_itself(&random(rng).bytes)).count() > 5000);
        // Of the files of some fields only those as they are, and some with their last rows gone.
        let some = some_fields(rng);
        let accepted = some.iter().filter(|case| by_itself(&case.bytes)).count();
        assert!((4..some.len() / 4).contains(&accepted));
    }

    /// Document 02's sentences, one by one, on bytes that are written out.
    #[test]
    fn the_model_s_refusals() {
        let file = |fields: &[&[u8]]| File::of(&fields.concat()).is_some();
        let (one, end): (&[u8], &[u8]) = (&[1, 0, 1, 1], &[3, 0, 0]);
        let row = |word: u8| [2, 0, 8, 0, 0, 0, 0, 0, 0, 0, word];
        assert!(file(&[one, end]));
        assert!(file(&[one, &row(7), end]));
        assert!(file(&[one, &[4, 0, 1, 1], &row(7), end]));
        assert!(!file(&[]) && !file(&[one]) && !file(&[end]));
        assert!(!file(&[&[1, 0, 1, 0], end]) && !file(&[&[1, 0, 1, 9], end]), "arity 1 to 8");
        assert!(!file(&[&[1, 1, 0, 1], end]), "high byte first");
        assert!(!file(&[&row(7), one, end]), "tag 1 is always first");
        assert!(!file(&[one, &[2, 0, 0], end]), "none is empty");
        assert!(!file(&[one, &row(1), &row(2), end]), "each but the last is full");
        assert!(!file(&[one, &row(7), end, &[0]]) && !file(&[one, end, end]), "bytes after tag 3");
        assert!(!file(&[one, &[3, 0, 1, 0]]), "tag 3, length 0");
        assert!(!file(&[one, &[4, 0, 1, 0], end]), "all plain");
        assert!(!file(&[one, &[4, 0, 1, 2], end]), "another byte");
        assert!(!file(&[one, &[4, 0, 2, 1, 1], end]), "another length");
        assert!(!file(&[one, &row(7), &[4, 0, 1, 1], end]), "another place");
        let rows = |words: [u8; 2]| [&[2, 0, 16][..], &row(words[0])[3..], &row(words[1])[3..]].concat();
        assert!(file(&[one, &rows([1, 2]), end]));
        assert!(!file(&[one, &rows([2, 1]), end]) && !file(&[one, &rows([1, 1]), end]), "rows ascend strictly");
        assert_eq!(field(2, &[0; 0x1234])[..3], [2, 0x12, 0x34]);
    }

    #[test]
    fn the_model_s_number() {
        let bytes = File { kinds: vec![false, true], rows: vec![vec![1, 2], vec![3, 4]] }.to_bytes();
        let number =
            |bytes: &[u8], pool: usize, start, capacity| model_files::read(bytes, &mut marked(pool), start, capacity).number;
        assert_eq!([number(&bytes[1..], 0, 9, 0), number(&bytes, 0, 9, 0), number(&bytes, 0, 9, MAX_CAPACITY + 1)], [13, 2, 2]);
        assert_eq!([number(&bytes, 11, 0, 3), number(&bytes, 12, 1, 3), number(&bytes, 4, 0, 1)], [3, 3, 5]);
        assert_eq!([number(&bytes, 8, 0, 2), number(&bytes, 8, u64::MAX, 2)], [0, 3]);
    }
}
