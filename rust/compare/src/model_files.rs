//! Document 02's table files, written from its text and from nothing else: a writer, and a reader that is no writer turned round. The writer puts one field
//! behind another; the reader takes any bytes apart into fields first, and asks each rule of the fields then.
use crate::model::{lies_in, limits, rows_of, store, undamaged, unfilled, Row};
use ducatbriar::calls::*;

/// What a file says. There are as many kinds as columns; yes for a grade.
#[derive(Clone, Debug, PartialEq, Eq)]
pub struct File {
    pub kinds: Vec<bool>,
    pub rows: Vec<Row>,
}

/// How many whole rows fit in a field.
pub fn field_rows(arity: usize) -> usize {
    65_535 / (8 * arity)
}

// ---- the writer

/// A tag, a length of two bytes, high byte first, and the value.
pub fn field(tag: u8, value: &[u8]) -> Vec<u8> {
    let len = u16::try_from(value.len()).expect("a field of at most 65,535 bytes");
    [&[tag], &len.to_be_bytes()[..], value].concat()
}

/// Words, high byte first.
pub fn words(rows: &[Row]) -> Vec<u8> {
    rows.iter().flatten().flat_map(|word| word.to_be_bytes()).collect()
}

impl File {
    pub fn to_bytes(&self) -> Vec<u8> {
        let arity = self.kinds.len();
        let mut bytes = field(1, &[arity as u8]);
        if self.kinds.contains(&true) {
            bytes.extend(field(4, &self.kinds.iter().map(|&kind| u8::from(kind)).collect::<Vec<_>>()));
        }
        for rows in self.rows.chunks(field_rows(arity)) {
            bytes.extend(field(2, &words(rows)));
        }
        bytes.extend(field(3, &[]));
        bytes
    }
}

pub fn write(pool: &[u64], t: ColumnTrie, destination: &mut [u8]) -> FileWritten {
    if !undamaged(pool, t) {
        return FileWritten { number: 6, len: 0 };
    }
    let bytes = File { kinds: t.grade[..t.arity as usize].to_vec(), rows: rows_of(pool, t) }.to_bytes();
    if bytes.len() > destination.len() {
        return FileWritten { number: 14, len: 0 };
    }
    destination[..bytes.len()].copy_from_slice(&bytes);
    FileWritten { number: 0, len: bytes.len() as u64 }
}

// ---- the reader

/// The fields that the bytes are, by tag and value; none where a length or a value is cut off.
fn fields(mut bytes: &[u8]) -> Option<Vec<(u8, &[u8])>> {
    let mut all = vec![];
    while let Some((&tag, behind)) = bytes.split_first() {
        let (high, low) = (*behind.first()?, *behind.get(1)?);
        let end = 2 + 256 * usize::from(high) + usize::from(low);
        all.push((tag, behind.get(2..end)?));
        bytes = &behind[end..];
    }
    Some(all)
}

/// A byte a column, each 0 or 1, not all of them 0.
fn kinds(arity: usize, value: &[u8]) -> Option<Vec<bool>> {
    let good = value.len() == arity && value.iter().all(|&byte| byte < 2) && value.contains(&1);
    good.then(|| value.iter().map(|&byte| byte == 1).collect())
}

/// The rows of the fields of rows, if each is whole rows, not empty, and full or the last.
fn rows(arity: usize, values: &[&[u8]]) -> Option<Vec<Row>> {
    let size = 8 * arity;
    let whole = values.iter().all(|value| !value.is_empty() && value.len() % size == 0);
    let full = values.split_last().is_none_or(|(_, before)| before.iter().all(|value| value.len() / size == field_rows(arity)));
    let word = |bytes: &[u8]| bytes.iter().fold(0, |word: u64, &byte| 256 * word + u64::from(byte));
    let row = |bytes: &[u8]| bytes.chunks(8).map(word).collect();
    (whole && full).then(|| values.iter().flat_map(|value| value.chunks(size).map(row)).collect())
}

impl File {
    /// What the bytes say, if they are a file.
    pub fn of(bytes: &[u8]) -> Option<File> {
        let fields = fields(bytes)?;
        let (&(1, &[arity]), behind) = fields.split_first()? else { return None };
        let (&(3, &[]), between) = behind.split_last()? else { return None };
        let arity = usize::from(arity);
        if !(1..=8).contains(&arity) {
            return None;
        }
        let (kinds, of_rows) = match between {
            [(4, value), of_rows @ ..] => (kinds(arity, value)?, of_rows),
            _ => (vec![false; arity], between),
        };
        let values: Vec<&[u8]> = of_rows.iter().map(|&(tag, value)| (tag == 2).then_some(value)).collect::<Option<_>>()?;
        let rows = rows(arity, &values)?;
        rows.windows(2).all(|pair| pair[0] < pair[1]).then_some(File { kinds, rows })
    }
}

fn read_number(file: &File, pool: &[u64], start: u64, capacity: u64) -> u64 {
    if !limits(1, capacity) {
        2
    } else if !lies_in(pool.len(), start, file.kinds.len() as u64, capacity) {
        3
    } else if file.rows.len() as u64 > capacity {
        5
    } else {
        0
    }
}

pub fn read(bytes: &[u8], pool: &mut [u64], start: u64, capacity: u64) -> Built {
    let refused = |number| Built { number, table: ColumnTrie::default() };
    let Some(file) = File::of(bytes) else {
        return refused(13);
    };
    let number = read_number(&file, pool, start, capacity);
    if number != 0 {
        return refused(number);
    }
    let mut kinds = Kinds::default();
    kinds.grade[..file.kinds.len()].copy_from_slice(&file.kinds);
    Built { number, table: store(pool, unfilled(start, file.kinds.len() as u64, capacity, kinds), &file.rows) }
}
