//! Table files through the owned types: one that was made by hand, what is refused, and how long a file is.
use ducatbriar::limits::{field_rows, file, words, MAX_ARITY, MAX_CAPACITY};
use ducatbriar::{calls, Cell, Kind, Pool, Refusal};

/// Three stretches of road by grade, typed in by hand from document 02's text. -60 is 2^63 - 60 as a word, and the last stretch needs more than 32 bits.
const BY_HAND: &str = "
    01 0001 02
    04 0002 01 00
    02 0030
       7fffffffffffffc4 000000000000000a
       8000000000000000 000000000000000b
       800000000000002d 0000000700000005
    03 0000
";

/// The bytes that pairs of hexadecimal digits say.
fn bytes_of(hex: &str) -> Vec<u8> {
    let digits: Vec<u8> = hex.chars().filter(|c| !c.is_whitespace()).map(|c| c.to_digit(16).unwrap() as u8).collect();
    digits.chunks(2).map(|pair| 16 * pair[0] + pair[1]).collect()
}

fn by_hand() -> Vec<u8> {
    bytes_of(BY_HAND)
}

fn slope() -> Vec<[Cell; 2]> {
    let stretch = |grade, stretch| [Cell::Grade(grade), Cell::Plain(stretch)];
    vec![stretch(-60, 10), stretch(0, 11), stretch(45, 30_064_771_077)]
}

#[test]
fn made_by_hand() {
    let mut pool = Pool::new();
    let table = pool.read(&by_hand(), 3).unwrap();
    assert_eq!(table.kinds(), [Kind::Grade, Kind::Plain]);
    assert_eq!(pool.rows(&table).unwrap().cells().collect::<Vec<_>>(), slope());
    assert_eq!(table.to_bytes(&pool).unwrap(), by_hand());
    // A build of the rows gives the same header and words.
    let mut other = Pool::new();
    let built = other.build_with_kinds(&[Kind::Grade, Kind::Plain], 3, &slope()).unwrap();
    assert_eq!((built, other.words()), (table, pool.words()));
}

const TEXT: &str = include_str!("../../../docs/FILES.md");

/// The bytes of lines that each say from which byte on they are.
fn in_lines(lines: impl Iterator<Item = (usize, Vec<u8>)>) -> Vec<u8> {
    lines.fold(vec![], |all, (at, bytes)| {
        assert_eq!(at, all.len(), "the place of {bytes:?}");
        [all, bytes].concat()
    })
}

/// docs/FILES.md has the same file as a dump, and in a table that explains it byte by byte.
#[test]
fn the_one_that_is_explained() {
    let dumped = TEXT.lines().filter_map(|line| {
        let (at, hex) = line.split_once("  ")?;
        (at.len() == 8).then(|| (usize::from_str_radix(at, 16).unwrap(), bytes_of(hex)))
    });
    assert_eq!(in_lines(dumped), by_hand());
    let explained = TEXT.lines().filter_map(|line| {
        let (at, behind) = line.strip_prefix("| ")?.split_once(" | `")?;
        Some((at.parse().unwrap(), bytes_of(behind.split('`').next()?)))
    });
    assert_eq!(in_lines(explained), by_hand());
}

/// Not a file: the pool stays as it was.
fn refused(bytes: &[u8]) {
    let mut pool = Pool::new();
    pool.build(1, 1, &[[7]]).unwrap();
    let words = pool.words().to_vec();
    assert_eq!(pool.read(bytes, 3), Err(Refusal::NotAFile), "{bytes:?}");
    assert_eq!(pool.words(), words);
}

#[test]
fn cut_at_every_byte() {
    let bytes = by_hand();
    (0..bytes.len()).for_each(|end| refused(&bytes[..end]));
    refused(&[&bytes[..], &[0]].concat());
}

/// Each byte, each value: not a file, or that of another table.
#[test]
fn every_byte_changed() {
    let bytes = by_hand();
    let mut others = 0;
    for (at, other) in (0..bytes.len()).flat_map(|at| (0..=255).map(move |other| (at, other))) {
        let mut changed = bytes.clone();
        changed[at] = other;
        let mut pool = Pool::new();
        match pool.read(&changed, 3) {
            Ok(table) => assert_eq!(table.to_bytes(&pool).unwrap(), changed),
            Err(refusal) => assert_eq!(refusal, Refusal::NotAFile),
        }
        others += usize::from(pool.words() != [0u64; 0]);
    }
    assert!(others > 1000, "{others}");
}

#[test]
fn not_a_file() {
    // The places of arity, kinds, the field of rows, its length, and the end.
    let with = |at: usize, out: usize, hex: &str| {
        let bytes = by_hand();
        [&bytes[..at], &bytes_of(hex), &bytes[at + out..]].concat()
    };
    refused(&with(3, 1, "00"));
    refused(&with(3, 1, "09"));
    refused(&with(1, 2, "0100"));
    refused(&with(4, 5, "04 0002 00 00"));
    refused(&with(4, 5, "04 0002 01 02"));
    refused(&with(4, 5, "04 0001 01"));
    refused(&with(4, 0, "04 0002 01 00"));
    refused(&with(0, 9, "04 0002 01 00 01 0001 02"));
    refused(&with(9, 0, "02 0000"));
    refused(&with(9, 51, "02 0000"));
    refused(&with(10, 2, "3000"));
    refused(&with(28, 0, "02 0020"));
    refused(&with(12, 16, "8000000000000000 000000000000000b"));
    refused(&with(12, 16, "8000000000000000 000000000000000c"));
    refused(&with(60, 0, "03 0000"));
    refused(&with(60, 3, "05 0000 03 0000"));
    refused(&with(60, 3, "03 0001 00"));
}

/// In the sequence 13, 2, 3, 5, each before those behind it.
#[test]
fn numbers_of_a_read() {
    let bytes = by_hand();
    let number = |bytes: &[u8], pool: usize, start: u64, capacity: u64| {
        let mut pool = vec![9; pool];
        let read = calls::read(bytes, &mut pool, start, capacity);
        assert!(read.number == 0 || (read.table == calls::ColumnTrie::default() && pool.iter().all(|&word| word == 9)));
        read.number
    };
    assert_eq!(number(&bytes[1..], 0, 1, 0), 13);
    assert_eq!(number(&[], 0, 1, 0), 13);
    assert_eq!([0, MAX_CAPACITY as u64 + 1].map(|capacity| number(&bytes, 0, 1, capacity)), [2, 2]);
    assert_eq!([(11, 0, 3), (12, 1, 3), (7, 0, 2), (12, u64::MAX, 3)].map(|(p, s, c)| number(&bytes, p, s, c)), [3; 4]);
    assert_eq!([(8, 0, 2), (9, 1, 2)].map(|(p, s, c)| number(&bytes, p, s, c)), [5, 5]);
    assert_eq!([(12, 0, 3), (13, 1, 3)].map(|(p, s, c)| number(&bytes, p, s, c)), [0, 0]);
    let mut pool = Pool::new();
    assert_eq!(pool.read(&bytes, 2), Err(Refusal::NoRoom));
    assert_eq!(pool.read(&bytes, 0), Err(Refusal::BadCapacity));
    assert!(pool.words().is_empty());
}

#[test]
fn numbers_of_a_write() {
    let mut pool = Pool::new();
    let table = pool.read(&by_hand(), 5).unwrap();
    let len = by_hand().len();
    let mut bytes = vec![7; len + 2];
    assert_eq!(calls::write(pool.words(), table.header(), &mut bytes[..len - 1]), calls::FileWritten { number: 14, len: 0 });
    assert_eq!(bytes, vec![7; len + 2]);
    assert_eq!(calls::write(pool.words(), table.header(), &mut bytes).len, len as u64);
    assert_eq!((&bytes[..len], &bytes[len..]), (&by_hand()[..], &[7, 7][..]));
    // 6 before 14, and in another pool.
    assert_eq!(calls::write(&[], table.header(), &mut []), calls::FileWritten { number: 6, len: 0 });
    assert_eq!(table.to_bytes(&Pool::new()), Err(Refusal::Damaged));
}

/// Read with more room, a table takes rows; its file says nothing of the room.
#[test]
fn a_table_that_is_read_goes_on() {
    let mut pool = Pool::new();
    let mut table = pool.read(&by_hand(), 4).unwrap();
    assert!(pool.insert_cells(&mut table, &[Cell::Grade(-61), Cell::Plain(1)]).unwrap());
    assert_eq!(pool.insert_cells(&mut table, &[Cell::Grade(-61), Cell::Plain(2)]), Err(Refusal::NoRoom));
    let bytes = table.to_bytes(&pool).unwrap();
    let again = Pool::new().read(&bytes, MAX_CAPACITY).unwrap();
    assert_eq!((again.len(), again.kinds()), (4, table.kinds()));
}

/// The empty table, one row, as many as fill a field, and one more.
#[test]
fn the_longest_file() {
    for arity in 1..=MAX_ARITY {
        let full = field_rows(arity);
        assert!(8 * arity * full <= 65_535 && 65_535 < 8 * arity * (full + 1));
        for capacity in [1, full, full + 1] {
            let rows: Vec<Vec<Cell>> = (0..capacity as i64).map(|i| vec![Cell::Grade(i - 9); arity]).collect();
            let mut pool = Pool::new();
            let table = pool.build_with_kinds(&vec![Kind::Grade; arity], capacity, &rows).unwrap();
            let bytes = table.to_bytes(&pool).unwrap();
            assert_eq!(bytes.len(), file(arity, capacity), "arity {arity}, capacity {capacity}");
            let mut other = Pool::new();
            assert_eq!(other.read(&bytes, capacity).unwrap(), table);
            assert_eq!((other.words(), other.words().len()), (pool.words(), words(arity, capacity)));
        }
        let mut pool = Pool::new();
        let empty = pool.build(arity, 1, &[[0u64; 0]; 0]).unwrap();
        assert_eq!(empty.to_bytes(&pool).unwrap(), [1, 0, 1, arity as u8, 3, 0, 0]);
    }
}
