//! This side of docs/DIFFERENCES.md, by the numbers there, where a single call shows it.
use ducatbriar::calls::partition_point;
use ducatbriar::{grade_of, Cell, Kind, Pool, Query, Refusal, SeekStrategy};

/// The offset and the probes.
fn seek(strategy: SeekStrategy, run: &[u64], target: u64) -> (u64, u64) {
    let sought = partition_point(strategy, run, target);
    (sought.offset, sought.probes)
}

#[test]
fn no_1_a_key_is_64_bits_wide() {
    let mut pool = Pool::new();
    let table = pool.build(1, 2, &[[1 << 32], [0]]).unwrap();
    let text = "LAYER 0\nData: [0, 4294967296]\nInterval: [0]\n";
    assert_eq!(pool.list(&table).unwrap(), text);
}

#[test]
fn no_2_and_3_the_halving_rule() {
    assert_eq!(seek(SeekStrategy::Binary, &[1, 2], 3), (2, 1));
    assert_eq!(seek(SeekStrategy::Galloping, &[1, 2, 3, 4, 5, 6, 7], 8), (7, 5));
}

#[test]
fn no_4_a_falling_run() {
    assert_eq!(seek(SeekStrategy::Linear, &[0, 0, 0, 1, 0], 1).0, 3);
    assert_eq!(seek(SeekStrategy::Binary, &[0, 0, 0, 1, 0], 1).0, 5);
    assert_eq!(seek(SeekStrategy::Galloping, &[0, 0, 0, 0, 0, 0, 0, 0, 0, 0, 0, 0, 1, 0], 1).0, 14);
}

#[test]
fn no_17_a_grade_is_joined_to_grades_alone() {
    let mut pool = Pool::new();
    let grade = pool.build_with_kinds(&[Kind::Grade], 1, &[[Cell::Grade(grade_of(0))]]).unwrap();
    let plain = pool.build(1, 1, &[[0]]).unwrap();
    let query = Query::new(&[0]).atom(0, &[0]).atom(1, &[0]);
    assert_eq!(pool.join(SeekStrategy::Linear, &[&grade, &plain], &query), Err(Refusal::MixedKinds));
    assert_eq!(pool.join(SeekStrategy::Linear, &[&grade, &grade], &query).unwrap().len(), 1);
}

#[test]
fn no_18_a_window_is_whole_rows() {
    let mut pool = Pool::new();
    let table = pool.build(2, 1, &[[1, 2]]).unwrap();
    let into = |window: &mut [u64]| {
        pool.join_into(SeekStrategy::Linear, &[&table], &Query::new(&[0, 1]).atom(0, &[0, 1]), window).map(|filled| filled.full)
    };
    assert_eq!(into(&mut [7]), Err(Refusal::PartRows));
    assert_eq!((into(&mut []), into(&mut [7; 2])), (Ok(true), Ok(false)));
}

#[test]
fn no_19_a_row_is_taken_out() {
    let mut pool = Pool::new();
    let mut table = pool.build(1, 1, &[[1]]).unwrap();
    assert_eq!(pool.remove(&mut table, &[1]), Ok(true));
    assert!(table.is_empty());
}

#[test]
fn no_23_a_join_goes_on_after_a_row() {
    let mut pool = Pool::new();
    let table = pool.build(1, 1, &[[1]]).unwrap();
    let query = Query::new(&[0]).atom(0, &[0]);
    let rows = |after: u64| {
        let given = Some([after, 0, 0, 0, 0, 0, 0, 0]);
        pool.join_after_into(SeekStrategy::Linear, &[&table], &query, given, &mut [7]).map(|piece| piece.rows)
    };
    assert_eq!((rows(1), rows(0)), (Ok(0), Ok(1)));
}
