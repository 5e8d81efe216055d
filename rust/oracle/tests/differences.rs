//! What kermit does on the smallest inputs of docs/DIFFERENCES.md, by the numbers there. The other side of each is in the crates and in `compare`.
#[cfg(kermit)]
mod differences {
    use oracle::*;
    use std::panic::{catch_unwind, AssertUnwindSafe};

    type Trie = ColumnTrie<Counted<GallopingSeek>>;

    fn trie(arity: usize, rows: &[&[usize]]) -> Trie {
        Trie::from_tuples(arity.into(), rows.iter().map(|row| row.to_vec()).collect::<Vec<_>>())
    }

    fn join(order: &[usize], atoms: &[(usize, &[usize])], tries: &[Trie]) -> Vec<Vec<usize>> {
        let atoms: Vec<_> = atoms.iter().map(|(table, list)| (*table, list.to_vec())).collect();
        let mut rows = vec![];
        LeapfrogTriejoin::join_for_each(&ExecutedQuery::new(order, &atoms), tries, |row| rows.push(row.to_vec()));
        rows
    }

    /// The offset and the probes.
    fn seek<S: SeekStrategy>(run: &[usize], target: usize) -> (usize, usize) {
        taken();
        let offset = Counted::<S>::partition_point(run, |&key| key < target);
        (offset, taken().1)
    }

    fn panics(f: impl FnOnce()) -> bool {
        catch_unwind(AssertUnwindSafe(f)).is_err()
    }

    #[test]
    fn no_1_a_key_is_as_wide_as_the_machine_s_word() {
        // On a 64-bit machine no word is cut; a word of 32 bits would keep 0 of this one.
        const WORD: u64 = 4_294_967_296;
        let t = trie(1, &[&[WORD as usize]]);
        let mut iterator = ColumnTrieIter::new(&t);
        iterator.open();
        let key: Option<usize> = iterator.key();
        assert_eq!(key, Some(WORD as usize));
        assert_eq!((WORD as u32, usize::BITS), (0, 64));
    }

    #[test]
    fn no_2_binary_probes_once_more() {
        assert_eq!(seek::<BinarySeek>(&[1, 2], 3), (2, 2));
    }

    #[test]
    fn no_3_galloping_probes_once_more() {
        assert_eq!(seek::<GallopingSeek>(&[1, 2, 3, 4, 5, 6, 7], 8), (7, 6));
    }

    /// As many keys 0, then 1 and 0: with target 1 the search of Rust 1.95 stops on the 1.
    fn falling(zeros: usize) -> Vec<usize> {
        let mut run = vec![0; zeros];
        run.extend([1, 0]);
        run
    }

    #[test]
    fn no_4_a_falling_run() {
        assert_eq!(seek::<LinearSeek>(&falling(3), 1).0, 3);
        assert_eq!(seek::<BinarySeek>(&falling(3), 1).0, 3);
        assert_eq!(seek::<GallopingSeek>(&falling(12), 1).0, 12);
    }

    #[test]
    fn no_5_a_target_below_the_first_key() {
        assert_eq!(seek::<LinearSeek>(&[2], 1).0, 0);
        assert_eq!(seek::<BinarySeek>(&[2], 1).0, 0);
        assert_eq!(seek::<GallopingSeek>(&[2], 1).0, 0);
    }

    #[test]
    fn no_6_arity_0_counts_nothing() {
        let mut t = trie(0, &[]);
        t.insert([]);
        assert_eq!(t.tuple_count(), 0);
    }

    #[test]
    fn no_7_no_atoms_give_the_empty_row() {
        for n in 0..3 {
            assert_eq!(join(&(0..n).collect::<Vec<_>>(), &[], &[]), [[0usize; 0]]);
        }
    }

    #[test]
    fn no_8_a_variable_in_no_atom_panics_where_it_is_reached() {
        assert!(panics(|| drop(join(&[1, 0], &[(0, &[0])], &[trie(1, &[])]))));
        // behind a depth without keys it is not reached
        assert_eq!(join(&[0, 1], &[(0, &[0])], &[trie(1, &[])]), [[0usize; 0]; 0]);
    }

    #[test]
    fn no_9_to_12_lists_are_not_checked() {
        let two = [trie(2, &[&[1, 2]])];
        assert_eq!(join(&[1, 0], &[(0, &[0, 1])], &two), [[2, 1]]);
        assert_eq!(join(&[0], &[(0, &[0, 0])], &two), [[1]]);
        assert_eq!(join(&[0], &[(0, &[0])], &two), [[1]]);
        assert_eq!(join(&[0, 1], &[(0, &[0, 1])], &[trie(1, &[&[1]])]), [[0usize; 0]; 0]);
    }

    #[test]
    fn no_13_a_key_after_a_start_that_found_none() {
        let (one, none) = (trie(1, &[&[1]]), trie(1, &[]));
        let iterators = [&one, &none].map(|t| {
            let mut iterator = ColumnTrieIter::new(t);
            iterator.open();
            iterator
        });
        let mut leapfrog = Leapfrog::new(iterators.into());
        assert!(!leapfrog.init());
        assert_eq!(leapfrog.key(), Some(1));
    }

    #[test]
    fn no_14_seeks_of_a_triangle() {
        let tries = [trie(2, &[&[1, 0], &[2, 2]]), trie(2, &[&[2, 3]]), trie(2, &[&[2, 0], &[3, 1]])];
        taken();
        let rows = join(&[0, 1, 2], &[(0, &[0, 1]), (1, &[1, 2]), (2, &[0, 2])], &tries);
        assert_eq!(rows, [[0usize; 0]; 0]);
        assert_eq!(taken().0, 2);
    }

    /// The next list of keys below `most`, as a number is counted up; false behind the last.
    fn count_up(keys: &mut [usize], most: usize) -> bool {
        for key in keys {
            *key += 1;
            if *key < most {
                return true;
            }
            *key = 0;
        }
        false
    }

    #[test]
    fn no_15_the_ring_s_sort_has_kept_the_order() {
        for entries in 0..=8 {
            let mut keys = vec![0; entries];
            loop {
                let mut ring: Vec<usize> = (0..entries).collect();
                ring.sort_unstable_by_key(|&i| keys[i]);
                assert!(ring.windows(2).all(|w| (keys[w[0]], w[0]) < (keys[w[1]], w[1])), "{keys:?}");
                if !count_up(&mut keys, 4) {
                    break;
                }
            }
        }
    }

    #[test]
    fn no_16_a_tuple_of_another_length_panics() {
        assert!(panics(|| trie(1, &[]).insert([1, 2])));
    }

    #[test]
    fn no_17_columns_have_no_kinds() {
        assert_eq!(join(&[0], &[(0, &[0]), (1, &[0])], &[trie(1, &[&[0]]), trie(1, &[&[0]])]), [[0]]);
    }

    #[test]
    fn no_18_rows_go_to_the_caller_and_into_no_window() {
        assert_eq!(join(&[0, 1], &[(0, &[0, 1])], &[trie(2, &[&[1, 2]])]), [[1, 2]]);
    }
}
