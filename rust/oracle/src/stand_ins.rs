//! What kermit's files lean on and is not at hand: the least that lets them compile and does what their comments say of it.
//!
//! The traits and types have kermit's names and the paths that its files use. Nothing here takes part in a trie or a join but `Tuples`, `TupleView` and
//! `ExecutedQuery`, which only hand data over, and the sort in `materialize_sorted`, whose order kermit's comments fix.
use crate::column_trie::column_trie_iter::ColumnTrieIter;
use crate::seek::SeekStrategy;
use crate::trie::TrieIteratorWrapper;
use std::collections::BTreeMap;

pub mod linear {
    /// An iterator over ascending keys.
    pub trait LinearIterator {
        fn key(&self) -> Option<usize>;
        fn next(&mut self) -> Option<usize>;
        fn seek(&mut self, seek_key: usize) -> bool;
        fn at_end(&self) -> bool;
    }
}

pub mod joinable {
    pub trait JoinIterable {}
}
pub use joinable::JoinIterable;

pub mod build_mode {
    #[derive(Clone, Copy, Debug, Default)]
    pub enum ColumnTrieBuildMode {
        Incremental,
        #[default]
        Bulk,
    }
    impl super::BuildMode for ColumnTrieBuildMode {}
}

pub trait LayoutOption {
    const NAME: &'static str;
}
pub trait HasOptimizationAxes {
    fn optimization_axes(&self) -> BTreeMap<String, Value>;
}
pub trait BuildMode {}
pub trait ConfigOption {}
pub enum TrieLevels {
    All,
}
pub type RowId = u32;

/// Of `serde_json`.
pub enum Value {
    String(String),
}

/// What `#[derive(IntoTrieIter)]` stands for.
impl<'a, S: SeekStrategy> IntoIterator for ColumnTrieIter<'a, S> {
    type IntoIter = TrieIteratorWrapper<Self>;
    type Item = Vec<usize>;
    fn into_iter(self) -> Self::IntoIter {
        TrieIteratorWrapper::new(self)
    }
}

/// Rows of one arity, one behind the other.
pub struct Tuples {
    arity: usize,
    rows: usize,
    keys: Vec<usize>,
}

impl Tuples {
    pub fn new(arity: usize) -> Self {
        Self::from_flat(arity, 0, vec![])
    }
    pub fn from_flat(arity: usize, rows: usize, keys: Vec<usize>) -> Self {
        assert_eq!(arity * rows, keys.len());
        Tuples { arity, rows, keys }
    }
    pub fn push(&mut self, row: &[usize]) {
        assert_eq!(row.len(), self.arity);
        self.keys.extend_from_slice(row);
        self.rows += 1;
    }
    pub fn is_empty(&self) -> bool {
        self.rows == 0
    }
    pub fn shrink_to_fit(&mut self) {
        self.keys.shrink_to_fit();
    }
    pub fn rows(&self) -> impl Iterator<Item = &[usize]> {
        (0..self.rows).map(|i| &self.keys[i * self.arity..(i + 1) * self.arity])
    }
}

impl From<Vec<Vec<usize>>> for Tuples {
    fn from(rows: Vec<Vec<usize>>) -> Self {
        let mut tuples = Tuples::new(rows.first().map_or(0, Vec::len));
        rows.iter().for_each(|row| tuples.push(row));
        tuples
    }
}

/// All rows of a batch, all columns: kermit's filters and choices of columns are not used here.
pub struct TupleView<'a>(&'a Tuples);

impl<'a> TupleView<'a> {
    pub fn all(tuples: &'a Tuples) -> Self {
        TupleView(tuples)
    }
    pub fn source_rows(&self) -> usize {
        self.0.rows
    }
    pub fn arity(&self) -> usize {
        self.0.arity
    }
    /// A copy of the rows in lexicographic order, duplicates kept: the library's unstable sort over rows of a fixed width, as fast as one would write it,
    /// since the benchmark times it as part of kermit's build.
    pub fn materialize_sorted(&self) -> Tuples {
        fn sort<const N: usize>(keys: &mut [usize]) {
            keys.as_chunks_mut::<N>().0.sort_unstable();
        }
        let mut keys = self.0.keys.clone();
        match self.0.arity {
            0 => (),
            1 => sort::<1>(&mut keys),
            2 => sort::<2>(&mut keys),
            3 => sort::<3>(&mut keys),
            4 => sort::<4>(&mut keys),
            5 => sort::<5>(&mut keys),
            6 => sort::<6>(&mut keys),
            7 => sort::<7>(&mut keys),
            8 => sort::<8>(&mut keys),
            _ => {
                let mut rows: Vec<&[usize]> = self.0.rows().collect();
                rows.sort_unstable();
                keys = rows.concat();
            }
        }
        Tuples::from_flat(self.0.arity, self.0.rows, keys)
    }
}

pub mod executed {
    pub struct Plan {
        pub variable_ordering: Vec<usize>,
    }
    pub struct Analysis {
        pub predicate_variables: Vec<Vec<usize>>,
    }
    /// A query as data: the order of the variables, and for each atom the index that it reads and its variables.
    pub struct ExecutedQuery {
        atoms: Vec<usize>,
        plan: Plan,
        analysis: Analysis,
    }
    impl ExecutedQuery {
        pub fn new(order: &[usize], atoms: &[(usize, Vec<usize>)]) -> Self {
            ExecutedQuery {
                atoms: atoms.iter().map(|atom| atom.0).collect(),
                plan: Plan { variable_ordering: order.to_vec() },
                analysis: Analysis { predicate_variables: atoms.iter().map(|atom| atom.1.clone()).collect() },
            }
        }
        pub fn atom_indexes(&self) -> &[usize] {
            &self.atoms
        }
        pub fn plan(&self) -> &Plan {
            &self.plan
        }
        pub fn analysis(&self) -> &Analysis {
            &self.analysis
        }
    }
}

pub mod join_algo {
    use super::executed::ExecutedQuery;
    pub trait JoinAlgo<DS> {
        fn join_for_each<S: FnMut(&[usize])>(query: &ExecutedQuery, indexes: &[DS], emit: S);
    }
    /// Every atom's index is there.
    pub fn assert_index_count(algo: &str, query: &ExecutedQuery, count: usize) {
        assert!(query.atom_indexes().iter().all(|&i| i < count), "{algo}: an atom names no index");
    }
}

/// Of `arrow`, `parquet` and `csv`, for kermit's readers of files: types that are named and never made.
pub mod files {
    pub enum Never {}

    macro_rules! error {
        ($name:ident) => {
            #[derive(Debug)]
            pub struct $name;
            impl std::fmt::Display for $name {
                fn fmt(&self, f: &mut std::fmt::Formatter) -> std::fmt::Result {
                    f.write_str("no files here")
                }
            }
            impl std::error::Error for $name {}
        };
    }

    pub mod array {
        use super::Never;
        pub struct Column(Never);
        pub struct Words(Never);
        impl Words {
            pub fn values(&self) -> &[i64] {
                match self.0 {}
            }
        }
        pub trait AsArray {
            fn as_primitive<T>(&self) -> &Words;
        }
        impl AsArray for Column {
            fn as_primitive<T>(&self) -> &Words {
                match self.0 {}
            }
        }
        pub struct RecordBatch(Never);
        impl RecordBatch {
            pub fn num_rows(&self) -> usize {
                match self.0 {}
            }
            pub fn columns(&self) -> &[Column] {
                match self.0 {}
            }
        }
    }
    pub mod datatypes {
        pub struct Int64Type;
    }
    pub mod error {
        error!(ArrowError);
    }
    pub mod errors {
        error!(ParquetError);
    }
    pub mod arrow_reader {
        use super::{array::RecordBatch, error::ArrowError, errors::ParquetError, Never};
        use std::marker::PhantomData;
        pub struct ParquetRecordBatchReaderBuilder<F>(Never, PhantomData<F>);
        pub struct Described(Never);
        impl Described {
            pub fn fields(&self) -> &[Described] {
                match self.0 {}
            }
            pub fn name(&self) -> &String {
                match self.0 {}
            }
            pub fn file_metadata(&self) -> &Described {
                match self.0 {}
            }
            pub fn num_rows(&self) -> i64 {
                match self.0 {}
            }
        }
        type Batches = std::vec::IntoIter<Result<RecordBatch, ArrowError>>;
        impl<F> ParquetRecordBatchReaderBuilder<F> {
            pub fn try_new(_: F) -> Result<Self, ParquetError> {
                Err(ParquetError)
            }
            pub fn schema(&self) -> &Described {
                match self.0 {}
            }
            pub fn metadata(&self) -> &Described {
                match self.0 {}
            }
            pub fn build(self) -> Result<Batches, ParquetError> {
                match self.0 {}
            }
        }
    }

    error!(Error);
    pub struct StringRecord;
    impl StringRecord {
        pub fn new() -> Self {
            StringRecord
        }
        pub fn iter(&self) -> std::iter::Empty<&str> {
            std::iter::empty()
        }
    }
    pub struct Reader<F>(F);
    impl<F> Reader<F> {
        pub fn headers(&mut self) -> Result<&StringRecord, Error> {
            Err(Error)
        }
        pub fn read_record(&mut self, _: &mut StringRecord) -> Result<bool, Error> {
            Err(Error)
        }
    }
    pub struct ReaderBuilder;
    impl ReaderBuilder {
        pub fn new() -> Self {
            ReaderBuilder
        }
        pub fn has_headers(&mut self, _: bool) -> &mut Self {
            self
        }
        pub fn delimiter(&mut self, _: u8) -> &mut Self {
            self
        }
        pub fn double_quote(&mut self, _: bool) -> &mut Self {
            self
        }
        pub fn escape(&mut self, _: Option<u8>) -> &mut Self {
            self
        }
        pub fn flexible(&mut self, _: bool) -> &mut Self {
            self
        }
        pub fn comment(&mut self, _: Option<u8>) -> &mut Self {
            self
        }
        pub fn from_reader<F>(&self, file: F) -> Reader<F> {
            Reader(file)
        }
    }
}
