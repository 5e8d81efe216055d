//! A case that can fail, be made smaller and be printed, and the count of what was compared.
use std::fmt::{Debug, Display};
use std::panic::{catch_unwind, AssertUnwindSafe};

/// How many answers were compared.
#[derive(Clone, Copy, Debug, Default)]
pub struct Tally {
    pub comparisons: u64,
}

impl Tally {
    /// Counts one comparison. `what` names the answer where the two differ.
    pub fn same<T: PartialEq + Debug>(&mut self, got: T, want: T, what: impl FnOnce() -> String) -> Result<(), String> {
        self.comparisons += 1;
        if got == want {
            return Ok(());
        }
        Err(format!("{}: ours {}, expected {}", what(), cut(&got), cut(&want)))
    }
}

/// As much of the item as one may want to read.
fn cut(item: &impl Debug) -> String {
    let text = format!("{item:?}");
    match text.char_indices().nth(4000) {
        None => text,
        Some((end, _)) => format!("{} ..", &text[..end]),
    }
}

pub trait Case: Clone + Display {
    fn run(&self, tally: &mut Tally) -> Result<(), String>;
    /// Cases that are a step smaller, the smallest first.
    fn smaller(&self) -> Vec<Self>;
}

/// Runs a case; a panic on either side is a failure like any other.
fn outcome<C: Case>(case: &C, tally: &mut Tally) -> Result<(), String> {
    catch_unwind(AssertUnwindSafe(|| case.run(tally))).unwrap_or_else(|panic| {
        let text = panic.downcast_ref::<String>().map(String::as_str).or(panic.downcast_ref::<&str>().copied());
        Err(format!("panicked: {}", text.unwrap_or("?")))
    })
}

/// The smallest case that still fails, going one step at a time, and what it says.
fn shrink<C: Case>(case: C, what: String) -> (C, String) {
    let hook = std::panic::take_hook();
    std::panic::set_hook(Box::new(|_| ()));
    let (mut case, mut what) = (case, what);
    let step = |case: &C| {
        let fails = |c: C| outcome(&c, &mut Tally::default()).err().map(|what| (c, what));
        case.smaller().into_iter().find_map(fails)
    };
    while let Some(next) = step(&case) {
        (case, what) = next;
    }
    std::panic::set_hook(hook);
    (case, what)
}

/// Runs a case. Where it fails, it is shrunk, and the text says what differs and on which rows.
pub fn check<C: Case>(case: C, tally: &mut Tally) -> Result<(), String> {
    outcome(&case, tally).map_err(|what| {
        let (case, what) = shrink(case, what);
        format!("{what}\non the smallest case found:\n{case}")
    })
}

/// Items of longer lists aren't tried one by one: there would be too many lists to hold.
const FEW: usize = 64;

/// The list's halves, and the list with one item left out, or one of sixteen parts of a long one.
pub fn shorter<T: Clone>(list: &[T]) -> Vec<Vec<T>> {
    let mut all: Vec<Vec<T>> = vec![];
    if list.len() > 3 {
        all.push(list[..list.len() / 2].to_vec());
        all.push(list[list.len() / 2..].to_vec());
    }
    let part = if list.len() <= FEW { 1 } else { list.len().div_ceil(16) };
    let behind = |from: usize| &list[list.len().min(from + part)..];
    all.extend((0..list.len()).step_by(part).map(|from| [&list[..from], behind(from)].concat()));
    all
}

/// Lists with one word made smaller.
pub fn lower(list: &[u64]) -> Vec<Vec<u64>> {
    let with = |i: usize, word: u64| {
        let mut list = list.to_vec();
        list[i] = word;
        list
    };
    let steps = |word: u64| [0, word / 2, word.saturating_sub(1)].into_iter().filter(move |&less| less < word);
    list.iter().enumerate().flat_map(|(i, &word)| steps(word).map(move |less| with(i, less))).collect()
}

/// Lists of rows that are shorter, or have one word made smaller if they aren't long.
pub fn smaller_rows(rows: &[Vec<u64>]) -> Vec<Vec<Vec<u64>>> {
    let mut all = shorter(rows);
    let few = if rows.len() <= FEW { rows } else { &[] };
    for (i, row) in few.iter().enumerate() {
        all.extend(lower(row).into_iter().map(|row| {
            let mut rows = rows.to_vec();
            rows[i] = row;
            rows
        }));
    }
    all
}

/// Rows as one writes them: (1, 2), (3, 4). Of many, the first ones.
pub fn show_rows(rows: &[Vec<u64>]) -> String {
    if rows.is_empty() {
        return "none".into();
    }
    let row = |row: &Vec<u64>| format!("({})", row.iter().map(u64::to_string).collect::<Vec<_>>().join(", "));
    let shown = rows.iter().take(FEW).map(row).collect::<Vec<_>>().join(", ");
    match rows.len().saturating_sub(FEW) {
        0 => shown,
        more => format!("{shown} and {more} more"),
    }
}

#[cfg(test)]
mod tests {
    use super::*;

    /// Fails where some word is over 6.
    #[derive(Clone)]
    struct Over(Vec<Vec<u64>>);
    impl Display for Over {
        fn fmt(&self, f: &mut std::fmt::Formatter) -> std::fmt::Result {
            write!(f, "rows {}", show_rows(&self.0))
        }
    }
    impl Case for Over {
        fn run(&self, tally: &mut Tally) -> Result<(), String> {
            let over = self.0.iter().flatten().filter(|&&word| word > 6).count();
            assert!(over < 3, "three of them");
            tally.same(over, 0, || "words over 6".into())
        }
        fn smaller(&self) -> Vec<Self> {
            smaller_rows(&self.0).into_iter().map(Over).collect()
        }
    }

    #[test]
    fn a_failing_case_is_shrunk_and_printed_as_rows() {
        let case = Over((0..20).map(|i| vec![i % 5, i * i, 3]).collect());
        let text = check(case, &mut Tally::default()).unwrap_err();
        assert_eq!(text, "words over 6: ours 1, expected 0\non the smallest case found:\nrows (0, 7, 0)");
    }

    #[test]
    fn a_long_case_is_shrunk_too() {
        let case = Over((0..50_000).map(|i| vec![if i == 31_415 { 9 } else { i % 5 }]).collect());
        let text = check(case, &mut Tally::default()).unwrap_err();
        assert_eq!(text, "words over 6: ours 1, expected 0\non the smallest case found:\nrows (7)");
    }

    #[test]
    fn a_case_that_holds_is_counted() {
        let mut tally = Tally::default();
        assert_eq!(check(Over(vec![vec![1, 2]]), &mut tally), Ok(()));
        assert_eq!(tally.comparisons, 1);
    }
}
