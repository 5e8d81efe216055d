//! Document 02's rules for a window at a time, written from its text and from nothing else: what a join that starts, or goes on after a given row, must answer.
use crate::model::{self, Row};
use ducatbriar::calls::*;

/// "The rows strictly after that one, in the order's sequence."
fn strictly_after(order: &[u64], rows: &[Row], given: &[u64]) -> Vec<Row> {
    let read = |row: &[u64]| order.iter().map(|&v| row[v as usize]).collect::<Row>();
    let given = read(given);
    rows.iter().filter(|row| read(row) > given).cloned().collect()
}

/// "Words past n are zero."
fn eight(words: &[u64]) -> [u64; 8] {
    std::array::from_fn(|i| words.get(i).copied().unwrap_or(0))
}

/// What a window gets of a query that passes the checks and whose whole listing these rows are.
pub fn piece(query: &Query, listing: &[Row], given: Option<[u64; 8]>, window: &mut [u64]) -> JoinedAfter {
    let n = query.n as usize;
    let rows = match given {
        None => listing.to_vec(),
        Some(given) => strictly_after(&query.order[..n], listing, &given[..n]),
    };
    let joined = model::windowed(n, &rows, window);
    // "The last row written, or the given one if none was; at a start without rows zeros."
    let last = match (joined.rows.checked_sub(1), given) {
        (Some(last), _) => eight(&rows[last as usize]),
        (None, Some(given)) => eight(&given[..n]),
        (None, None) => [0; 8],
    };
    JoinedAfter { number: joined.number, rows: joined.rows, last }
}

/// The same of a query that is refused: "in refusals but 12, zeros".
pub fn refused(number: u64) -> JoinedAfter {
    JoinedAfter { number, ..Default::default() }
}
