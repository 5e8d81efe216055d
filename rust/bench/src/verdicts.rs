//! A recorded listing checked, beside the join that wrote it and the plain engine, whose descent the check is: triangles over 50,000 rows from uniform keys, and
//! over few rows of the shapes that the plain engine's way makes worse.
use crate::cycles::triangle_query;
use crate::data;
use crate::sides::{capacity, tables};
use crate::times::{head, medians, millis, side};
use ducatbriar::calls::{self, Checked, SeekStrategy};

/// The whole listing, checked, and the same without its last row, if it has one, which is then said to be missing.
fn line(times: usize, set: &data::Set) {
    let relations: Vec<_> = (0..3).map(|seed| set.rows(seed)).collect();
    let (pool, tables) = tables(&relations, capacity(set.count));
    let query = triangle_query();
    let mut window = vec![1; 3 << 16];
    let mut all = calls::join(SeekStrategy::Galloping, &pool, tables, query, &mut window);
    while all.number == 12 {
        window.resize(2 * window.len(), 1);
        all = calls::join(SeekStrategy::Galloping, &pool, tables, query, &mut window);
    }
    assert_eq!(all.number, 0);
    window.truncate(3 * all.rows as usize);
    let (listing, mut plain_window) = (window.clone(), window.clone());
    let accepted = Checked { verdict: 1, ..Default::default() };
    let (last, cut) = (listing.len().saturating_sub(3), if listing.is_empty() { 1 } else { 3 });
    let sides = [
        side(|| calls::join(SeekStrategy::Galloping, &pool, tables, query, &mut window)),
        side(|| calls::plain_join(&pool, tables, query, &mut plain_window)),
        side(|| assert_eq!(calls::check_listing(&pool, tables, query, &listing, 0), accepted)),
        side(|| assert_eq!(calls::check_listing(&pool, tables, query, &listing[..last], 0).verdict, cut)),
    ];
    let [join, plain, check, cut] = medians(times, sides);
    assert!(window == listing && plain_window == listing, "both engines wrote the listing");
    print!("| {} | {} | {} | {} | {} |", set.count, set.name, all.rows, millis(join), millis(plain));
    println!(" {} | {} | {:.1} | {:.1} |", millis(check), millis(cut), check / join, check / plain);
}

pub fn verdict(times: usize) {
    let names = ["rows", "data", "answers", "join", "plain join", "check", "a row short", "check / join", "check / plain"];
    head(2, &names);
    let [few, more, many, ..] = data::large();
    let [uniform, dense, skewed, star] = data::four(1024);
    [few, more, many, uniform, dense, skewed, star].iter().for_each(|set| line(times, set));
}
