//! The plain engine beside the leapfrogs: triangles over few rows, since of a star it tries as many keys as its rows squared.
use crate::cycles::triangle_query;
use crate::data;
use crate::sides::{capacity, tables};
use crate::times::{head, medians, micros, side};
use ducatbriar::calls::{self, SeekStrategy};

fn line(times: usize, set: &data::Set) {
    let relations: Vec<_> = (0..3).map(|seed| set.rows(seed)).collect();
    let (pool, tables) = tables(&relations, capacity(set.count));
    let query = triangle_query();
    // Room for every shape and count below.
    let (mut window, mut plain_window) = (vec![1; 3 << 14], vec![1; 3 << 14]);
    let all = calls::join(SeekStrategy::Galloping, &pool, tables, query, &mut window);
    assert_eq!(all.number, 0, "the window holds all rows");
    let sides = [
        side(|| calls::join(SeekStrategy::Galloping, &pool, tables, query, &mut window)),
        side(|| {
            let plainly = calls::plain_join(&pool, tables, query, &mut plain_window);
            assert_eq!((plainly.number, plainly.rows), (0, all.rows));
        }),
    ];
    let [leapfrogs, plainly] = medians(times, sides);
    assert!(window == plain_window, "both windows are the same");
    print!("| {} | {} | {} |", set.count, set.name, all.rows);
    println!(" {} | {} | {:.1} |", micros(leapfrogs), micros(plainly), plainly / leapfrogs);
}

pub fn plain(times: usize) {
    head(2, &["rows", "data", "answers", "leapfrogs", "plain", "plain / leapfrogs"]);
    for count in [256, 1024] {
        let [uniform, _, _, star] = data::four(count);
        [uniform, star].iter().for_each(|set| line(times, set));
    }
}
