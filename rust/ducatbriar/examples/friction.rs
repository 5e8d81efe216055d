//! The job of examples/c/friction.c, in Rust: which friction holds on which stretch of road, by surface and speed band. It prints the same.
use ducatbriar::Cell::{Grade, Plain};
use ducatbriar::{Kind, Pool, Query, Refusal, SeekStrategy};

const DRY: u64 = 1;
const WET: u64 = 2;

fn main() -> Result<(), Refusal> {
    let mut pool = Pool::new();
    // Grade, stretch, surface.
    let road = [[Grade(45), Plain(12), Plain(WET)], [Grade(0), Plain(10), Plain(DRY)], [Grade(-60), Plain(11), Plain(WET)]];
    let road = pool.build_with_kinds(&[Kind::Grade, Kind::Plain, Kind::Plain], 16, &road)?;
    let mut friction = pool.build(3, 16, &[[WET, 1, 310], [DRY, 1, 780], [WET, 0, 420]])?;
    let new = pool.insert(&mut friction, &[DRY, 0, 820])?;
    println!("inserted, {}", if new { "new" } else { "not new" });

    // Variables: 0 grade, 1 stretch, 2 surface, 3 band, 4 friction.
    let query = Query::new(&[0, 1, 2, 3, 4]).atom(0, &[0, 1, 2]).atom(1, &[2, 3, 4]);
    for row in pool.join(SeekStrategy::Galloping, &[&road, &friction], &query)?.cells() {
        println!("grade {}, stretch {}, surface {}, band {}: {} thousandths", row[0], row[1], row[2], row[3], row[4]);
    }
    print!("{}", pool.list(&friction)?);
    Ok(())
}
