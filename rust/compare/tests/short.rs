//! Each part once, with few random cases. The program `compare` runs as many as one likes.
#[cfg(kermit)]
mod short {
    fn run(part: &str) {
        let tally = compare::runs::run(part, 1, 50).unwrap_or_else(|text| panic!("{text}"));
        assert!(tally.comparisons > 0);
    }

    #[test]
    fn seeks() {
        run("seeks");
    }

    #[test]
    fn tables() {
        run("tables");
    }

    #[test]
    fn changes() {
        run("changes");
    }

    #[test]
    fn files() {
        run("files");
    }

    #[test]
    fn cursors() {
        run("cursors");
    }

    #[test]
    fn joins() {
        run("joins");
    }

    #[test]
    fn overlay() {
        run("overlay");
    }

    #[test]
    fn overlay_joins() {
        run("overlay_joins");
    }

    #[test]
    fn orders() {
        run("orders");
    }

    #[test]
    fn verdicts() {
        run("verdicts");
    }

    #[test]
    fn after() {
        run("after");
    }

    #[test]
    fn damage() {
        run("damage");
    }
}
