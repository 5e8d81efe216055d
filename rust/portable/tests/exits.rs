//! `exit n` at every nesting: it leaves n + 1 of the blocks and loops around it, and if the last is a loop, its next turn begins.
mod common;
use common::*;

fn turn(body: &str) -> String {
    format!("(loop {body})")
}

fn block(body: &str) -> String {
    format!("(block {body})")
}

/// The statement on a condition, before a mark that tells whether it was passed by.
fn maybe(exit: usize) -> String {
    seq(&[&format!("(if {} (exit {exit}) skip)", copy(3)), &mark(7)])
}

fn is(statement: &str, expected: &str) {
    holds(&[U64, BOOL], statement, expected);
}

#[test]
fn of_a_loop_is_its_next_turn() {
    is(&turn(&maybe(0)), "for (;;) {\nif (v3) {\ncontinue;\n}\nv2 = 7;\n}");
}

#[test]
fn of_the_block_around_a_loop_is_a_break() {
    is(&block(&turn(&maybe(1))), "for (;;) {\nif (v3) {\nbreak;\n}\nv2 = 7;\n}");
}

#[test]
fn of_a_block_goes_to_its_end() {
    is(&block(&maybe(0)), "if (v3) {\ngoto end_1;\n}\nv2 = 7;\nend_1:;");
}

#[test]
fn of_a_block_in_a_loop() {
    is(&block(&turn(&block(&maybe(0)))), "if (v3) {\ngoto end_3;\n}\nv2 = 7;\nend_3:;\n}");
    is(&block(&turn(&block(&maybe(1)))), "for (;;) {\nif (v3) {\ncontinue;\n}\nv2 = 7;\n}");
    is(&block(&turn(&block(&maybe(2)))), "for (;;) {\nif (v3) {\nbreak;\n}\nv2 = 7;\n}");
}

#[test]
fn of_a_block_that_holds_more_than_the_loop() {
    let body = block(&seq(&[&turn(&maybe(1)), &mark(8)]));
    is(&body, "for (;;) {\nif (v3) {\ngoto end_1;\n}\nv2 = 7;\n}\nv2 = 8;\nend_1:;");
}

#[test]
fn out_of_two_loops() {
    let two = |exit| block(&turn(&block(&turn(&maybe(exit)))));
    is(&two(0), "for (;;) {\nfor (;;) {\nif (v3) {\ncontinue;\n}");
    is(&two(1), "for (;;) {\nfor (;;) {\nif (v3) {\nbreak;\n}");
    is(&two(2), "if (v3) {\ngoto next_2;\n}\nv2 = 7;\n}\nnext_2:;\n}");
    is(&two(3), "if (v3) {\ngoto end_1;\n}\nv2 = 7;\n}\n}\nend_1:;");
}

#[test]
fn of_a_loop_right_in_a_loop() {
    let nested = |exit| block(&turn(&turn(&maybe(exit))));
    is(&nested(1), "if (v3) {\ngoto next_2;\n}\nv2 = 7;\n}\nnext_2:;\n}");
    is(&nested(2), "if (v3) {\ngoto end_1;\n}\nv2 = 7;\n}\n}\nend_1:;");
}

#[test]
fn through_a_switch() {
    let switch = format!("(switch {} (arm (lcons 0 lnil) (exit 1) (default skip)))", copy(1));
    is(&block(&turn(&switch)), "for (;;) {\nif (n == 0) {\nbreak;\n}\n}");
}

#[test]
fn out_of_the_function_is_refused() {
    refuses(&[U64, BOOL], &block(&turn(&maybe(2))), "exit: 2");
}
