//! Several programs, one behind the other: as one.
mod common;
use common::*;
use portable::{translate, Names};

const HEADER: &str = "uint64_t f(uint64_t n); uint64_t g(uint64_t n);";

/// A function of one word that answers a number, or what the function called answers.
fn answers(symbol: &str, n: u64) -> String {
    function(symbol, 1, &[U64, U64], &seq(&[&assign(0, &format!("(rvOpd (int 64 {n}))")), "return"]))
}

fn hands_on(symbol: &str, callee: &str) -> String {
    let call = format!("(call (direct (fnRef \"{callee}\")) {} {})", list(&[copy(1)]), at(0));
    function(symbol, 1, &[U64, U64], &seq(&[&call, "return"]))
}

fn c_of(programs: &[&[String]]) -> Result<String, String> {
    let mir: Vec<String> = programs.iter().map(|functions| program(functions) + "\n").collect();
    translate(&mir.concat(), HEADER, &Names::default()).map_err(|refused| refused.to_string())
}

/// A text behind its preamble, which has the checksum of the MIR.
fn code(text: &str) -> &str {
    text.split_once("*/").unwrap().1
}

#[test]
fn what_two_programs_share_is_written_once_and_stands_where_it_is_first() {
    let (shared, f, g) = (answers("k::shared", 3), hands_on("k::f", "k::shared"), hands_on("k::g", "k::shared"));
    let parts = c_of(&[&[shared.clone(), f.clone()], &[g.clone(), shared.clone()]]).unwrap();
    assert_eq!(parts.matches("k_shared(uint64_t a1)\n{").count(), 1, "{parts}");
    assert_eq!(code(&parts), code(&c_of(&[&[shared, f, g]]).unwrap()));
}

#[test]
fn a_function_that_is_another_in_the_second_program_is_refused() {
    let (shared, f, g) = (answers("k::shared", 3), hands_on("k::f", "k::shared"), hands_on("k::g", "k::shared"));
    for other in [answers("k::shared", 4), shared.replace("valueLocal", "memorySlot"), hands_on("k::shared", "k::f")] {
        let why = c_of(&[&[shared.clone(), f.clone()], &[other, g.clone()]]).unwrap_err();
        assert!(why.contains("not the same in two programs: \"k::shared\""), "{why}");
    }
}

#[test]
fn a_type_that_is_another_in_the_second_program_is_refused() {
    let other = answers("k::g", 3).replace("\"k::Pair\" (fields (tcons (tyInt 64)", "\"k::Pair\" (fields (tcons tyBool");
    assert!(c_of(&[&[answers("k::f", 3)], &[answers("k::g", 3)]]).is_ok());
    assert!(c_of(&[&[answers("k::f", 3)], &[other]]).unwrap_err().contains("two shapes of one type"));
}

#[test]
fn one_program_has_a_function_once() {
    let twice = [answers("k::f", 3), answers("k::g", 3), answers("k::g", 3)];
    assert!(c_of(&[&twice]).unwrap_err().contains("two functions of one symbol"));
    assert!(c_of(&[&twice[..1], &twice[1..]]).unwrap_err().contains("two functions of one symbol"));
}

#[test]
fn what_stands_behind_a_program_is_one() {
    let whole = program(&[answers("k::f", 3), answers("k::g", 3)]);
    for (behind, read) in [("", true), ("program lnil (fnRef \"k::f\")", true), ("program lnil", false), ("lnil", false)] {
        assert_eq!(translate(&format!("{whole}\n{behind}"), HEADER, &Names::default()).is_ok(), read, "{behind}");
    }
}
