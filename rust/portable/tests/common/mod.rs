//! Small MIR texts, as `portable/mir` would print them.
#![allow(dead_code)] // each test takes what it needs
use portable::{translate, Names};

pub const U64: &str = "(tyInt 64)";
pub const U8: &str = "(tyInt 8)";
pub const BOOL: &str = "tyBool";
pub const PAIR: &str = "(tyNamed (pair \"k::Pair\" lnil))";
pub const WIDE: &str = "(tyNamed (pair \"k::Wide\" lnil))";
pub const KIND: &str = "(tyNamed (pair \"k::Kind\" lnil))";
pub const FOUND: &str = "(tyNamed (pair \"k::Found\" lnil))";
pub const NONE: &str = "(tyNamed (pair \"k::None\" lnil))";
pub const VIEW: &str = "(tyNamed (pair \"k::View\" lnil))";
pub const SOUND: &str = "(tyNamed (pair \"k::Sound\" lnil))";
pub const LIST: &str = "(tyArray (tyInt 64) (lenLit 8))";

/// Pair has two words, Wide a word and eight, Kind two variants, one with a word and a yes or no, Found a Pair, eight words or nothing, None nothing at all, View a
/// pointer to a word, and Sound a word and a shared reference to a Wide.
const SHAPES: [&str; 7] = [
    "(pair \"k::Pair\" (fields (tcons (tyInt 64) (tcons (tyInt 64) tnil))))",
    "(pair \"k::Wide\" (fields (tcons (tyInt 64) (tcons (tyArray (tyInt 64) (lenLit 8)) tnil))))",
    "(pair \"k::Kind\" (variants (ttcons (tcons (tyInt 64) (tcons tyBool tnil)) (ttcons tnil ttnil))))",
    "(pair \"k::Found\" (variants (ttcons (tcons (tyNamed (pair \"k::Pair\" lnil)) tnil) (ttcons (tcons (tyArray (tyInt 64) (lenLit 8)) tnil) (ttcons (tcons tyUnit tnil) ttnil)))))",
    "(pair \"k::None\" (fields (tcons tyUnit tnil)))",
    "(pair \"k::View\" (fields (tcons (tyRef erased mut (tyInt 64)) tnil)))",
    "(pair \"k::Sound\" (fields (tcons (tyInt 64) (tcons (tyRef erased imm (tyNamed (pair \"k::Wide\" lnil))) tnil))))",
];

pub fn list(parts: &[impl AsRef<str>]) -> String {
    parts.iter().rev().fold("lnil".to_string(), |rest, part| format!("(lcons {} {rest})", part.as_ref()))
}

pub fn seq(parts: &[&str]) -> String {
    let (last, front) = parts.split_last().unwrap();
    front.iter().rev().fold((*last).to_string(), |rest, part| format!("(seq {part} {rest})"))
}

/// A local as a place, and as an operand.
pub fn at(local: usize) -> String {
    format!("(place {local} lnil)")
}

pub fn copy(local: usize) -> String {
    format!("(copy (place {local} lnil))")
}

pub fn assign(local: usize, value: &str) -> String {
    format!("(assign {} {value})", at(local))
}

pub fn call(symbol: &str, given: &[String], to: usize) -> String {
    format!("(call (direct (fnRef \"{symbol}\")) {} {})", list(given), at(to))
}

/// The body of a function that answers with the first word of its first parameter, a struct.
pub fn reads() -> String {
    seq(&[&assign(0, "(rvOpd (copy (place 1 (lcons (field 0) lnil))))"), "return"])
}

/// Sets local 2, a word, to a number: a statement to tell others by.
pub fn mark(n: u64) -> String {
    assign(2, &format!("(rvOpd (int 64 {n}))"))
}

/// A function; its locals are the result, so many parameters, and others.
pub fn function(symbol: &str, params: usize, locals: &[&str], body: &str) -> String {
    let locals: Vec<String> = locals.iter().map(|ty| format!("(local {ty} valueLocal)")).collect();
    format!("(fn-def \"{symbol}\" (fnItem 0 lnil {params} {} {body}) {})", list(&locals), list(&SHAPES))
}

pub fn program(functions: &[String]) -> String {
    format!("program {} (fnRef \"k::f\")", list(functions))
}

/// The C of `uint64_t f(uint64_t n)` with further locals from 2, whose body is given.
pub fn body(locals: &[&str], body: &str) -> Result<String, String> {
    let mut all = vec![U64, U64];
    all.extend(locals);
    c("uint64_t f(uint64_t n);", &[function("k::f", 1, &all, body)])
}

pub fn c(header: &str, functions: &[String]) -> Result<String, String> {
    translate(&program(functions), header, &Names::default()).map_err(|refused| refused.to_string())
}

/// The C of one statement, which the function's text must hold as given, line by line.
pub fn holds(locals: &[&str], statement: &str, expected: &str) {
    let text = body(locals, &seq(&[statement, "return"])).unwrap();
    let lines: Vec<&str> = text.lines().map(str::trim).collect();
    let wanted: Vec<&str> = expected.lines().map(str::trim).collect();
    assert!(lines.windows(wanted.len()).any(|window| window == wanted), "no\n{expected}\nin\n{text}");
}

pub fn refuses(locals: &[&str], statement: &str, because: &str) {
    let why = body(locals, &seq(&[statement, "return"])).unwrap_err();
    assert!(why.contains(because), "{why}");
}
