//! What is not translated is refused by its name.
mod common;
use common::*;

#[test]
fn unknown_forms() {
    for (statement, name) in [
        ("(yield 3)", "statement: Made(\"yield\""),
        (&*assign(2, "(phi 1 2)"), "value: Made(\"phi\""),
        (&*assign(2, &format!("(op2 bitAnd {0} {0})", copy(1))), "operation: Made(\"bitAnd\""),
        (&*assign(2, &format!("(op2 shl {0} {0})", copy(1))), "operation: Made(\"shl\""),
        (&*assign(2, &format!("(op2 (div signed) {0} {0})", copy(1))), "operation: Made(\"div\""),
        (&*assign(2, &format!("(op2 (rem signed) {0} {0})", copy(1))), "operation: Made(\"rem\""),
        (&*assign(2, &format!("(op1 bitNot {})", copy(1))), "operation: Made(\"bitNot\""),
        (&*assign(2, "(rvOpd (float binary64 0))"), "operand: Made(\"float\""),
        (&*assign(2, "(rvOpd (intNeg 64 1))"), "operand: Made(\"intNeg\""),
        (&*assign(2, "(rvOpd (copy (place 1 (lcons (index 0) lnil))))"), "step: Made(\"index\""),
        ("(switch (int 64 0) noDefault)", "arm: Made(\"noDefault\""),
        ("(call (pointer 3) lnil (place 2 lnil))", "call: Made(\"pointer\""),
        ("(lend_static (place 2 lnil) (tyInt 64) (c_parts cnil))", "constant: Made(\"c_parts\""),
        ("(lend_static (place 2 lnil) (tyArray (tyInt 8) (lenLit 2)) (c_ints 8 (lcons 1 lnil)))", "constant: Made(\"c_ints\""),
        ("(lend_static (place 2 lnil) (tyArray (tyInt 8) (lenLit 1)) (c_ints 8 (lcons 256 lnil)))", "constant: Made(\"c_ints\""),
        ("(lend_static (place 2 lnil) (tyArray (tyInt 8) (lenLit 1)) (c_ints 8 (lcons 1 lnil)))", "value: Lent"),
    ] {
        refuses(&[U64], statement, name);
    }
}

#[test]
fn unknown_types() {
    for (ty, name) in [
        ("(tyFloat binary64)", "type: Made(\"tyFloat\""),
        ("(tyInt 128)", "width: Number(128)"),
        ("(tyEnum \"k::E\" ttnil)", "type: Made(\"tyEnum\""),
        ("(tyStruct \"k::S\" tnil)", "type: Made(\"tyStruct\""),
        ("(tyNamed (pair \"k::Lent\" (lcons erased lnil)))", "declared type with lifetimes"),
        ("(tyNamed (pair \"k::Missing\" lnil))", "type that is not declared"),
        ("(tyArray (tyArray (tyInt 64) (lenLit 2)) (lenLit 2))", "array of arrays"),
        ("(tyArray (tyInt 64) (lenParam 0))", "length of an array"),
    ] {
        refuses(&[ty], "skip", name);
    }
}

#[test]
fn values_of_another_type() {
    let another = "a value of another type";
    refuses(&[U8], &assign(2, &format!("(rvOpd {})", copy(1))), another);
    refuses(&[BOOL], &assign(2, "(rvOpd (int 64 1))"), another);
    refuses(&[PAIR], &assign(2, "(aggregate (lcons true (lcons true lnil)))"), another);
    refuses(&[BOOL, U64], &format!("(if {} skip skip)", copy(3)), another);
    refuses(&[LIST, U64], &assign(2, &format!("(rvOpd {})", copy(3))), another);
    refuses(&[BOOL], &assign(2, &format!("(op2 (lt unsigned) {} (int 8 1))", copy(1))), "comparison");
    refuses(&[U64], &assign(2, &format!("(op2 (add unsigned) {} (int 8 1))", copy(1))), "operation");
    refuses(&[U8, U64], &assign(3, &format!("(op1 (cast signed unsigned 64) {})", copy(2))), "operation");
    refuses(&[U64], &assign(2, "(rvOpd (int 8 256))"), "operand");
}

#[test]
fn places_that_are_not_there() {
    refuses(&[], &assign(9, "(rvOpd (int 64 1))"), "local");
    refuses(&[PAIR], &assign(1, "(rvOpd (copy (place 2 (lcons (field 2) lnil))))"), "field");
    refuses(&[KIND], &assign(1, "(rvOpd (copy (place 2 (lcons (variant 2) (lcons (field 0) lnil)))))"), "variant");
    refuses(&[KIND], &assign(1, "(rvOpd (copy (place 2 (lcons (variant 1) (lcons (field 1) lnil)))))"), "field of a variant");
    refuses(&[KIND], &assign(2, "(rvOpd (copy (place 2 (lcons (variant 0) lnil))))"), "variant as a whole");
    refuses(&[KIND], &assign(2, "(aggregate (lcons (int 8 2) lnil))"), "tag");
    let wrong = "(lcons (deref (tyInt 8)) lnil)";
    refuses(&["(tyRef erased mut (tyInt 64))", U8], &assign(3, &format!("(rvOpd (copy (place 2 {wrong})))")), "deref");
}

#[test]
fn counts_that_differ() {
    refuses(&[PAIR], &assign(2, "(aggregate (lcons (int 64 1) lnil))"), "number of parts");
    refuses(&[LIST], &assign(2, "(repeat (int 64 0) 7)"), "value");
    refuses(&[U64], &format!("(call (direct (fnRef \"k::f\")) lnil {})", at(2)), "number of arguments");
    refuses(&[U64], &format!("(call (direct (fnRef \"k::none\")) lnil {})", at(2)), "call of");
}

#[test]
fn texts_that_are_no_program() {
    let read = |mir: &str| portable::translate(mir, "", &portable::Names::default()).map(|_| ()).map_err(|why| why.to_string());
    assert!(read("program lnil (fnRef \"k::f\")").is_ok());
    for (mir, because) in [
        ("", "program"),
        ("program lnil", "program"),
        ("program (lcons 1 lnil (fnRef \"k::f\")", "bracket"),
        ("program lnil) (fnRef \"k::f\")", "brackets that do not match"),
        ("program (lcons 1 2) (fnRef \"k::f\")", "list"),
        ("program lnil (fnRef \"k::f)", "name that is not closed"),
        ("program (lcons 99999999999999999999 lnil) (fnRef \"k::f\")", "number"),
    ] {
        assert!(read(mir).unwrap_err().contains(because), "{mir}");
    }
}

#[test]
fn headers_that_differ_from_the_mir() {
    let f = |ty: &str| function("k::f", 1, &[U64, ty], &seq(&[&assign(0, "(rvOpd (int 64 0))"), "return"]));
    let why = |header: &str, ty: &str| c(header, &[f(ty)]).unwrap_err();
    let pair = "typedef struct { uint64_t a, b; } pair; uint64_t f(pair p);";
    assert!(c(pair, &[f(PAIR)]).unwrap().contains("uint64_t f(pair p)"));
    let other = "the header's type is not the MIR's";
    assert!(why(pair, U64).contains(other));
    assert!(why(pair, WIDE).contains(other));
    assert!(why("typedef struct { uint64_t a; } pair; uint64_t f(pair p);", PAIR).contains(other));
    assert!(why("typedef struct { uint64_t a; bool b; } pair; uint64_t f(pair p);", PAIR).contains(other));
    assert!(why("typedef struct { uint64_t a; uint64_t b[7]; } w; uint64_t f(w p);", WIDE).contains(other));
    assert!(why("uint64_t f(uint8_t n);", U64).contains(other));
    assert!(why("bool f(uint64_t n);", U64).contains(other));
    assert!(why("uint64_t f(uint64_t n, uint64_t m);", U64).contains("the header's parameters"));
    assert!(why("uint64_t g(uint64_t n);", U64).contains("prototype"));
    assert!(why("uint64_t f(uint64_t n); int x;", U64).contains("declaration"));
    let slice = "(tyStruct \"&[]\" (tcons (tyRef erased imm (tyInt 8)) (tcons (tyInt 64) tnil)))";
    assert!(why("uint64_t f(uint8_t *p, uint64_t n);", slice).contains("the header's parameters"));
    assert!(why("uint64_t f(const uint8_t *p);", slice).contains("the header's parameters"));
    assert!(c("uint64_t f(const uint8_t *p, uint64_t n);", &[f(slice)]).is_ok());
}

#[test]
fn two_of_one_name() {
    let twice = [function("k::f", 0, &[U64], "return"), function("k::f", 0, &[U64], "return")];
    assert!(c("", &twice).unwrap_err().contains("two functions of one symbol"));
    let modules = [function("k::f", 0, &[U64], "return"), function("m::f", 0, &[U64], "return")];
    assert!(c("uint64_t f(uint64_t n);", &modules).unwrap_err().contains("or several"));
    let shapes = function("k::f", 0, &[U64], "return");
    let other = shapes
        .replace("k::f", "k::g")
        .replace("(pair \"k::Pair\" (fields (tcons (tyInt 64)", "(pair \"k::Pair\" (fields (tcons tyBool");
    assert!(c("", &[shapes, other]).unwrap_err().contains("two shapes of one type"));
}
