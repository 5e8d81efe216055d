//! What shared references lead to is read where it stands, and never written.
mod common;
use common::*;

fn shared(ty: &str) -> String {
    format!("(tyRef erased imm {ty})")
}

fn mutable(ty: &str) -> String {
    format!("(tyRef erased mut {ty})")
}

/// The place where a local leads to a type, and what lies so many fields in.
fn behind(local: usize, ty: &str, fields: &[usize]) -> String {
    let fields = fields.iter().rev().fold("lnil".to_string(), |rest, field| format!("(lcons (field {field}) {rest})"));
    format!("(place {local} (lcons (deref {ty}) {fields}))")
}

fn operand(place: &str) -> String {
    format!("(copy {place})")
}

fn address(place: &str) -> String {
    format!("(addrOf {place})")
}

/// A function that answers with the word that its parameter leads to, in a Wide; and `k::f`, which hands `k::g` a Wide.
fn around(g: String) -> String {
    let read = assign(0, &format!("(rvOpd {})", operand(&behind(1, WIDE, &[0]))));
    let leads = function("k::h", 1, &[U64, &shared(WIDE)], &seq(&[&read, "return"]));
    let f = function("k::f", 1, &[U64, U64, WIDE], &seq(&[&call("k::g", &[copy(2)], 0), "return"]));
    c("uint64_t f(uint64_t n);", &[leads, g, f]).unwrap()
}

/// The C of `g` over a Wide that it copies to local 2, and whose local 3 is of the type given.
fn copying(third: &str, rest: &[&str]) -> String {
    let copied = assign(2, &format!("(rvOpd {})", copy(1)));
    let parts = [&[copied.as_str()], rest, &["return"]].concat();
    around(function("k::g", 1, &[U64, WIDE, WIDE, third, SOUND, &shared(SOUND)], &seq(&parts)))
}

#[test]
fn a_copy_of_a_parameter_that_is_lent_to_be_read_is_the_parameter() {
    let lent = assign(3, &address(&at(2)));
    let text = copying(&shared(WIDE), &[&lent, &call("k::h", &[copy(3)], 0)]);
    assert!(text.contains("k_g(const k_Wide *a1)") && text.contains("v3 = a1;\n    result = k_h(v3);"), "{text}");
    let stored = assign(4, &format!("(aggregate (lcons (int 64 7) (lcons {} lnil)))", copy(3)));
    let text = copying(&shared(WIDE), &[&lent, &stored, &assign(5, &address(&at(4)))]);
    assert!(text.contains("v3 = a1;\n    v4 = (k_Sound){7, v3};") && !text.contains("v2 ="), "{text}");
}

#[test]
fn a_copy_of_a_parameter_that_is_lent_to_be_written_is_a_copy() {
    let lent = assign(3, &address(&at(2)));
    let word = format!("(assign {} (rvOpd (int 64 1)))", behind(3, WIDE, &[0]));
    let text = copying(&mutable(WIDE), &[&lent, &word]);
    assert!(text.contains("v2 = *a1;\n    v3 = &v2;"), "{text}");
    let takes = function("k::t", 1, &["tyUnit", &mutable(WIDE)], "return");
    let body = seq(&[&assign(2, &format!("(rvOpd {})", copy(1))), &lent, &call("k::t", &[copy(3)], 4), "return"]);
    let g = function("k::g", 1, &[U64, WIDE, WIDE, &mutable(WIDE), "tyUnit"], &body);
    let f = function("k::f", 1, &[U64, U64, WIDE], &seq(&[&call("k::g", &[copy(2)], 0), "return"]));
    let text = c("uint64_t f(uint64_t n);", &[takes, g, f]).unwrap();
    assert!(text.contains("v2 = *a1;\n    v3 = &v2;"), "{text}");
}

#[test]
fn a_copy_that_is_written_between_two_loans_is_a_copy() {
    let lent = assign(3, &address(&at(2)));
    let read = call("k::h", &[copy(3)], 0);
    let word = "(assign (place 2 (lcons (field 0) lnil)) (rvOpd (int 64 1)))";
    let text = copying(&shared(WIDE), &[&lent, &read, word, &lent, &read]);
    assert!(text.contains("v2 = *a1;"), "{text}");
}

/// The C of `f`, whose local 3 leads to a Wide, and which hands on what `handed` says beside local 4, of the type given, with statements before.
fn handing(third: &str, fourth: &str, before: &[&str], handed: &str) -> String {
    let g = function("k::g", 2, &[U64, WIDE, fourth], &reads());
    let body = seq(&[before, &[&call("k::g", &[operand(handed), copy(4)], 0), "return"]].concat());
    let f = function("k::f", 1, &[U64, U64, WIDE, third, fourth, WIDE, U64], &body);
    c("uint64_t f(uint64_t n);", &[g, f]).unwrap()
}

#[test]
fn what_lies_where_a_reference_leads_is_lent() {
    let whole = behind(3, WIDE, &[]);
    for (fourth, word) in [(U64.to_string(), "v4"), (shared(WIDE), "v4")] {
        let text = handing(&shared(WIDE), &fourth, &[], &whole);
        assert!(text.contains(&format!("result = k_g(v3, {word});")), "{text}");
        let copied = assign(5, &format!("(rvOpd {})", operand(&whole)));
        let text = handing(&shared(WIDE), &fourth, &[&copied, &assign(6, "(rvOpd (int 64 1))")], &at(5));
        assert!(text.contains(&format!("v6 = 1;\n    result = k_g(v3, {word});")) && !text.contains("v5"), "{text}");
    }
}

#[test]
fn what_lies_where_a_reference_leads_is_copied_beside_a_pointer_to_write_by() {
    let whole = behind(3, WIDE, &[]);
    for fourth in [mutable(WIDE), "tyPtr".to_string(), VIEW.to_string()] {
        let text = handing(&shared(WIDE), &fourth, &[], &whole);
        assert!(text.contains("const k_Wide given1 = *v3;\n        result = k_g(&given1, v4);"), "{text}");
        let copied = assign(5, &format!("(rvOpd {})", operand(&whole)));
        let text = handing(&shared(WIDE), &fourth, &[&copied], &at(5));
        assert!(text.contains("v5 = *v3;\n    result = k_g(&v5, v4);"), "{text}");
    }
}

#[test]
fn what_lies_where_a_reference_leads_is_copied_before_a_write_that_may_reach_it() {
    let lent = assign(3, &address(&at(2)));
    let copied = assign(5, &format!("(rvOpd {})", operand(&behind(3, WIDE, &[]))));
    for write in [
        "(assign (place 2 (lcons (field 0) lnil)) (rvOpd (int 64 1)))".to_string(),
        assign(3, &address(&at(2))),
        format!("(assign {} (rvOpd (int 64 1)))", behind(4, U64, &[])),
    ] {
        let text = handing(&shared(WIDE), &mutable(U64), &[&lent, &copied, &write], &at(5)).replace("(uint64_t *)", "");
        assert!(text.contains("v5 = *v3;") && text.contains("result = k_g(&v5, v4);"), "{text}");
    }
}

/// The C of `g` over what leads to a Wide, which it copies from the place given to local 3, with statements behind.
fn looking(leads: &str, place: &str, rest: &[&str]) -> String {
    let copied = assign(3, &format!("(rvOpd {})", operand(place)));
    let body = seq(&[&[copied.as_str()], rest, &["return"]].concat());
    let reader = function("k::r", 2, &[U64, WIDE, &mutable(U64)], &reads());
    let g = function("k::g", 2, &[U64, leads, &mutable(U64), WIDE, &shared(WIDE)], &body);
    let f = function("k::f", 1, &[U64, U64, leads, &mutable(U64)], &seq(&[&call("k::g", &[copy(2), copy(3)], 0), "return"]));
    c("uint64_t f(uint64_t n);", &[reader, g, f]).unwrap()
}

#[test]
fn a_copy_of_what_a_shared_reference_of_a_parameter_leads_to_is_that() {
    let far = format!("(place 1 (lcons (deref {SOUND}) (lcons (field 1) (lcons (deref {WIDE}) lnil))))");
    let word = assign(0, "(rvOpd (copy (place 3 (lcons (field 0) lnil))))");
    let lent = assign(4, &address(&at(3)));
    let on = call("k::r", &[copy(3), copy(2)], 0);
    for (leads, place, name) in [
        (shared(WIDE), behind(1, WIDE, &[]), "a1"),
        (shared(SOUND), far.clone(), "a1->f2"),
        (SOUND.to_string(), "(place 1 (lcons (field 1) (lcons (deref WIDE) lnil)))".replace("WIDE", WIDE), "a1.f2"),
    ] {
        let text = looking(&leads, &place, &[&word, &lent, &on]);
        let lines = format!("    result = {name}->f1;\n    v4 = {name};\n    result = k_r({name}, a2);\n");
        assert!(text.contains(&lines) && !text.contains("v3 ="), "{text}");
    }
    for (leads, place, name) in [(mutable(WIDE), behind(1, WIDE, &[]), "a1"), (mutable(SOUND), far, "a1->f2")] {
        let text = looking(&leads, &place, &[&word, &lent, &on]);
        assert!(text.contains(&format!("    v3 = *{name};\n    result = v3.f1;\n    v4 = &v3;\n")), "{text}");
    }
    let other = format!("(assign {} (rvOpd (copy (place 4 lnil))))", at(1));
    let text = looking(&shared(WIDE), &behind(1, WIDE, &[]), &[&other, &word]);
    assert!(text.contains("    v3 = *a1;\n    a1 = v4;\n    result = v3.f1;\n"), "{text}");
}

/// A struct that holds a reference to what it is about, as a proved crate has its pool and its header, is made, lent and looked into with nothing copied.
#[test]
fn a_struct_of_references_costs_no_copy() {
    let header = format!("(place 1 (lcons (deref {SOUND}) (lcons (field 1) (lcons (deref {WIDE}) lnil))))");
    let on = assign(2, &format!("(rvOpd {})", operand(&header)));
    let reader = function("k::r", 1, &[U64, WIDE], &reads());
    let method = function("k::m", 1, &[U64, &shared(SOUND), WIDE], &seq(&[&on, &call("k::r", &[copy(2)], 0), "return"]));
    let made = assign(4, &format!("(aggregate (lcons (int 64 7) (lcons {} lnil)))", copy(3)));
    let body = [
        &assign(2, &format!("(rvOpd {})", copy(1))),
        &assign(3, &address(&at(2))),
        &made,
        &assign(5, &address(&at(4))),
        &call("k::m", &[copy(5)], 0),
        "return",
    ];
    let g = function("k::g", 1, &[U64, WIDE, WIDE, &shared(WIDE), SOUND, &shared(SOUND)], &seq(&body));
    let f = function("k::f", 1, &[U64, U64, WIDE], &seq(&[&call("k::g", &[copy(2)], 0), "return"]));
    let text = c("uint64_t f(uint64_t n);", &[reader, method, g, f]).unwrap();
    assert!(text.contains("    result = k_r(a1->f2);\n"), "{text}");
    assert!(text.contains("    v3 = a1;\n    v4 = (k_Sound){7, v3};\n    v5 = &v4;\n    result = k_m(v5);\n"), "{text}");
    assert!(text.contains("    result = k_g(&v2);\n"), "{text}");
}

fn word_behind(local: usize) -> String {
    format!("(assign {} (rvOpd (int 64 1)))", behind(local, U64, &[]))
}

const AGAINST: &str = "a pointer of a shared reference to write by";

#[test]
fn a_write_where_a_shared_reference_leads_is_refused() {
    let reference = shared(U64);
    refuses(&[&reference], &word_behind(2), AGAINST);
    let of = |value: &str| assign(3, value);
    for plain in [format!("(rvOpd {})", copy(2)), format!("(op2 offset {} (int 64 8))", copy(2)), address(&behind(2, U64, &[]))] {
        refuses(&[&reference, "tyPtr"], &seq(&[&of(&plain), &word_behind(3)]), AGAINST);
        refuses(&[&reference, &mutable(U64)], &of(&plain), AGAINST);
        let read = assign(1, &format!("(rvOpd {})", operand(&behind(3, U64, &[]))));
        assert!(body(&[&reference, "tyPtr"], &seq(&[&of(&plain), &read, "return"])).is_ok());
    }
    let behind_two =
        format!("(assign (place 2 (lcons (deref {VIEW}) (lcons (field 0) (lcons (deref {U64}) lnil)))) (rvOpd (int 64 1)))");
    refuses(&[&shared(VIEW)], &behind_two, AGAINST);
    assert!(body(&[&mutable(VIEW)], &seq(&[&behind_two, "return"])).is_ok());
}

#[test]
fn a_pointer_of_a_shared_reference_goes_to_calls_that_only_read_by_it() {
    let with = |g: &str| {
        let plain = assign(3, &format!("(rvOpd {})", copy(2)));
        let f = seq(&[&plain, &call("k::g", &[copy(3)], 1), "return"]);
        let functions = [function("k::g", 1, &[U64, "tyPtr"], g), function("k::f", 1, &[U64, U64, &shared(U64), "tyPtr"], &f)];
        c("uint64_t f(uint64_t n);", &functions)
    };
    let read = assign(0, &format!("(rvOpd {})", operand(&behind(1, U64, &[]))));
    assert!(with(&seq(&[&read, "return"])).is_ok());
    assert!(with(&seq(&[&word_behind(1), "return"])).unwrap_err().contains(AGAINST));
}
