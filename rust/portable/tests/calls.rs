//! How arguments are handed over.
mod common;
use common::*;

/// The C of `f` over Wide, whose locals from 2 and body are given, beside a function `g` of one Wide.
fn with_wide(locals: &[&str], body: &str, g: &str) -> String {
    let mut all = vec![U64, U64];
    all.extend(locals);
    let functions = [function("k::g", 1, &[U64, WIDE], g), function("k::f", 1, &all, body)];
    c("uint64_t f(uint64_t n);", &functions).unwrap()
}

fn writes() -> String {
    seq(&["(assign (place 1 (lcons (field 0) lnil)) (rvOpd (int 64 1)))", &reads()])
}

#[test]
fn a_struct_that_is_only_read_is_lent() {
    let text = with_wide(&[WIDE], &seq(&[&call("k::g", &[copy(2)], 0), "return"]), &reads());
    assert!(text.contains("static inline uint64_t k_g(const k_Wide *a1)"), "{text}");
    assert!(text.contains("result = a1->f1;"), "{text}");
    assert!(text.contains("result = k_g(&v2);"), "{text}");
}

#[test]
fn a_struct_that_is_written_is_copied() {
    let text = with_wide(&[WIDE], &seq(&[&call("k::g", &[copy(2)], 0), "return"]), &writes());
    assert!(text.contains("static inline uint64_t k_g(k_Wide a1)"), "{text}");
    assert!(text.contains("result = k_g(v2);"), "{text}");
}

/// Takes the address of local 2, a Wide, in local 3, and then writes through it.
fn changes_by_pointer() -> String {
    let address = assign(3, &format!("(addrOf {})", at(2)));
    seq(&[&address, "(assign (place 3 (lcons (deref (tyInt 64)) lnil)) (rvOpd (int 64 1)))"])
}

/// The C of `f`, which hands its local 2, a Wide, and a pointer to a function that only reads the Wide.
fn with_pointer(before: &str) -> String {
    let body = seq(&[before, &call("k::g", &[copy(2), copy(3)], 0), "return"]);
    let functions =
        [function("k::g", 2, &[U64, WIDE, "tyPtr"], &reads()), function("k::f", 1, &[U64, U64, WIDE, "tyPtr", WIDE], &body)];
    c("uint64_t f(uint64_t n);", &functions).unwrap()
}

#[test]
fn what_another_argument_leads_to_is_copied_before_it_is_lent() {
    let text = with_pointer(&assign(3, &format!("(addrOf {})", at(2))));
    assert!(text.contains("const k_Wide given1 = v2;\n        result = k_g(&given1, v3);"), "{text}");
    let moved = assign(3, &format!("(op2 offset {} (int 64 8))", copy(3)));
    let text = with_pointer(&seq(&[&assign(3, &format!("(addrOf {})", at(2))), &moved]));
    assert!(text.contains("const k_Wide given1 = v2;"), "{text}");
    let text = with_pointer(&assign(3, &format!("(addrOf {})", at(4))));
    assert!(text.contains("result = k_g(&v2, v3);"), "{text}");
}

#[test]
fn a_pointer_that_a_call_gives_leads_where_its_arguments_do() {
    let passes = function("k::h", 1, &["tyPtr", "tyPtr"], &seq(&[&assign(0, &format!("(rvOpd {})", copy(1))), "return"]));
    let takes = function("k::g", 2, &[U64, WIDE, "tyPtr"], &reads());
    let with = |pointed: usize| {
        let address = assign(3, &format!("(addrOf {})", at(pointed)));
        let body = seq(&[&address, &call("k::h", &[copy(3)], 4), &call("k::g", &[copy(2), copy(4)], 0), "return"]);
        let f = function("k::f", 1, &[U64, U64, WIDE, "tyPtr", "tyPtr", WIDE], &body);
        c("uint64_t f(uint64_t n);", &[passes.clone(), takes.clone(), f]).unwrap()
    };
    assert!(with(2).contains("const k_Wide given1 = v2;\n        result = k_g(&given1, v4);"), "{}", with(2));
    assert!(with(5).contains("result = k_g(&v2, v4);"), "{}", with(5));
}

#[test]
fn a_pointer_behind_a_pointer_leads_where_both_do() {
    let takes = function("k::g", 2, &[U64, WIDE, &format!("(tyRef erased mut {VIEW})")], &reads());
    let with = |pointed: usize| {
        let word = assign(3, &format!("(addrOf (place {pointed} (lcons (field 0) lnil)))"));
        let view = assign(4, &format!("(aggregate (lcons {} lnil))", copy(3)));
        let lent = assign(5, &format!("(addrOf {})", at(4)));
        let body = seq(&[&word, &view, &lent, &call("k::g", &[copy(2), copy(5)], 0), "return"]);
        let locals = [U64, U64, WIDE, "(tyRef erased mut (tyInt 64))", VIEW, &format!("(tyRef erased mut {VIEW})"), WIDE];
        c("uint64_t f(uint64_t n);", &[takes.clone(), function("k::f", 1, &locals, &body)]).unwrap()
    };
    assert!(with(2).contains("const k_Wide given1 = v2;\n        result = k_g(&given1, v5);"), "{}", with(2));
    assert!(with(6).contains("result = k_g(&v2, v5);"), "{}", with(6));
}

#[test]
fn what_there_is_nothing_of_is_not_handed_over() {
    let takes = function("k::g", 2, &[U64, "tyUnit", U64], &seq(&[&assign(0, &format!("(rvOpd {})", copy(2))), "return"]));
    let body = seq(&[&call("k::g", &["unit".to_string(), copy(1)], 0), "return"]);
    let text = c("uint64_t f(uint64_t n);", &[takes, function("k::f", 1, &[U64, U64], &body)]).unwrap();
    assert!(text.contains("uint64_t k_g(uint64_t a2)"), "{text}");
    assert!(text.contains("result = k_g(n);"), "{text}");
}

/// The C of `f`, which copies its local 2, a Wide, to local 3 and hands that on, with a statement between.
fn with_copy(between: &str) -> String {
    let copied = assign(3, &format!("(rvOpd {})", copy(2)));
    with_wide(&[WIDE, WIDE, U64], &seq(&[&copied, between, &call("k::g", &[copy(3)], 0), "return"]), &reads())
}

#[test]
fn a_copy_for_a_call_that_only_reads_it_is_left_out() {
    let text = with_copy(&assign(4, "(rvOpd (int 64 1))"));
    assert!(text.contains("result = k_g(&v2);") && !text.contains("v3"), "{text}");
}

#[test]
fn a_copy_stays_where_the_original_may_change_before_the_call_or_it_is_read_again() {
    for between in [
        "(assign (place 2 (lcons (field 0) lnil)) (rvOpd (int 64 1)))".to_string(),
        assign(4, "(rvOpd (copy (place 3 (lcons (field 0) lnil))))"),
        call("k::g", &[copy(2)], 2).replace("(place 2 lnil))", "(place 4 lnil))").replace("copy (place 4", "copy (place 2"),
        "(if true skip skip)".to_string(),
    ] {
        let text = with_copy(&between);
        assert!(text.contains("v3 = v2;") && text.contains("result = k_g(&v3);"), "{text}");
    }
}

#[test]
fn what_is_made_to_be_copied_once_is_made_where_the_copy_would_be() {
    let copied = |to: usize, from: usize| assign(to, &format!("(rvOpd {})", copy(from)));
    let view = assign(4, &format!("(addrOf {})", at(3)));
    let made = assign(2, &format!("(aggregate (lcons {} (lcons {} lnil)))", copy(1), copy(5)));
    let with = |parts: &[&str]| with_wide(&[WIDE, WIDE, "tyPtr", LIST, WIDE], &seq(&[parts, &["return"]].concat()), &reads());
    let text = with(&[&made, &copied(3, 2), &view]);
    assert!(text.contains("v3.f1 = n;\n    memmove(v3.f2, v5, sizeof v3.f2);\n    v4 = &v3;") && !text.contains("v2"), "{text}");
    let text = with(&[&made, &copied(3, 2), &copied(2, 6), &call("k::g", &[copy(2)], 0)]);
    assert!(text.contains("v3.f1 = n;") && text.contains("result = k_g(&v6);") && !text.contains("v2"), "{text}");
    let read_again = assign(0, "(rvOpd (copy (place 2 (lcons (field 0) lnil))))");
    for parts in [[&copied(3, 2), &read_again], [&assign(0, "(rvOpd (int 64 1))"), &copied(3, 2)]] {
        let text = with(&[&made, parts[0], parts[1]]);
        assert!(text.contains("v2.f1 = n;") && text.contains("v3 = v2;"), "{text}");
    }
}

#[test]
fn what_every_return_gives_back_is_the_result() {
    let with = |parts: &[&str]| {
        let g = function("k::g", 1, &[LIST, U64, LIST, LIST], &seq(parts));
        let f = function("k::f", 1, &[U64, U64, LIST], &seq(&[&call("k::g", &[copy(1)], 2), "return"]));
        c("uint64_t f(uint64_t n);", &[g, f]).unwrap()
    };
    let made = |local: usize| assign(local, &format!("(repeat {} 8)", copy(1)));
    let gives = |local: usize| seq(&[&assign(0, &format!("(rvOpd {})", copy(local))), "return"]);
    let early = format!("(if true {} skip)", gives(2));
    let text = with(&[&made(2), &early, &gives(2)]);
    assert!(text.contains("memmove(result_to, v2, sizeof v2);") && !text.contains("result[8]"), "{text}");
    for (parts, of) in [
        (vec![made(2), made(3), early, gives(3)], "v3"),
        (vec![made(2), gives(2).replace("return", &made(2)), "return".to_string()], "v2"),
    ] {
        let text = with(&parts.iter().map(String::as_str).collect::<Vec<_>>());
        assert!(text.contains(&format!("memmove(result, {of}, sizeof(uint64_t[8]));")), "{text}");
    }
}

#[test]
fn a_call_answers_where_its_answer_would_be_copied() {
    let g = seq(&[&assign(0, "(repeat (int 64 3) 8)"), "return"]);
    let copied = assign(3, &format!("(rvOpd {})", copy(2)));
    let body = seq(&[&call("k::g", &[copy(1)], 2), &copied, "return"]);
    let functions = [function("k::g", 1, &[LIST, U64], &g), function("k::f", 1, &[U64, U64, LIST, LIST], &body)];
    let text = c("uint64_t f(uint64_t n);", &functions).unwrap();
    assert!(text.contains("    k_g(v3, n);\n") && !text.contains("v2"), "{text}");
}

#[test]
fn what_a_pointer_only_reads_is_lent() {
    let address = assign(3, &format!("(addrOf {})", at(2)));
    let text = with_wide(&[WIDE, "tyPtr"], &seq(&[&address, &call("k::g", &[copy(2)], 0), "return"]), &reads());
    assert!(text.contains("result = k_g(&v2);"), "{text}");
}

/// The C of `g` over a Wide that it copies to local 2, with a pointer in local 3, whose body behind the copy is given.
fn copying(rest: &str) -> String {
    let body = seq(&[&assign(2, &format!("(rvOpd {})", copy(1))), rest, "return"]);
    let functions = [
        function("k::g", 1, &[U64, WIDE, WIDE, "tyPtr"], &body),
        function("k::f", 1, &[U64, U64, WIDE], &seq(&[&call("k::g", &[copy(2)], 0), "return"])),
    ];
    c("uint64_t f(uint64_t n);", &functions).unwrap()
}

#[test]
fn a_copy_of_a_parameter_that_never_changes_is_the_parameter() {
    let text = copying(&assign(0, "(rvOpd (copy (place 2 (lcons (field 0) lnil))))"));
    assert!(text.contains("result = a1->f1;") && !text.contains("v2 = *a1;"), "{text}");
    let text = copying(&assign(3, "(addrOf (place 2 (lcons (field 1) lnil)))"));
    assert!(text.contains("v3 = (void *)a1->f2;"), "{text}");
}

#[test]
fn a_copy_that_changes_is_one() {
    let text = copying("(assign (place 2 (lcons (field 0) lnil)) (rvOpd (int 64 1)))");
    assert!(text.contains("v2 = *a1;"), "{text}");
    let text = copying(&changes_by_pointer());
    assert!(text.contains("v2 = *a1;"), "{text}");
    let steps = assign(3, &format!("(op2 offset {} (int 64 8))", copy(3)));
    let text = copying(&seq(&[&changes_by_pointer(), &steps]));
    assert!(text.contains("v2 = *a1;"), "{text}");
}

#[test]
fn a_copy_whose_address_goes_to_a_call_is_one() {
    let takes = function("k::h", 1, &["tyUnit", "tyPtr"], "return");
    let body = seq(&[
        &assign(2, &format!("(rvOpd {})", copy(1))),
        &assign(3, &format!("(addrOf {})", at(2))),
        &call("k::h", &[copy(3)], 4),
        "return",
    ]);
    let g = function("k::g", 1, &[U64, WIDE, WIDE, "tyPtr", "tyUnit"], &body);
    let f = function("k::f", 1, &[U64, U64, WIDE], &seq(&[&call("k::g", &[copy(2)], 0), "return"]));
    let text = c("uint64_t f(uint64_t n);", &[takes, g, f]).unwrap();
    assert!(text.contains("v2 = *a1;"), "{text}");
}

#[test]
fn what_was_lent_is_lent_on() {
    let onward = seq(&[&call("k::h", &[copy(1)], 0), "return"]);
    let functions = [
        function("k::h", 1, &[U64, WIDE], &reads()),
        function("k::g", 1, &[U64, WIDE], &onward),
        function("k::f", 1, &[U64, U64, WIDE], &seq(&[&call("k::g", &[copy(2)], 0), "return"])),
    ];
    let text = c("uint64_t f(uint64_t n);", &functions).unwrap();
    assert!(text.contains("result = k_h(a1);"), "{text}");
}

#[test]
fn an_array_that_is_written_is_copied_at_once() {
    let write = assign(1, "(repeat (int 64 3) 8)");
    let functions = [
        function("k::g", 1, &[U64, LIST], &seq(&[&write, &assign(0, "(rvOpd (int 64 0))"), "return"])),
        function("k::f", 1, &[U64, U64, LIST], &seq(&[&call("k::g", &[copy(2)], 0), "return"])),
    ];
    let text = c("uint64_t f(uint64_t n);", &functions).unwrap();
    assert!(text.contains("k_g(const uint64_t *a1_given)\n{\n"), "{text}");
    assert!(text.contains("memmove(a1, a1_given, sizeof a1);"), "{text}");
}

#[test]
fn what_is_not_reached_is_left_out() {
    let text = with_wide(&[], "return", &reads());
    assert!(!text.contains("k_g"), "{text}");
}

#[test]
fn a_call_without_a_result() {
    let functions = [
        function("k::g", 1, &["tyUnit", U64], "return"),
        function("k::f", 1, &[U64, U64, "tyUnit"], &seq(&[&call("k::g", &[copy(1)], 2), "return"])),
    ];
    let text = c("uint64_t f(uint64_t n);", &functions).unwrap();
    assert!(text.contains("static inline void k_g(uint64_t a1)"), "{text}");
    assert!(text.contains("    k_g(n);"), "{text}");
}

/// The C of `f`, which hands its n to `g`, whose eight words go to the place given.
fn with_array(place: &str) -> String {
    let g = seq(&[&assign(0, "(repeat (int 64 3) 8)"), "return"]);
    let call = call("k::g", &[copy(1)], 2).replace(&at(2), place);
    let functions =
        [function("k::g", 1, &[LIST, U64], &g), function("k::f", 1, &[U64, U64, LIST, WIDE], &seq(&[&call, "return"]))];
    c("uint64_t f(uint64_t n);", &functions).unwrap()
}

#[test]
fn an_array_is_given_back_through_a_pointer_and_last_of_all() {
    let text = with_array(&at(2));
    assert!(text.contains("static inline void k_g(uint64_t *result_to, uint64_t a1)\n{\n    uint64_t result[8];\n"), "{text}");
    assert!(text.contains("result[each] = 3;\n    memmove(result_to, result, sizeof result);\n    return;\n"), "{text}");
    assert!(text.contains("    k_g(v2, n);\n"), "{text}");
    let text = with_array("(place 3 (lcons (field 1) lnil))");
    assert!(text.contains("    k_g(v3.f2, n);\n"), "{text}");
}

#[test]
fn an_exported_function_gives_back_no_array() {
    let why = c("uint64_t f(uint64_t n);", &[function("k::f", 1, &[LIST, U64], "return")]).unwrap_err();
    assert!(why.contains("parameters or result"), "{why}");
}
