//! Each form of MIR, as the C that it becomes.
mod common;
use common::*;

#[test]
fn operations_on_words() {
    for (op, sign) in [("add", "+"), ("sub", "-"), ("mul", "*"), ("div", "/"), ("rem", "%")] {
        let value = format!("(op2 ({op} unsigned) {} {})", copy(1), copy(2));
        holds(&[U64], &assign(2, &value), &format!("v2 = n {sign} v2;"));
    }
    holds(&[U64], &assign(2, "(op2 (add unsigned) (int 64 1) (int 64 2))"), "v2 = (uint64_t)1 + 2;");
    holds(&[U64], &assign(2, &format!("(op2 (sub signed) (int 64 0) {})", copy(1))), "v2 = 0 - n;");
}

#[test]
fn operations_on_bytes_are_cut() {
    let value = format!("(op2 (mul unsigned) {} (int 8 200))", copy(2));
    holds(&[U8], &assign(2, &value), "v2 = (uint8_t)((uint64_t)v2 * 200);");
}

#[test]
fn comparisons() {
    let compare = |op: &str| assign(2, &format!("(op2 {op} {} (int 64 7))", copy(1)));
    holds(&[BOOL], &compare("eq"), "v2 = n == 7;");
    holds(&[BOOL], &compare("ne"), "v2 = n != 7;");
    holds(&[BOOL], &compare("(lt unsigned)"), "v2 = n < 7;");
    holds(&[BOOL], &compare("(le unsigned)"), "v2 = n <= 7;");
    holds(&[BOOL], &compare("(lt signed)"), "v2 = (n ^ UINT64_C(9223372036854775808)) < (7 ^ UINT64_C(9223372036854775808));");
    holds(&[BOOL], &compare("(le signed)"), "v2 = (n ^ UINT64_C(9223372036854775808)) <= (7 ^ UINT64_C(9223372036854775808));");
    let bytes = assign(3, &format!("(op2 (lt signed) {0} {0})", copy(2)));
    holds(&[U8, BOOL], &bytes, "v3 = (v2 ^ UINT64_C(128)) < (v2 ^ UINT64_C(128));");
    holds(&[BOOL], &assign(2, &format!("(op2 eq {} true)", copy(2))), "v2 = v2 == true;");
}

#[test]
fn operations_bit_by_bit() {
    for (op, sign) in [("and", "&"), ("or", "|"), ("xor", "^")] {
        holds(&[U64], &assign(2, &format!("(op2 {op} {} {})", copy(1), copy(2))), &format!("v2 = (uint64_t)(n {sign} v2);"));
        holds(&[U8], &assign(2, &format!("(op2 {op} {} (int 8 7))", copy(2))), &format!("v2 = (uint8_t)(v2 {sign} 7);"));
        holds(&[BOOL], &assign(2, &format!("(op2 {op} {0} {0})", copy(2))), &format!("v2 = (bool)(v2 {sign} v2);"));
    }
}

#[test]
fn not_and_casts() {
    holds(&[BOOL], &assign(2, &format!("(op1 not {})", copy(2))), "v2 = !v2;");
    holds(&[U64], &assign(2, &format!("(op1 (cast signed unsigned 64) {})", copy(1))), "v2 = n;");
    holds(&[U8], &assign(2, &format!("(op1 (cast unsigned unsigned 8) {})", copy(1))), "v2 = (uint8_t)n;");
    holds(&[U8, U64], &assign(3, &format!("(op1 (cast unsigned unsigned 64) {})", copy(2))), "v3 = (uint64_t)v2;");
    holds(&[BOOL, U64], &assign(3, &format!("(op1 (cast unsigned unsigned 64) {})", copy(2))), "v3 = (uint64_t)v2;");
}

#[test]
fn constants() {
    holds(&[U64], &assign(2, "(rvOpd (int 64 32767))"), "v2 = 32767;");
    holds(&[U64], &assign(2, "(rvOpd (int 64 32768))"), "v2 = UINT64_C(32768);");
    holds(&[BOOL], &assign(2, "(rvOpd false)"), "v2 = false;");
    holds(&["tyUnit"], &assign(2, "(rvOpd unit)"), "(void)n;\nreturn result;");
}

#[test]
fn structs() {
    let pair = assign(2, &format!("(aggregate (lcons {} (lcons (int 64 5) lnil)))", copy(1)));
    holds(&[PAIR], &pair, "v2 = (k_Pair){n, 5};");
    holds(&[PAIR], &format!("(assign (place 2 (lcons (field 1) lnil)) (rvOpd {}))", copy(1)), "v2.f2 = n;");
    let wide = assign(2, &format!("(aggregate (lcons {} (lcons {} lnil)))", copy(1), copy(3)));
    holds(&[WIDE, LIST], &wide, "v2.f1 = n;\nmemmove(v2.f2, v3, sizeof v2.f2);");
}

#[test]
fn a_struct_of_its_own_parts_is_made_beside_it() {
    let parts = "(aggregate (lcons (int 64 5) (lcons (copy (place 2 (lcons (field 1) lnil))) lnil)))";
    holds(&[WIDE], &assign(2, parts), "{\nk_Wide made;\nmade.f1 = 5;\nmemmove(made.f2, v2.f2, sizeof made.f2);\nv2 = made;\n}");
}

#[test]
fn arrays() {
    holds(&[LIST], &assign(2, &format!("(repeat {} 8)", copy(1))), "for (int each = 0; each < 8; each++)\nv2[each] = n;");
    holds(&[LIST, LIST], &assign(2, &format!("(rvOpd {})", copy(3))), "memmove(v2, v3, sizeof(uint64_t[8]));");
    let two = "(tyArray (tyInt 8) (lenLit 2))";
    let parts = "(aggregate (lcons (int 8 93) (lcons (int 8 10) lnil)))";
    holds(&[two], &assign(2, parts), "memmove(v2, (uint8_t[2]){93, 10}, sizeof(uint8_t[2]));");
}

#[test]
fn variants() {
    let full = assign(2, &format!("(aggregate (lcons (int 8 0) (lcons {} (lcons true lnil))))", copy(1)));
    holds(&[KIND], &full, "v2 = (k_Kind){.tag = 0, .of.k0 = {n, true}};");
    holds(&[KIND], &assign(2, "(aggregate (lcons (int 8 1) lnil))"), "v2 = (k_Kind){.tag = 1};");
    let field = |n| assign(3, &format!("(rvOpd (copy (place 2 (lcons (variant 0) (lcons (field {n}) lnil)))))"));
    holds(&[KIND, U8], &field(0), "v3 = (uint8_t)v2.tag;");
    holds(&[KIND, U64], &field(1), "v3 = v2.of.k0.f1;");
    holds(&[KIND, BOOL], &field(2), "v3 = v2.of.k0.f2;");
}

#[test]
fn variants_of_structs_of_arrays_and_of_nothing() {
    let of = |tag: usize, part: &str| assign(2, &format!("(aggregate (lcons (int 8 {tag}) (lcons {part} lnil)))"));
    holds(&[FOUND, PAIR], &of(0, &copy(3)), "v2 = (k_Found){.tag = 0, .of.k0 = {v3}};");
    let list = "{\nk_Found made;\nmade.tag = 1;\nmemmove(made.of.k1.f1, v3, sizeof made.of.k1.f1);\nv2 = made;\n}";
    holds(&[FOUND, LIST], &of(1, &copy(3)), list);
    holds(&[FOUND], &of(2, "unit"), "v2 = (k_Found){.tag = 2};");
    let text = body(&[FOUND], &seq(&[&of(2, "unit"), "return"])).unwrap();
    let union = "    union {\n        struct { k_Pair f1; } k0;\n        struct { uint64_t f1[8]; } k1;\n    } of;\n} k_Found;";
    assert!(text.contains(union), "{text}");
    assert!(text.find("} k_Pair;") < text.find("} k_Found;"), "{text}");
}

#[test]
fn what_nothing_is_in() {
    let text = body(&[NONE], &seq(&[&assign(2, "(aggregate (lcons unit lnil))"), "return"])).unwrap();
    assert!(text.contains("typedef struct {\n    unsigned char none;\n} k_None;"), "{text}");
    assert!(text.contains("v2 = (k_None){0};"), "{text}");
    let to_unit = "(tyRef erased mut tyUnit)";
    holds(&["tyUnit", to_unit], &assign(3, &format!("(addrOf {})", at(2))), "v3 = NULL;");
}

#[test]
fn what_is_never_run() {
    let text = body(&[], "unreachable").unwrap();
    assert!(text.contains("    for (;;) {}"), "{text}");
}

#[test]
fn pointers() {
    let reference = "(tyRef erased mut (tyInt 64))";
    let word = "(lcons (deref (tyInt 64)) lnil)";
    holds(&["tyPtr"], &assign(2, &format!("(op2 offset {} (int 64 8))", copy(2))), "v2 = offset(v2, 8);");
    holds(&["tyPtr", U64], &assign(3, &format!("(rvOpd (copy (place 2 {word})))")), "v3 = *(uint64_t *)v2;");
    holds(&[reference], &format!("(assign (place 2 {word}) (rvOpd {}))", copy(1)), "*v2 = n;");
    holds(&[reference, U64], &assign(2, &format!("(addrOf {})", at(3))), "v2 = &v3;");
    holds(&["tyPtr", reference], &assign(3, &format!("(addrOf (place 2 {word}))")), "v3 = v2;");
    holds(&["tyPtr", WIDE], &assign(2, "(addrOf (place 3 (lcons (field 1) lnil)))"), "v2 = v3.f2;");
    let shared = "(tyRef erased imm (tyInt 64))";
    holds(&["tyPtr", shared], &assign(2, &format!("(addrOf (place 3 {word}))")), "v2 = (void *)v3;");
}

#[test]
fn a_part_of_what_is_only_read_is_only_read() {
    let part = format!("(addrOf (place 2 (lcons (deref {WIDE}) (lcons (field 1) lnil))))");
    holds(&[&format!("(tyRef erased imm {WIDE})"), "tyPtr"], &assign(3, &part), "v3 = (void *)v2->f2;");
    holds(&[&format!("(tyRef erased mut {WIDE})"), "tyPtr"], &assign(3, &part), "v3 = v2->f2;");
}

#[test]
fn what_a_pointer_leads_to_has_its_size_asserted() {
    let read = assign(3, &format!("(rvOpd (copy (place 2 (lcons (deref {WIDE}) lnil))))"));
    let text = body(&["tyPtr", WIDE], &seq(&[&read, "return"])).unwrap();
    assert!(text.contains("typedef char size_of_k_Wide[sizeof(k_Wide) == 72 ? 1 : -1];"), "{text}");
}

#[test]
fn offsets_are_not_counted_in_what_has_pointers() {
    let read = |from: &str| {
        body(&[from, VIEW], &seq(&[&assign(3, &format!("(rvOpd (copy (place 2 (lcons (deref {VIEW}) lnil))))")), "return"]))
    };
    assert!(read("tyPtr").unwrap_err().contains("offsets counted in"));
    let text = read(&format!("(tyRef erased imm {VIEW})")).unwrap();
    assert!(!text.contains("size_of_k_View"), "{text}");
}

#[test]
fn slices() {
    let slice = "(tyStruct \"&[]\" (tcons (tyRef erased imm (tyInt 8)) (tcons (tyInt 64) tnil)))";
    let parts = format!("(aggregate (lcons {} (lcons {} lnil)))", copy(3), copy(1));
    let reference = "(tyRef erased imm (tyInt 8))";
    holds(&[slice, reference], &assign(2, &parts), "v2 = (slice_u8){v3, n};");
    holds(&[slice, U64], &assign(3, "(rvOpd (copy (place 2 (lcons (field 1) lnil))))"), "v3 = v2.count;");
}

#[test]
fn branches() {
    let branch = |yes: &str, no: &str| format!("(if {} {yes} {no})", copy(3));
    holds(&[U64, BOOL], &branch(&mark(1), &mark(2)), "if (v3) {\nv2 = 1;\n} else {\nv2 = 2;\n}");
    holds(&[U64, BOOL], &branch("skip", &mark(2)), "if (!v3) {\nv2 = 2;\n}");
    holds(&[U64, BOOL], &branch(&mark(1), "skip"), "if (v3) {\nv2 = 1;\n}\nreturn result;");
}

#[test]
fn switches() {
    let arms = |rest: &str| {
        format!("(switch {} (arm (lcons 0 (lcons 2 lnil)) {} (arm (lcons 1 lnil) {} {rest})))", copy(1), mark(1), mark(2))
    };
    holds(&[U64], &arms("noDefault"), "if (n == 0 || n == 2) {\nv2 = 1;\n} else {\nv2 = 2;\n}");
    let default = arms(&format!("(default {})", mark(3)));
    holds(&[U64], &default, "if (n == 0 || n == 2) {\nv2 = 1;\n} else if (n == 1) {\nv2 = 2;\n} else {\nv2 = 3;\n}");
}

#[test]
fn a_result_with_a_sign_keeps_its_bits() {
    let result = assign(0, &format!("(rvOpd {})", copy(1)));
    let text = c("int64_t f(int64_t n);", &[function("k::f", 1, &[U64, U64], &seq(&[&result, "return"]))]).unwrap();
    assert!(text.contains("uint64_t n_bits = (uint64_t)n;"), "{text}");
    assert!(text.contains("return signed_of(result);"), "{text}");
}

#[test]
fn constant_text() {
    let lent = "(tyRef erased imm (tyArray (tyInt 8) (lenLit 2)))";
    let first = "(tyRef erased imm (tyInt 8))";
    let lend = format!("(lend_static {} (tyArray (tyInt 8) (lenLit 2)) (c_ints 8 (lcons 72 (lcons 105 lnil))))", at(2));
    holds(&[lent], &lend, "{\nstatic const uint8_t lent[2] = {72, 105};\nv2 = lent;\n}");
    let start = "(assign (place 3 lnil) (addrOf (place 2 (lcons (deref (tyInt 8)) lnil))))";
    holds(&[lent, first], &seq(&[&lend, start]), "}\nv3 = v2;");
}

/// A clause may have a name; what stands in its brackets is no code.
#[test]
fn names_of_locals() {
    let function = function("k::f", 1, &[U64, U64, U64], &seq(&[&assign(2, &format!("(rvOpd {})", copy(1))), "return"]));
    for source in [
        "pub fn f(n: u64) -> u64 requires { n < 2 } ensures { result ≡ n } { let mut kept = n; kept }",
        "pub fn f(n: u64) -> u64 requires few { n < 2 } ensures same { result ≡ n } { let mut kept = n; kept }",
    ] {
        let mut names = portable::Names::default();
        names.read("k", source);
        let text = portable::translate(&program(std::slice::from_ref(&function)), "uint64_t f(uint64_t n);", &names).unwrap();
        assert!(text.contains("kept = n;"), "{text}");
    }
}
