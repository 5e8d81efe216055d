//! The whole file: what is exported and what that reaches, types, prototypes, functions.
use crate::function::{callee, enter, head, local_names, text, Callee, Callees};
use crate::header::{self, Header};
use crate::mir::{self, Program};
use crate::names::Names;
use crate::shared::{only_read, Readers};
use crate::types::Types;
use crate::uses::Uses;
use crate::Refused;
use std::collections::{BTreeMap, BTreeSet};

type Made<T> = Result<T, Refused>;

/// What a join that goes on after a row needs, as portable/test measures it.
const STACK: &str = "18 KB";

const HELPERS: &str = "
/* The steps of a join's descent, which are to be compiled into it, and what a plain join never reaches of them; not where code is to be small. */
#if defined(__GNUC__) && !defined(__OPTIMIZE_SIZE__)
#define STEP static inline __attribute__((always_inline))
#define SELDOM static __attribute__((noinline, cold))
#else
#define STEP static inline
#define SELDOM static inline
#endif

/* The place so many bytes behind p, which may be null where that is none. */
static inline void *offset(const void *p, uint64_t bytes)
{
    return bytes == 0 ? (void *)p : (void *)((const unsigned char *)p + (size_t)bytes);
}

static inline int64_t signed_of(uint64_t bits)
{
    int64_t number;
    memmove(&number, &bits, sizeof number);
    return number;
}
";

/// The C file of a MIR text, with the header's functions.
pub fn translate(mir: &str, header: &str, names: &Names) -> Made<String> {
    let program = mir::read(mir)?;
    let header = header::read(header)?;
    let mut types = Types::new(&program.shapes, &header, names);
    let callees = callees(&program, &header, &types)?;
    let ordered: Vec<&Callee> = program.functions.iter().filter_map(|function| callees.get(&function.symbol)).collect();
    // The header's types name the MIR's before any function is written.
    let mut written = Vec::new();
    for callee in &ordered {
        let mut locals = local_names(callee, names);
        let entry = callee.exported.map_or(Ok(Vec::new()), |call| enter(callee, call, &mut locals, &mut types))?;
        written.push((callee, locals, entry));
    }
    let (mut heads, mut texts, mut defined, mut done) = (Vec::new(), Vec::new(), Vec::new(), BTreeSet::new());
    for (callee, locals, entry) in &written {
        if callee.exported.is_none() {
            heads.push(head(callee, locals, &mut types)? + ";");
        }
        texts.push(text(callee, entry, locals, &mut types, &callees)?);
        for local in &callee.function.locals {
            types.define(&local.ty, &mut done, &mut defined)?;
        }
    }
    let sizes = "/* Offsets count bytes: these sizes must be the same on every machine. */".to_string();
    let parts = [
        vec![preamble(mir, ordered.len())],
        defined,
        vec![sizes],
        types.size_assertions()?,
        vec![HELPERS.to_string()],
        heads,
        vec![String::new()],
        texts,
    ];
    Ok(parts.concat().join("\n"))
}

/// What is exported and all that it reaches, by symbol.
fn callees<'a>(program: &'a Program, header: &'a Header, types: &Types<'a>) -> Made<Callees<'a>> {
    let exported = exported(program, header)?;
    let kept = reached(program, &exported)?;
    let (mut callees, mut readers) = (Callees::new(), Readers::new());
    for function in program.functions.iter().filter(|function| kept.contains(&function.symbol)) {
        only_read(function, &program.shapes, &mut readers)?;
        let call = exported.get(&function.symbol).and_then(|name| header.calls.get(name));
        callees.insert(function.symbol.clone(), callee(function, call, types)?);
    }
    distinct(&callees)?;
    Ok(callees)
}

fn preamble(mir: &str, functions: usize) -> String {
    let checksum = mir.bytes().fold(0xcbf2_9ce4_8422_2325_u64, |sum, byte| (sum ^ u64::from(byte)).wrapping_mul(0x100_0000_01b3));
    let text = include_str!("preamble.txt")
        .replace("{checksum}", &format!("{checksum:016x}"))
        .replace("{bytes}", &mir.len().to_string())
        .replace("{functions}", &functions.to_string())
        .replace("{stack}", STACK);
    format!("{text}#include \"ducatbriar.h\"\n#include <stddef.h>\n#include <string.h>\n")
}

/// The functions that the header declares, by symbol: each prototype is the one function whose last name it is.
fn exported(program: &Program, header: &Header) -> Made<BTreeMap<String, String>> {
    let mut exported = BTreeMap::new();
    for name in header.calls.keys() {
        let mut named = program.functions.iter().filter(|f| f.symbol.rsplit("::").next() == Some(name));
        match (named.next(), named.next()) {
            (Some(function), None) => exported.insert(function.symbol.clone(), name.clone()),
            _ => return Err(Refused::new("prototype that is no function of the MIR, or several", name)),
        };
    }
    Ok(exported)
}

fn reached(program: &Program, exported: &BTreeMap<String, String>) -> Made<BTreeSet<String>> {
    let mut kept = BTreeSet::new();
    let mut todo: Vec<String> = exported.keys().cloned().collect();
    while let Some(symbol) = todo.pop() {
        let function = program.functions.iter().find(|function| function.symbol == symbol);
        let function = function.ok_or_else(|| Refused::new("call of", &symbol))?;
        if kept.insert(symbol) {
            todo.extend(Uses::of(function, &program.shapes).calls);
        }
    }
    Ok(kept)
}

fn distinct(callees: &Callees) -> Made<()> {
    let mut names = BTreeSet::new();
    match callees.values().find(|callee| !names.insert(&callee.name)) {
        Some(callee) => Err(Refused::new("two functions of one name", &callee.name)),
        None => Ok(()),
    }
}
