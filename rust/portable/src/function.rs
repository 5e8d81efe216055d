//! One function: its head, its locals and what an exported one does with C's parameters.
use crate::body::Writer;
use crate::header::{Param, Prototype};
use crate::mir::{Function, Ty};
use crate::names::{free, Names};
use crate::types::Types;
use crate::uses::{passing, Passing, Uses};
use crate::Refused;
use std::collections::BTreeMap;

type Made<T> = Result<T, Refused>;

/// Structs of more bytes than this are lent where they are only read.
const SMALL: u64 = 32;

/// A function as its callers see it, with what is needed to write it.
pub struct Callee<'a> {
    pub function: &'a Function,
    pub name: String,
    pub exported: Option<&'a Prototype>,
    pub uses: Uses<'a>,
    /// How each local is held: parameters as they are handed over, all others as values.
    pub passing: Vec<Passing>,
}

pub type Callees<'a> = BTreeMap<String, Callee<'a>>;

pub fn callee<'a>(function: &'a Function, exported: Option<&'a Prototype>, types: &Types<'a>) -> Made<Callee<'a>> {
    let uses = Uses::of(function, types.shapes);
    let last = function.symbol.rsplit("::").next().unwrap_or_default();
    let name = if exported.is_some() { last.to_string() } else { function.symbol.replace("::", "_") };
    if function.params >= function.locals.len() || (exported.is_some() && gives_array(function)) {
        return Err(Refused::new("parameters or result", &function.symbol));
    }
    let mut held = vec![Passing::Value; function.locals.len()];
    for local in (1..=function.params).filter(|_| exported.is_none()) {
        let ty = &function.locals[local].ty;
        let is_large = matches!(ty, Ty::Named(_)) && types.bytes(ty) > SMALL;
        held[local] = passing(ty, local, &uses, is_large);
    }
    Ok(Callee { function, name, exported, uses, passing: held })
}

/// C returns no array: one goes to where a first parameter leads, when all else is done.
pub fn gives_array(function: &Function) -> bool {
    matches!(function.locals[0].ty, Ty::Array(..))
}

/// The names of all locals. Behind the parameters stand copies of those whose address is taken, then the source's lets in its sequence.
pub fn local_names(callee: &Callee, names: &Names) -> Vec<String> {
    let function = callee.function;
    let code = names.function(&function.symbol, function.params);
    let mut all = vec!["result".to_string()];
    for i in 1..=function.params {
        let name = code.map_or_else(|| format!("a{i}"), |code| code.params[i - 1].clone());
        all.push(free(&name, &all));
    }
    let mut next = function.params + 1;
    for from in copied_params(function) {
        all.push(free(&format!("{}_kept", all[from]), &all));
        next += 1;
    }
    let lets = code.map_or(&[][..], |code| &code.lets);
    let range = next..next + lets.len();
    let firsts = callee.uses.firsts.iter().filter(|local| range.contains(local));
    if firsts.copied().eq(range.clone()) {
        for name in lets {
            all.push(free(name, &all));
        }
    }
    (all.len()..function.locals.len()).for_each(|i| all.push(format!("v{i}")));
    all
}

/// The parameters that the body first of all copies to the locals behind them, one after the other.
fn copied_params(function: &Function) -> Vec<usize> {
    use crate::mir::{Body, Operand, Value};
    let Body::Seq(parts) = &function.body else { return Vec::new() };
    let mut from = Vec::new();
    for part in parts {
        match part {
            Body::Assign(to, Value::Operand(Operand::Copy(place)))
                if to.local == function.params + 1 + from.len()
                    && function.locals[to.local].in_memory
                    && to.steps.is_empty()
                    && place.steps.is_empty()
                    && (1..=function.params).contains(&place.local) =>
            {
                from.push(place.local);
            }
            _ => break,
        }
    }
    from
}

/// The crates whose functions are the steps of a join's descent. They take a dozen arguments and answer with four words, so that where one is not compiled into the
/// descent the call costs more than the step.
const STEPS: [&str; 5] = ["join_depths::", "join_openings::", "leapfrog_join::", "leapfrog_search::", "stretches::"];

/// What a plain join never reaches of them.
const SELDOM: [&str; 3] = ["stretches::go_on", "stretches::refill", "stretches::take_stretch"];

/// How compilers are to take a function that is not exported. All are `inline`: gcc at -O2 would else not see the sort's rows of two words as such, and take twice
/// the time. STEP and SELDOM are the file's own words for more than that.
fn taken(symbol: &str) -> &'static str {
    if SELDOM.contains(&symbol) {
        "SELDOM"
    } else if STEPS.iter().any(|name| symbol.starts_with(name)) {
        "STEP"
    } else {
        "static inline"
    }
}

/// The function's head.
pub fn head(callee: &Callee, names: &[String], types: &mut Types) -> Made<String> {
    if let Some(call) = callee.exported {
        let params: Vec<String> = call.params.iter().map(declared).collect();
        return Ok(format!("{} {}({})", call.result, callee.name, params.join(", ")));
    }
    let result = &callee.function.locals[0].ty;
    let mut params = Vec::new();
    if gives_array(callee.function) {
        params.push(format!("{} *result_to", types.c(result)?));
    }
    for (i, name) in names.iter().enumerate().take(callee.function.params + 1).skip(1) {
        let ty = &callee.function.locals[i].ty;
        if *ty == Ty::Unit {
            continue;
        }
        params.push(match callee.passing[i] {
            Passing::Value => types.declare(ty, name)?,
            Passing::Lent => format!("const {} *{name}", types.c(ty)?),
            Passing::Copied => format!("const {} *{name}_given", types.c(ty)?),
        });
    }
    let params = if params.is_empty() { "void".to_string() } else { params.join(", ") };
    let result = if gives_array(callee.function) { &Ty::Unit } else { result };
    Ok(format!("{} {}({params})", taken(&callee.function.symbol), types.declare(result, &callee.name)?))
}

fn declared(param: &Param) -> String {
    format!("{}{}{}", param.kind, if param.kind.ends_with('*') { "" } else { " " }, param.name)
}

/// The lines that make MIR's parameters of C's, in an exported function, with the names that MIR's then have. Here the header's types name the MIR's.
pub fn enter(callee: &Callee, call: &Prototype, names: &mut [String], types: &mut Types) -> Made<Vec<String>> {
    let function = callee.function;
    let differs = || Refused::new("the header's parameters are not the MIR's", &function.symbol);
    types.meet(&call.result, None, &function.locals[0].ty)?;
    let (mut rest, mut lines) = (call.params.iter(), Vec::new());
    for (i, local) in names.iter_mut().enumerate().take(function.params + 1).skip(1) {
        let ty = &function.locals[i].ty;
        let Param { kind, name } = rest.next().ok_or_else(differs)?;
        *local = name.clone();
        if let Ty::Slice { mutable, of } = ty {
            let count = rest.next().filter(|count| count.kind == "uint64_t").ok_or_else(differs)?;
            if *kind != types.c(&Ty::Ref { mutable: *mutable, to: of.clone() })? {
                return Err(differs());
            }
            *local += "_list";
            lines.push(format!("{} {local} = {{{name}, {}}};", types.c(ty)?, count.name));
            continue;
        }
        types.meet(kind, None, ty)?;
        if kind == "int64_t" {
            *local += "_bits";
            lines.push(format!("uint64_t {local} = (uint64_t){name};"));
        }
    }
    if rest.next().is_some() {
        Err(differs())
    } else {
        Ok(lines)
    }
}

/// The whole function. Its entry has been made by `enter`.
pub fn text<'a>(
    callee: &Callee<'a>,
    entry: &[String],
    names: &[String],
    types: &mut Types<'a>,
    callees: &Callees<'a>,
) -> Made<String> {
    let mut writer = Writer::new(callee, names, types, callees);
    writer.run(&callee.function.body)?;
    let (body, mentioned, read) = writer.done();
    let mut lines: Vec<String> = entry.iter().map(|line| format!("    {line}")).collect();
    lines.extend(declarations(callee, names, &mentioned, types)?);
    let unread: Vec<String> = (0..names.len())
        .filter(|&i| callee.function.locals[i].ty != Ty::Unit && !read[i])
        .filter(|&i| mentioned[i] || (1..=callee.function.params).contains(&i))
        .map(|i| format!("(void){};", names[i]))
        .collect();
    if !unread.is_empty() {
        lines.push(format!("    {}", unread.join(" ")));
    }
    lines.extend(body);
    Ok(format!("{}\n{{\n{}\n}}\n", head(callee, names, types)?, lines.join("\n")))
}

/// The locals that are no parameters, those of one type in one line, and the copies of arrays that were handed over.
fn declarations(callee: &Callee, names: &[String], mentioned: &[bool], types: &mut Types) -> Made<Vec<String>> {
    let function = callee.function;
    let mut groups: Vec<(String, Vec<String>)> = Vec::new();
    for (i, local) in function.locals.iter().enumerate() {
        if local.ty == Ty::Unit || !mentioned[i] || (1..=function.params).contains(&i) {
            continue;
        }
        let kind = types.c(&local.ty)?;
        let array = if let Ty::Array(_, count) = local.ty { format!("[{count}]") } else { String::new() };
        let declared = format!("{}{array}", names[i]);
        match groups.iter_mut().find(|(other, _)| *other == kind) {
            Some((_, group)) => group.push(declared),
            None => groups.push((kind, vec![declared])),
        }
    }
    let mut lines = Vec::new();
    for (kind, group) in groups {
        let (gap, between) = if kind.ends_with('*') { ("", ", *") } else { (" ", ", ") };
        lines.push(format!("    {kind}{gap}{};", group.join(between)));
    }
    for i in (1..=function.params).filter(|&i| callee.passing[i] == Passing::Copied) {
        lines.push(format!("    {};", types.declare(&function.locals[i].ty, &names[i])?));
        lines.push(format!("    memmove({0}, {0}_given, sizeof {0});", names[i]));
    }
    Ok(lines)
}
