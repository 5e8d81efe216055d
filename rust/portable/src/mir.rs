//! The forms of MIR that are translated. The definition is the kit's `Mir/Syntax.antt`, and what they do its `Prog/Machine.antt` and `Prog/Memory.antt`.
//! A constructor that is not here is refused by its name: floats, shifts, bits of integers, addresses as numbers, 128 bits, types that are spelled out.
use crate::form::{self, Form};
use crate::Refused;
use std::collections::{BTreeMap, BTreeSet};

type Read<T> = Result<T, Refused>;

/// The lifetime of a reference is left out: the machine does not read it (`Prog/Erase.antt`).
#[derive(Clone, Debug, PartialEq)]
pub enum Ty {
    Int(u32),
    Bool,
    Unit,
    Ptr,
    Ref {
        mutable: bool,
        to: Box<Ty>,
    },
    Array(Box<Ty>, u64),
    /// The struct `&[]`: a reference to the first element, and their number.
    Slice {
        mutable: bool,
        of: Box<Ty>,
    },
    /// A declared type, by its symbol.
    Named(String),
}

/// A declared type: a struct's fields, or each variant's.
#[derive(Clone, Debug, PartialEq)]
pub enum Shape {
    Fields(Vec<Ty>),
    Variants(Vec<Vec<Ty>>),
}

#[derive(Clone, Debug, PartialEq)]
pub enum Step {
    Deref(Ty),
    Field(usize),
    Variant(usize),
}

#[derive(Clone, Debug, PartialEq)]
pub struct Place {
    pub local: usize,
    pub steps: Vec<Step>,
}

#[derive(Clone, Debug, PartialEq)]
pub enum Operand {
    Copy(Place),
    Int(u32, u64),
    Bool(bool),
    Unit,
}

#[derive(Clone, Copy, Debug, PartialEq)]
pub enum Sign {
    Unsigned,
    Signed,
}

#[derive(Clone, Copy, Debug, PartialEq)]
pub enum Op2 {
    Add,
    Sub,
    Mul,
    /// Of unsigned numbers, as is the remainder.
    Div,
    Rem,
    Eq,
    Ne,
    /// Bit by bit, of numbers, or of yes and no.
    And,
    Or,
    Xor,
    Lt(Sign),
    Le(Sign),
    /// A pointer and a number of bytes.
    Offset,
}

#[derive(Clone, Copy, Debug, PartialEq)]
pub enum Op1 {
    Not,
    Cast(Sign, Sign, u32),
}

#[derive(Clone, Debug, PartialEq)]
pub enum Value {
    Operand(Operand),
    Op2(Op2, Operand, Operand),
    Op1(Op1, Operand),
    AddrOf(Place),
    Aggregate(Vec<Operand>),
    Repeat(Operand, u64),
    /// A reference to a constant list of integers of that width, in memory that is never written.
    Lent(u32, Vec<u64>),
}

#[derive(Clone, Debug, PartialEq)]
pub enum Body {
    Skip,
    Seq(Vec<Body>),
    Assign(Place, Value),
    Block(Box<Body>),
    Loop(Box<Body>),
    If(Operand, Box<Body>, Box<Body>),
    /// Arms with their keys, and what runs where no key fits; without that the last arm takes the rest, since the machine would be stuck.
    Switch(Operand, Vec<(Vec<u64>, Body)>, Option<Box<Body>>),
    Exit(usize),
    Return,
    /// What the proofs say is never run.
    Unreachable,
    Call(String, Vec<Operand>, Place),
}

#[derive(Clone, Debug, PartialEq)]
pub struct Local {
    pub ty: Ty,
    /// Whether it has an address that is taken.
    pub in_memory: bool,
}

#[derive(Clone, Debug, PartialEq)]
pub struct Function {
    pub symbol: String,
    pub params: usize,
    /// The result, the parameters, then the others.
    pub locals: Vec<Local>,
    pub body: Body,
}

#[derive(Clone, Debug)]
pub struct Program {
    pub functions: Vec<Function>,
    pub shapes: BTreeMap<String, Shape>,
}

impl Program {
    /// Puts a function behind the others, or leaves it out where an earlier program had it.
    fn add(&mut self, function: Function) -> Read<()> {
        match self.functions.iter().find(|earlier| earlier.symbol == function.symbol) {
            Some(earlier) if *earlier == function => {}
            Some(_) => return Err(Refused::new("one function, not the same in two programs", &function.symbol)),
            None => self.functions.push(function),
        }
        Ok(())
    }
}

/// The programs that `portable/mir` prints of one crate or, one behind the other, of several, as one program: what several have must be the same in each, and
/// stands where it is first.
pub fn read(text: &str) -> Read<Program> {
    let forms = form::read(text)?;
    if forms.is_empty() {
        return Err(Refused::new("program", text));
    }
    let mut all = Program { functions: Vec::new(), shapes: BTreeMap::new() };
    for program in forms.chunks(3) {
        let mut symbols = BTreeSet::new();
        for form in functions(program)? {
            let function = function(form, &mut all.shapes)?;
            if !symbols.insert(function.symbol.clone()) {
                return Err(Refused::new("two functions of one symbol", &function.symbol));
            }
            all.add(function)?;
        }
    }
    Ok(all)
}

fn functions(program: &[Form]) -> Read<&[Form]> {
    match program {
        [Form::Made(head, none), Form::List(functions), Form::Made(main, _)]
            if head == "program" && none.is_empty() && main == "fnRef" =>
        {
            Ok(functions)
        }
        _ => Err(Refused::new("program", program.first())),
    }
}

fn made<'a>(form: &'a Form, what: &'static str) -> Read<(&'a str, &'a [Form])> {
    match form {
        Form::Made(name, given) => Ok((name, given)),
        other => Err(Refused::new(what, other)),
    }
}

fn list<'a, T>(form: &'a Form, what: &'static str, one: impl FnMut(&'a Form) -> Read<T>) -> Read<Vec<T>> {
    match form {
        Form::List(parts) => parts.iter().map(one).collect(),
        other => Err(Refused::new(what, other)),
    }
}

fn number(form: &Form) -> Read<u64> {
    match form {
        Form::Number(n) => Ok(*n),
        other => Err(Refused::new("number", other)),
    }
}

fn index(form: &Form) -> Read<usize> {
    usize::try_from(number(form)?).map_err(|_| Refused::new("number", form))
}

fn width(form: &Form) -> Read<u32> {
    match form {
        Form::Number(8) => Ok(8),
        Form::Number(16) => Ok(16),
        Form::Number(32) => Ok(32),
        Form::Number(64) => Ok(64),
        other => Err(Refused::new("width", other)),
    }
}

fn sign(form: &Form) -> Read<Sign> {
    match made(form, "sign")? {
        ("unsigned", []) => Ok(Sign::Unsigned),
        ("signed", []) => Ok(Sign::Signed),
        _ => Err(Refused::new("sign", form)),
    }
}

fn function(form: &Form, shapes: &mut BTreeMap<String, Shape>) -> Read<Function> {
    let (symbol, item, declared) = match made(form, "function")? {
        ("fn-def", [Form::Text(symbol), item]) => (symbol, item, None),
        ("fn-def", [Form::Text(symbol), item, declared]) => (symbol, item, Some(declared)),
        _ => return Err(Refused::new("function", form)),
    };
    for (name, shape) in declared.map_or(Ok(Vec::new()), |forms| list(forms, "declared types", shape))? {
        if *shapes.entry(name.clone()).or_insert_with(|| shape.clone()) != shape {
            return Err(Refused::new("two shapes of one type", name));
        }
    }
    match made(item, "function")? {
        ("fnItem", [_, _, params, locals, code]) => Ok(Function {
            symbol: symbol.clone(),
            params: index(params)?,
            locals: list(locals, "locals", local)?,
            body: body(code)?,
        }),
        _ => Err(Refused::new("function", item)),
    }
}

fn shape(form: &Form) -> Read<(String, Shape)> {
    let (name, shape) = match made(form, "declared type")? {
        ("pair", [Form::Text(name), shape]) => (name, shape),
        _ => return Err(Refused::new("declared type", form)),
    };
    match made(shape, "declared type")? {
        ("fields", [fields]) => Ok((name.clone(), Shape::Fields(list(fields, "fields", ty)?))),
        ("variants", [kinds]) => {
            let kinds = list(kinds, "variants", |fields| list(fields, "fields", ty))?;
            Ok((name.clone(), Shape::Variants(kinds)))
        }
        _ => Err(Refused::new("declared type", shape)),
    }
}

fn local(form: &Form) -> Read<Local> {
    match made(form, "local")? {
        ("local", [kind, home]) => {
            let in_memory = match made(home, "home of a local")? {
                ("valueLocal", []) => false,
                ("memorySlot", []) => true,
                _ => return Err(Refused::new("home of a local", home)),
            };
            Ok(Local { ty: ty(kind)?, in_memory })
        }
        _ => Err(Refused::new("local", form)),
    }
}

pub fn ty(form: &Form) -> Read<Ty> {
    match made(form, "type")? {
        ("tyInt", [bits]) => Ok(Ty::Int(width(bits)?)),
        ("tyBool", []) => Ok(Ty::Bool),
        ("tyUnit", []) => Ok(Ty::Unit),
        ("tyPtr", []) => Ok(Ty::Ptr),
        ("tyRef", [_, kind, to]) => Ok(Ty::Ref { mutable: mutability(kind)?, to: Box::new(ty(to)?) }),
        ("tyArray", [of, count]) => match made(count, "length of an array")? {
            ("lenLit", [n]) => Ok(Ty::Array(Box::new(ty(of)?), number(n)?)),
            _ => Err(Refused::new("length of an array", count)),
        },
        ("tyStruct", [Form::Text(name), Form::List(fields)]) if name == "&[]" => match fields.as_slice() {
            [first, count] => slice(ty(first)?, ty(count)?, form),
            _ => Err(Refused::new("slice", form)),
        },
        ("tyNamed", [head]) => match made(head, "type")? {
            ("pair", [Form::Text(name), Form::List(lifetimes)]) if lifetimes.is_empty() => Ok(Ty::Named(name.clone())),
            _ => Err(Refused::new("declared type with lifetimes", head)),
        },
        _ => Err(Refused::new("type", form)),
    }
}

fn slice(first: Ty, count: Ty, form: &Form) -> Read<Ty> {
    match (first, count) {
        (Ty::Ref { mutable, to }, Ty::Int(64)) => Ok(Ty::Slice { mutable, of: to }),
        _ => Err(Refused::new("slice", form)),
    }
}

fn mutability(form: &Form) -> Read<bool> {
    match made(form, "mutability")? {
        ("imm", []) => Ok(false),
        ("mut", []) => Ok(true),
        _ => Err(Refused::new("mutability", form)),
    }
}

pub fn place(form: &Form) -> Read<Place> {
    match made(form, "place")? {
        ("place", [local, steps]) => Ok(Place { local: index(local)?, steps: list(steps, "steps", step)? }),
        _ => Err(Refused::new("place", form)),
    }
}

fn step(form: &Form) -> Read<Step> {
    match made(form, "step")? {
        ("deref", [to]) => Ok(Step::Deref(ty(to)?)),
        ("field", [n]) => Ok(Step::Field(index(n)?)),
        ("variant", [n]) => Ok(Step::Variant(index(n)?)),
        _ => Err(Refused::new("step", form)),
    }
}

pub fn operand(form: &Form) -> Read<Operand> {
    match made(form, "operand")? {
        ("copy", [from]) => Ok(Operand::Copy(place(from)?)),
        ("int", [bits, n]) => {
            let (bits, n) = (width(bits)?, number(n)?);
            if bits < 64 && n >> bits != 0 {
                return Err(Refused::new("operand", form));
            }
            Ok(Operand::Int(bits, n))
        }
        ("true", []) => Ok(Operand::Bool(true)),
        ("false", []) => Ok(Operand::Bool(false)),
        ("unit", []) => Ok(Operand::Unit),
        _ => Err(Refused::new("operand", form)),
    }
}

fn op2(form: &Form) -> Read<Op2> {
    match made(form, "operation")? {
        ("add", [s]) => sign(s).map(|_| Op2::Add),
        ("sub", [s]) => sign(s).map(|_| Op2::Sub),
        ("mul", [s]) => sign(s).map(|_| Op2::Mul),
        ("div", [s]) if sign(s)? == Sign::Unsigned => Ok(Op2::Div),
        ("rem", [s]) if sign(s)? == Sign::Unsigned => Ok(Op2::Rem),
        ("eq", []) => Ok(Op2::Eq),
        ("ne", []) => Ok(Op2::Ne),
        ("and", []) => Ok(Op2::And),
        ("or", []) => Ok(Op2::Or),
        ("xor", []) => Ok(Op2::Xor),
        ("lt", [s]) => Ok(Op2::Lt(sign(s)?)),
        ("le", [s]) => Ok(Op2::Le(sign(s)?)),
        ("offset", []) => Ok(Op2::Offset),
        _ => Err(Refused::new("operation", form)),
    }
}

fn op1(form: &Form) -> Read<Op1> {
    match made(form, "operation")? {
        ("not", []) => Ok(Op1::Not),
        ("cast", [from, to, bits]) => Ok(Op1::Cast(sign(from)?, sign(to)?, width(bits)?)),
        _ => Err(Refused::new("operation", form)),
    }
}

pub fn value(form: &Form) -> Read<Value> {
    match made(form, "value")? {
        ("rvOpd", [from]) => Ok(Value::Operand(operand(from)?)),
        ("op2", [op, left, right]) => Ok(Value::Op2(op2(op)?, operand(left)?, operand(right)?)),
        ("op1", [op, of]) => Ok(Value::Op1(op1(op)?, operand(of)?)),
        ("addrOf", [of]) => Ok(Value::AddrOf(place(of)?)),
        ("aggregate", [parts]) => Ok(Value::Aggregate(list(parts, "parts", operand)?)),
        ("repeat", [one, count]) => Ok(Value::Repeat(operand(one)?, number(count)?)),
        _ => Err(Refused::new("value", form)),
    }
}

fn lent(kind: &Ty, constant: &Form) -> Read<Value> {
    let (bits, numbers) = match made(constant, "constant")? {
        ("c_ints", [bits, numbers]) => (width(bits)?, list(numbers, "numbers", number)?),
        _ => return Err(Refused::new("constant", constant)),
    };
    let fits = |n: &u64| bits == 64 || n >> bits == 0;
    match kind {
        Ty::Array(of, count) if **of == Ty::Int(bits) && *count == numbers.len() as u64 && numbers.iter().all(fits) => {
            Ok(Value::Lent(bits, numbers))
        }
        _ => Err(Refused::new("constant", constant)),
    }
}

pub fn body(form: &Form) -> Read<Body> {
    match made(form, "statement")? {
        ("skip", []) => Ok(Body::Skip),
        ("seq", [_, _]) => sequence(form),
        ("assign", [to, from]) => Ok(Body::Assign(place(to)?, value(from)?)),
        ("lend_static", [to, kind, constant]) => Ok(Body::Assign(place(to)?, lent(&ty(kind)?, constant)?)),
        ("block", [inner]) => Ok(Body::Block(Box::new(body(inner)?))),
        ("loop", [inner]) => Ok(Body::Loop(Box::new(body(inner)?))),
        ("if", [test, yes, no]) => Ok(Body::If(operand(test)?, Box::new(body(yes)?), Box::new(body(no)?))),
        ("switch", [on, arms]) => switch(operand(on)?, arms),
        ("exit", [n]) => Ok(Body::Exit(index(n)?)),
        ("return", []) => Ok(Body::Return),
        ("unreachable", []) => Ok(Body::Unreachable),
        ("call", [callee, given, to]) => Ok(Body::Call(called(callee)?, list(given, "arguments", operand)?, place(to)?)),
        _ => Err(Refused::new("statement", form)),
    }
}

fn sequence(form: &Form) -> Read<Body> {
    let (mut parts, mut rest) = (Vec::new(), form);
    while let ("seq", [first, second]) = made(rest, "statement")? {
        parts.push(body(first)?);
        rest = second;
    }
    parts.push(body(rest)?);
    Ok(Body::Seq(parts))
}

fn called(form: &Form) -> Read<String> {
    if let ("direct", [callee]) = made(form, "call")? {
        if let ("fnRef", [Form::Text(symbol)]) = made(callee, "call")? {
            return Ok(symbol.clone());
        }
    }
    Err(Refused::new("call", form))
}

fn switch(on: Operand, form: &Form) -> Read<Body> {
    let (mut arms, mut rest) = (Vec::new(), form);
    loop {
        match made(rest, "arm")? {
            ("arm", [keys, code, others]) => {
                arms.push((list(keys, "keys", number)?, body(code)?));
                rest = others;
            }
            ("default", [code]) => return Ok(Body::Switch(on, arms, Some(Box::new(body(code)?)))),
            ("noDefault", []) if !arms.is_empty() => return Ok(Body::Switch(on, arms, None)),
            _ => return Err(Refused::new("arm", rest)),
        }
    }
}
