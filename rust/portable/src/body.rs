//! A function's body: places, operands and values as C text, and one C statement for one of MIR's.
use crate::function::{gives_array, Callee, Callees};
use crate::mir::{Body, Op1, Op2, Operand, Place, Sign, Step, Ty, Value};
use crate::types::Types;
use crate::uses::{lies_within, Passing};
use crate::words::is_name;
use crate::Refused;
use std::collections::BTreeMap;

type Made<T> = Result<T, Refused>;

/// What `exit` counts.
#[derive(Clone, Copy, PartialEq)]
enum Frame {
    Loop,
    /// The block that holds one loop and nothing else.
    Around,
    Block,
}

pub struct Writer<'w, 'a> {
    callee: &'w Callee<'a>,
    names: &'w [String],
    types: &'w mut Types<'a>,
    callees: &'w Callees<'a>,
    lines: Vec<String>,
    depth: usize,
    /// Each with the number of its label, and whether some goto needs that.
    frames: Vec<(Frame, usize, bool)>,
    labels: usize,
    /// The originals of copies that the next call reads in their place.
    passed: BTreeMap<usize, Operand>,
    mentioned: Vec<bool>,
    read: Vec<bool>,
}

/// A number as C writes it: an int where every machine has it so.
fn literal(n: u64) -> String {
    if n > 32767 {
        format!("UINT64_C({n})")
    } else {
        n.to_string()
    }
}

/// `(*name).field` as `name->field`, where the name may have fields too.
fn arrow(text: String) -> String {
    if let Some((name, rest)) = text.strip_prefix("(*").and_then(|inner| inner.split_once(").")) {
        if name.chars().all(|c| is_name(c) || "->.".contains(c)) {
            return format!("{name}->{rest}");
        }
    }
    text
}

/// `(*p)` as `*p`, where nothing stands behind it.
fn bare(text: String) -> String {
    match text.strip_prefix("(*").and_then(|inner| inner.strip_suffix(')')) {
        Some(name) if name.chars().all(is_name) || !name.contains(").") => format!("*{name}"),
        _ => text,
    }
}

/// `&text`, and of `*p` that is `p`.
fn address_of(text: &str) -> String {
    text.strip_prefix('*').map_or_else(|| format!("&{text}"), str::to_string)
}

fn leads_to(ty: &Ty, bits: u32, count: usize) -> bool {
    matches!(ty, Ty::Array(of, length) if **of == Ty::Int(bits) && *length == count as u64)
}

fn is_scalar(ty: &Ty) -> bool {
    matches!(ty, Ty::Int(_) | Ty::Bool)
}

impl<'w, 'a> Writer<'w, 'a> {
    pub fn new(callee: &'w Callee<'a>, names: &'w [String], types: &'w mut Types<'a>, callees: &'w Callees<'a>) -> Self {
        let none = vec![false; names.len()];
        let (mentioned, read) = (none.clone(), none);
        Writer {
            callee,
            names,
            types,
            callees,
            lines: Vec::new(),
            depth: 1,
            frames: Vec::new(),
            labels: 0,
            passed: BTreeMap::new(),
            mentioned,
            read,
        }
    }

    /// The lines; which locals stand in them; and which of those are read.
    pub fn done(self) -> (Vec<String>, Vec<bool>, Vec<bool>) {
        (self.lines, self.mentioned, self.read)
    }

    fn put(&mut self, line: &str) {
        self.lines.push("    ".repeat(self.depth) + line);
    }

    fn refused<T>(&self, what: &str, found: impl std::fmt::Debug) -> Made<T> {
        Err(Refused::new(&format!("{}: {what}", self.callee.function.symbol), found))
    }

    // ---- places

    /// The place's text and type, not noted as read.
    fn place(&mut self, place: &Place) -> Made<(String, Ty)> {
        let place = &self.callee.uses.original(place);
        let Some(local) = self.callee.function.locals.get(place.local) else { return self.refused("local", place) };
        self.mentioned[place.local] = true;
        let (mut text, mut ty) = (self.names[place.local].clone(), local.ty.clone());
        if self.is_lent(place.local) && !matches!(ty, Ty::Array(..)) {
            text = format!("(*{text})");
        }
        let mut steps = place.steps.iter();
        while let Some(step) = steps.next() {
            (text, ty) = match step {
                Step::Deref(to) => self.deref(text, &ty, to)?,
                Step::Field(n) => self.field(&text, &ty, *n)?,
                Step::Variant(k) => match steps.next() {
                    Some(Step::Field(n)) => self.variant_field(&text, &ty, *k, *n)?,
                    _ => return self.refused("variant as a whole", place),
                },
            };
        }
        Ok((bare(arrow(text)), ty))
    }

    fn is_lent(&self, local: usize) -> bool {
        self.callee.passing[local] == Passing::Lent
    }

    fn note_read(&mut self, place: &Place) {
        self.read[self.callee.uses.original(place).local] = true;
    }

    fn deref(&mut self, text: String, ty: &Ty, to: &Ty) -> Made<(String, Ty)> {
        self.types.point(to, *ty == Ty::Ptr)?;
        let text = arrow(text);
        let pointer = match ty {
            Ty::Ptr => format!("({} *){text}", self.types.c(to)?),
            Ty::Ref { to: leads, .. } if **leads == *to => text,
            // A reference to an array is in C a pointer to its first element.
            Ty::Ref { to: leads, .. } if matches!(&**leads, Ty::Array(of, _) if **of == *to) => text,
            _ => return self.refused("deref", (ty, to)),
        };
        Ok((if matches!(to, Ty::Array(..)) { pointer } else { format!("(*{pointer})") }, to.clone()))
    }

    fn field(&mut self, text: &str, ty: &Ty, n: usize) -> Made<(String, Ty)> {
        match (self.types.fields(ty)?.get(n), self.types.field_names(ty)?.get(n)) {
            (Some(kind), Some(name)) => Ok((format!("{text}.{name}"), kind.clone())),
            _ => self.refused("field", (ty, n)),
        }
    }

    /// Field 0 of a variant is the tag.
    fn variant_field(&mut self, text: &str, ty: &Ty, k: usize, n: usize) -> Made<(String, Ty)> {
        let Some(fields) = self.types.variants(ty).and_then(|kinds| kinds.get(k)) else {
            return self.refused("variant", (ty, k));
        };
        match n.checked_sub(1) {
            None => Ok((format!("(uint8_t){text}.tag"), Ty::Int(8))),
            Some(at) if at < fields.len() => Ok((format!("{text}.of.k{k}.f{n}"), fields[at].clone())),
            Some(_) => self.refused("field of a variant", (ty, k, n)),
        }
    }

    fn target(&mut self, place: &Place) -> Made<(String, Ty)> {
        let found = self.place(place)?;
        if !place.steps.is_empty() && found.1 != Ty::Unit {
            self.note_read(place);
        }
        Ok(found)
    }

    // ---- operands and values

    fn operand(&mut self, operand: &Operand) -> Made<(String, Ty)> {
        match operand {
            Operand::Copy(place) => {
                let found = self.place(place)?;
                if found.1 != Ty::Unit {
                    self.note_read(place);
                }
                Ok(found)
            }
            Operand::Int(bits, n) => Ok((literal(*n), Ty::Int(*bits))),
            Operand::Bool(yes) => Ok((yes.to_string(), Ty::Bool)),
            Operand::Unit => Ok((String::new(), Ty::Unit)),
        }
    }

    /// Operands for these types, one behind the other.
    fn operands(&mut self, operands: &[Operand], types: &[Ty]) -> Made<String> {
        if operands.len() != types.len() {
            return self.refused("number of parts", operands);
        }
        let mut texts = Vec::new();
        for (operand, ty) in operands.iter().zip(types) {
            let (text, kind) = self.operand(operand)?;
            self.fits(&kind, ty)?;
            if *ty != Ty::Unit {
                texts.push(text);
            }
        }
        Ok(texts.join(", "))
    }

    /// Numbers and yes or no keep their type. C's own check sees to pointers and structs.
    fn fits(&self, kind: &Ty, ty: &Ty) -> Made<()> {
        let same =
            kind == ty || !(is_scalar(kind) || is_scalar(ty) || matches!(ty, Ty::Array(..)) || matches!(kind, Ty::Array(..)));
        if same {
            Ok(())
        } else {
            self.refused("a value of another type", (kind, ty))
        }
    }

    fn value(&mut self, value: &Value, to: &Ty) -> Made<String> {
        let (text, ty) = match value {
            Value::Operand(from) => self.operand(from)?,
            Value::Op2(op, left, right) => {
                let (left, right) = ((self.operand(left)?, left), (self.operand(right)?, right));
                let literals = matches!((left.1, right.1), (Operand::Int(..), Operand::Int(..)));
                self.op2(*op, left.0, right.0, literals)?
            }
            Value::Op1(op, of) => {
                let (text, ty) = self.operand(of)?;
                self.op1(*op, text, ty)?
            }
            Value::AddrOf(place) => return self.address(place, to),
            Value::Aggregate(_) | Value::Repeat(..) | Value::Lent(..) => return self.refused("value", value),
        };
        self.fits(&ty, to)?;
        Ok(text)
    }

    fn op2(&mut self, op: Op2, (a, left): (String, Ty), (b, right): (String, Ty), literals: bool) -> Made<(String, Ty)> {
        let sign = match op {
            Op2::Offset if matches!(left, Ty::Ptr | Ty::Ref { .. }) && right == Ty::Int(64) => {
                return Ok((format!("offset({a}, {b})"), Ty::Ptr));
            }
            Op2::Eq if left == right && is_scalar(&left) => return Ok((format!("{a} == {b}"), Ty::Bool)),
            Op2::Ne if left == right && is_scalar(&left) => return Ok((format!("{a} != {b}"), Ty::Bool)),
            Op2::And | Op2::Or | Op2::Xor => return self.bits(op, (a, left), (b, right)),
            Op2::Lt(sign) => return self.compare("<", sign, (a, left), (b, right)),
            Op2::Le(sign) => return self.compare("<=", sign, (a, left), (b, right)),
            Op2::Add => "+",
            Op2::Sub => "-",
            Op2::Mul => "*",
            Op2::Div => "/",
            Op2::Rem => "%",
            Op2::Eq | Op2::Ne | Op2::Offset => return self.refused("operation", (op, left, right)),
        };
        match (left, right) {
            (Ty::Int(64), Ty::Int(64)) if !literals => Ok((format!("{a} {sign} {b}"), Ty::Int(64))),
            (Ty::Int(64), Ty::Int(64)) => Ok((format!("(uint64_t){a} {sign} {b}"), Ty::Int(64))),
            (Ty::Int(n), Ty::Int(m)) if n == m => Ok((format!("(uint{n}_t)((uint64_t){a} {sign} {b})"), Ty::Int(n))),
            other => self.refused("operation", (op, other)),
        }
    }

    /// Bit by bit, at the width of both; of narrow numbers C's answer is an int, and is cut.
    fn bits(&mut self, op: Op2, (a, left): (String, Ty), (b, right): (String, Ty)) -> Made<(String, Ty)> {
        let sign = match op {
            Op2::And => "&",
            Op2::Or => "|",
            _ => "^",
        };
        match left {
            Ty::Bool if right == Ty::Bool => Ok((format!("(bool)({a} {sign} {b})"), Ty::Bool)),
            Ty::Int(n) if right == Ty::Int(n) => Ok((format!("(uint{n}_t)({a} {sign} {b})"), Ty::Int(n))),
            _ => self.refused("operation", (op, left, right)),
        }
    }

    fn compare(&mut self, sign: &str, of: Sign, (a, left): (String, Ty), (b, right): (String, Ty)) -> Made<(String, Ty)> {
        let bits = match (&left, &right) {
            (Ty::Int(n), Ty::Int(m)) if n == m => *n,
            _ => return self.refused("comparison", (left, right)),
        };
        let half = 1u64 << (bits - 1);
        Ok(match of {
            Sign::Unsigned => (format!("{a} {sign} {b}"), Ty::Bool),
            Sign::Signed => (format!("({a} ^ UINT64_C({half})) {sign} ({b} ^ UINT64_C({half}))"), Ty::Bool),
        })
    }

    /// A cast between signs keeps the bits; one to a wider number is taken of unsigned ones alone.
    fn op1(&mut self, op: Op1, text: String, ty: Ty) -> Made<(String, Ty)> {
        match (op, &ty) {
            (Op1::Not, Ty::Bool) => Ok((format!("!{text}"), Ty::Bool)),
            (Op1::Cast(_, _, to), Ty::Int(from)) if to == *from => Ok((text, ty)),
            (Op1::Cast(_, _, to), Ty::Int(from)) if to < *from => Ok((format!("(uint{to}_t){text}"), Ty::Int(to))),
            (Op1::Cast(_, _, to), Ty::Bool) => Ok((format!("(uint{to}_t){text}"), Ty::Int(to))),
            (Op1::Cast(Sign::Unsigned, _, to), Ty::Int(_)) => Ok((format!("(uint{to}_t){text}"), Ty::Int(to))),
            _ => self.refused("operation", (op, ty)),
        }
    }

    /// The place's address; that of where a pointer leads is the pointer, null or not.
    fn address(&mut self, place: &Place, to: &Ty) -> Made<String> {
        let place = &self.callee.uses.original(place);
        let (text, kind, constant) = match place.steps.split_last() {
            Some((Step::Deref(leads), front)) => {
                let (text, ty) = self.place(&Place { local: place.local, steps: front.to_vec() })?;
                self.deref(text.clone(), &ty, leads)?;
                (text, leads.clone(), matches!(ty, Ty::Ref { mutable: false, .. }))
            }
            _ => {
                let (text, ty) = self.place(place)?;
                let lent = match place.steps.iter().rposition(|step| matches!(step, Step::Deref(_))) {
                    Some(at) => {
                        let (_, through) = self.place(&Place { local: place.local, steps: place.steps[..at].to_vec() })?;
                        matches!(through, Ty::Ref { mutable: false, .. })
                    }
                    None => self.is_lent(place.local),
                };
                (if matches!(ty, Ty::Array(..)) { text } else { address_of(&text) }, ty, lent)
            }
        };
        if kind == Ty::Unit {
            return Ok("NULL".to_string());
        }
        self.note_read(place);
        let plain = match to {
            Ty::Ptr => !constant,
            Ty::Ref { mutable, to } => self.types.c(to)? == self.types.c(&kind)? && !(*mutable && constant),
            _ => return self.refused("address", (place, to)),
        };
        Ok(if plain { text } else { format!("(void *){text}") })
    }

    // ---- statements

    fn assign(&mut self, to: &Place, value: &Value) -> Made<()> {
        if self.callee.uses.is_copy(to.local) {
            return self.same_type(to, value);
        }
        let (text, ty) = self.target(to)?;
        match (value, &ty) {
            (Value::Operand(_), Ty::Unit) => {}
            (Value::Repeat(one, count), Ty::Array(of, length)) if count == length && lies_within(to) => {
                let one = self.operands(std::slice::from_ref(one), std::slice::from_ref(&**of))?;
                self.put(&format!("for (int each = 0; each < {count}; each++)"));
                self.put(&format!("    {text}[each] = {one};"));
            }
            (Value::Aggregate(parts), Ty::Array(of, count)) => {
                let same = vec![(**of).clone(); usize::try_from(*count).unwrap_or(usize::MAX).min(parts.len() + 1)];
                let (parts, kind) = (self.operands(parts, &same)?, self.types.c(of)?);
                self.put(&format!("memmove({text}, ({kind}[{count}]){{{parts}}}, sizeof({kind}[{count}]));"));
            }
            (Value::Aggregate(parts), _) if self.types.variants(&ty).is_some() => self.variant(&text, &ty, parts)?,
            (Value::Aggregate(parts), _) => self.structure(to, &text, &ty, parts)?,
            (Value::Lent(bits, numbers), Ty::Ref { mutable: false, to }) if leads_to(to, *bits, numbers.len()) => {
                let numbers = numbers.iter().map(|n| literal(*n)).collect::<Vec<_>>();
                self.put("{");
                self.put(&format!("    static const uint{bits}_t lent[{}] = {{{}}};", numbers.len(), numbers.join(", ")));
                self.put(&format!("    {text} = lent;"));
                self.put("}");
            }
            (Value::Operand(_), Ty::Array(of, count)) => {
                let (from, kind) = (self.value(value, &ty)?, self.types.c(of)?);
                self.put(&format!("memmove({text}, {from}, sizeof({kind}[{count}]));"));
            }
            _ => {
                let from = self.value(value, &ty)?;
                self.put(&format!("{text} = {from};"));
            }
        }
        Ok(())
    }

    /// The copy of what never changes is that: nothing is written.
    fn same_type(&mut self, to: &Place, value: &Value) -> Made<()> {
        let (_, ty) = self.place(to)?;
        self.value(value, &ty).map(|_| ())
    }

    fn variant(&mut self, text: &str, ty: &Ty, parts: &[Operand]) -> Made<()> {
        let kinds = self.types.variants(ty).unwrap_or_default();
        let Some((Operand::Int(8, tag), rest)) = parts.split_first() else { return self.refused("tag", parts) };
        let Some(fields) = usize::try_from(*tag).ok().and_then(|k| kinds.get(k)) else { return self.refused("tag", parts) };
        let fields = fields.clone();
        let kind = self.types.c(ty)?;
        if fields.iter().any(|field| matches!(field, Ty::Array(..))) {
            return self.variant_with_arrays(text, &kind, *tag, rest, &fields);
        }
        let rest = self.operands(rest, &fields)?;
        let of = if rest.is_empty() { String::new() } else { format!(", .of.k{tag} = {{{rest}}}") };
        self.put(&format!("{text} = ({kind}){{.tag = {tag}{of}}};"));
        Ok(())
    }

    /// Made beside its place, since a part may lie in that.
    fn variant_with_arrays(&mut self, text: &str, kind: &str, tag: u64, parts: &[Operand], fields: &[Ty]) -> Made<()> {
        if parts.len() != fields.len() {
            return self.refused("number of parts", parts);
        }
        self.put("{");
        self.depth += 1;
        self.put(&format!("{kind} made;"));
        self.put(&format!("made.tag = {tag};"));
        for (i, (part, field)) in parts.iter().zip(fields).enumerate() {
            self.part(&format!("made.of.k{tag}.f{}", i + 1), part, field)?;
        }
        self.put(&format!("{text} = made;"));
        self.depth -= 1;
        self.put("}");
        Ok(())
    }

    /// A struct with arrays is made field by field: in place where no part can lie in it, else beside it.
    fn structure(&mut self, to: &Place, text: &str, ty: &Ty, parts: &[Operand]) -> Made<()> {
        let (fields, kind) = (self.types.fields(ty)?, self.types.c(ty)?);
        if !fields.iter().any(|field| matches!(field, Ty::Array(..))) {
            let parts = self.operands(parts, &fields)?;
            let parts = if parts.is_empty() { "0".to_string() } else { parts };
            self.put(&format!("{text} = ({kind}){{{parts}}};"));
            return Ok(());
        }
        let apart = |part: &Operand| match part {
            Operand::Copy(place) => lies_within(place) && place.local != to.local,
            Operand::Int(..) | Operand::Bool(_) | Operand::Unit => true,
        };
        if lies_within(to) && parts.iter().all(apart) {
            return self.fill(text, ty, parts);
        }
        self.put("{");
        self.depth += 1;
        self.put(&format!("{kind} made;"));
        self.fill("made", ty, parts)?;
        self.put(&format!("{text} = made;"));
        self.depth -= 1;
        self.put("}");
        Ok(())
    }

    fn fill(&mut self, text: &str, ty: &Ty, parts: &[Operand]) -> Made<()> {
        let fields = self.types.fields(ty)?;
        if fields.len() != parts.len() {
            return self.refused("number of parts", parts);
        }
        for ((name, field), part) in self.types.field_names(ty)?.iter().zip(&fields).zip(parts) {
            self.part(&format!("{text}.{name}"), part, field)?;
        }
        Ok(())
    }

    fn part(&mut self, whole: &str, part: &Operand, field: &Ty) -> Made<()> {
        let (value, kind) = self.operand(part)?;
        self.fits(&kind, field)?;
        match field {
            Ty::Unit => {}
            Ty::Array(..) => self.put(&format!("memmove({whole}, {value}, sizeof {whole});")),
            _ => self.put(&format!("{whole} = {value};")),
        }
        Ok(())
    }

    fn call(&mut self, symbol: &str, given: &[Operand], to: &Place) -> Made<()> {
        let callees = self.callees;
        let Some(callee) = callees.get(symbol) else { return self.refused("call of", symbol) };
        if given.len() != callee.function.params {
            return self.refused("number of arguments", given);
        }
        let given: Vec<Operand> = given.iter().map(|operand| self.passed_on(operand)).collect();
        let (mut before, mut texts) = (Vec::new(), Vec::new());
        for (i, operand) in given.iter().enumerate() {
            let (text, kind) = self.operand(operand)?;
            self.fits(&kind, &callee.function.locals[i + 1].ty)?;
            if kind == Ty::Unit {
                continue;
            }
            let lent = callee.passing[i + 1] == Passing::Lent;
            let is_array = matches!(kind, Ty::Array(..));
            if !lent || (is_array && self.callee.uses.may_lend(operand, &given)) {
                texts.push(text);
            } else if self.callee.uses.may_lend(operand, &given) {
                texts.push(address_of(&text));
            } else if is_array {
                return self.refused("an array that may change while it is lent", operand);
            } else {
                let name = format!("given{}", before.len() + 1);
                before.push(format!("const {} {name} = {text};", self.types.c(&kind)?));
                texts.push(format!("&{name}"));
            }
        }
        let (text, ty) = self.target(to)?;
        self.fits(&callee.function.locals[0].ty, &ty)?;
        let result = match ty {
            Ty::Unit => String::new(),
            Ty::Array(..) => {
                texts.insert(0, text);
                String::new()
            }
            _ => format!("{text} = "),
        };
        self.with(&before, &format!("{result}{}({});", callee.name, texts.join(", ")));
        Ok(())
    }

    /// A copy that is made for a call alone, which only reads it: the local and the original.
    fn lendable(&self, parts: &[Body]) -> Option<(usize, Operand)> {
        let (local, original) = self.callee.uses.passes_on(parts)?;
        let call =
            parts.iter().find_map(|part| if let Body::Call(symbol, given, _) = part { Some((symbol, given)) } else { None });
        let (symbol, given) = call?;
        let at = given.iter().position(|one| matches!(one, Operand::Copy(place) if place.local == local))?;
        let lent = self.callees.get(symbol)?.passing.get(at + 1) == Some(&Passing::Lent);
        lent.then(|| (local, original.clone()))
    }

    fn passed_on(&mut self, operand: &Operand) -> Operand {
        match operand {
            Operand::Copy(place) if place.steps.is_empty() => self.passed.remove(&place.local).unwrap_or_else(|| operand.clone()),
            _ => operand.clone(),
        }
    }

    /// A statement behind the declarations that it needs.
    fn with(&mut self, before: &[String], line: &str) {
        if before.is_empty() {
            return self.put(line);
        }
        self.put("{");
        self.depth += 1;
        before.iter().for_each(|declaration| self.put(declaration));
        self.put(line);
        self.depth -= 1;
        self.put("}");
    }

    pub fn run(&mut self, body: &Body) -> Made<()> {
        match body {
            Body::Skip => Ok(()),
            Body::Seq(parts) => self.sequence(parts),
            Body::Assign(to, value) => self.assign(to, value),
            Body::Call(symbol, given, to) => self.call(symbol, given, to),
            Body::Return => {
                self.give_back();
                Ok(())
            }
            Body::If(test, yes, no) => self.branch(test, yes, no),
            Body::Switch(on, arms, other) => self.switch(on, arms, other.as_deref()),
            Body::Block(inner) => self.frame(if matches!(**inner, Body::Loop(_)) { Frame::Around } else { Frame::Block }, inner),
            Body::Loop(inner) => {
                self.put("for (;;) {");
                self.depth += 1;
                self.frame(Frame::Loop, inner)?;
                self.depth -= 1;
                self.put("}");
                Ok(())
            }
            Body::Exit(n) => self.exit(*n),
            Body::Unreachable => {
                self.put("for (;;) {}");
                Ok(())
            }
        }
    }

    fn sequence(&mut self, mut parts: &[Body]) -> Made<()> {
        while let Some((first, rest)) = parts.split_first() {
            let relayed = self.callee.uses.relays(parts);
            match (self.lendable(parts), relayed, first) {
                (Some((local, original)), ..) => {
                    self.passed.insert(local, original);
                }
                (None, Some(to), Body::Assign(_, value)) => self.assign(to, value)?,
                (None, Some(to), Body::Call(symbol, given, _)) => self.call(symbol, given, to)?,
                _ => self.run(first)?,
            }
            parts = rest.get(usize::from(relayed.is_some())..).unwrap_or_default();
        }
        Ok(())
    }

    fn give_back(&mut self) {
        if self.callee.function.locals[0].ty == Ty::Unit {
            return self.put("return;");
        }
        let local = self.callee.uses.original(&Place { local: 0, steps: Vec::new() }).local;
        self.mentioned[local] = true;
        self.read[local] = true;
        let name = &self.names[local];
        if gives_array(self.callee.function) {
            // At the end, since it may lead to what an argument leads to.
            self.put(&format!("memmove(result_to, {name}, sizeof {name});"));
            return self.put("return;");
        }
        let signed = self.callee.exported.is_some_and(|call| call.result == "int64_t");
        self.put(&if signed { format!("return signed_of({name});") } else { format!("return {name};") });
    }

    fn branch(&mut self, test: &Operand, yes: &Body, no: &Body) -> Made<()> {
        let (text, ty) = self.operand(test)?;
        self.fits(&ty, &Ty::Bool)?;
        if *yes == Body::Skip {
            return self.choose(&[(Some(format!("!{text}")), no)]);
        }
        self.choose(&[(Some(text), yes), (None, no)])
    }

    fn switch(&mut self, on: &Operand, arms: &[(Vec<u64>, Body)], other: Option<&Body>) -> Made<()> {
        let (text, ty) = self.operand(on)?;
        let Ty::Int(_) = ty else { return self.refused("switch on", ty) };
        let test = |keys: &[u64]| keys.iter().map(|key| format!("{text} == {}", literal(*key))).collect::<Vec<_>>().join(" || ");
        let mut choices: Vec<(Option<String>, &Body)> = arms.iter().map(|(keys, arm)| (Some(test(keys)), arm)).collect();
        match (other, choices.last_mut()) {
            (Some(body), _) => choices.push((None, body)),
            (None, Some(last)) => last.0 = None,
            (None, None) => return self.refused("switch on", on),
        }
        self.choose(&choices)
    }

    /// The first whose test holds; the last may have none.
    fn choose(&mut self, choices: &[(Option<String>, &Body)]) -> Made<()> {
        for (i, (test, body)) in choices.iter().enumerate() {
            let head = test.as_ref().map_or("{".to_string(), |test| format!("if ({test}) {{"));
            match self.lines.last_mut() {
                Some(last) if i > 0 => {
                    if test.is_none() && **body == Body::Skip {
                        continue;
                    }
                    last.push_str(&format!(" else {head}"));
                }
                _ => self.put(&head),
            }
            self.depth += 1;
            self.run(body)?;
            self.depth -= 1;
            self.put("}");
        }
        Ok(())
    }

    fn frame(&mut self, kind: Frame, body: &Body) -> Made<()> {
        self.labels += 1;
        self.frames.push((kind, self.labels, false));
        self.run(body)?;
        if let Some((kind, label, true)) = self.frames.pop() {
            self.lines.push(format!("{}{};", "    ".repeat(self.depth - 1), label_of(kind, label) + ":"));
        }
        Ok(())
    }

    fn exit(&mut self, n: usize) -> Made<()> {
        let Some(at) = self.frames.len().checked_sub(n + 1) else { return self.refused("exit", n) };
        let loops = self.frames[at + 1..].iter().filter(|frame| frame.0 == Frame::Loop).count();
        let frame = &mut self.frames[at];
        let line = match (frame.0, loops) {
            (Frame::Loop, 0) => "continue;".to_string(),
            (Frame::Around, 1) => "break;".to_string(),
            (kind, _) => {
                frame.2 = true;
                format!("goto {};", label_of(kind, frame.1))
            }
        };
        self.put(&line);
        Ok(())
    }
}

fn label_of(kind: Frame, label: usize) -> String {
    format!("{}_{label}", if kind == Frame::Loop { "next" } else { "end" })
}
