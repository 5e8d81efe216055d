//! What a function does with its locals: which it writes, which may change through a pointer, and which are but copies.
use crate::mir::{Body, Function, Local, Op2, Operand, Place, Shape, Step, Ty, Value};
use std::collections::{BTreeMap, BTreeSet};

#[derive(Clone, Debug)]
pub struct Uses<'a> {
    locals: &'a [Local],
    shapes: &'a BTreeMap<String, Shape>,
    /// How many statements write the local or a part of it, by its name.
    writes: Vec<usize>,
    addressed: Vec<bool>,
    /// Whether it may be written through a pointer, as far as can be told: a pointer to it is written through, stored or handed to a call.
    changed: Vec<bool>,
    /// How often the local stands in the body.
    mentions: Vec<usize>,
    /// The locals that this one may hold a pointer into, other than by a shared reference.
    into: Vec<BTreeSet<usize>>,
    /// What a local is only ever a copy of, and which never changes.
    copies: Vec<Option<Place>>,
    params: usize,
    /// Whether each write is for the one statement behind it that reads it: a call that it is copied for, or a copy of it.
    handed: Vec<bool>,
    pub calls: Vec<String>,
    /// The locals in the sequence of their first writes in the text.
    pub firsts: Vec<usize>,
}

/// Whether the place lies in the local itself, and not where a pointer leads.
pub fn lies_within(place: &Place) -> bool {
    !place.steps.iter().any(|step| matches!(step, Step::Deref(_)))
}

/// An assignment or a call, wherever it stands in a body.
pub enum Act<'a> {
    Assign(&'a Place, &'a Value),
    Call(&'a str, &'a [Operand], &'a Place),
    Test(&'a Operand),
}

pub fn acts<'a>(body: &'a Body, out: &mut Vec<Act<'a>>) {
    match body {
        Body::Skip | Body::Exit(_) | Body::Return | Body::Unreachable => {}
        Body::Seq(parts) => parts.iter().for_each(|part| acts(part, out)),
        Body::Assign(to, value) => out.push(Act::Assign(to, value)),
        Body::Block(inner) | Body::Loop(inner) => acts(inner, out),
        Body::If(test, yes, no) => {
            out.push(Act::Test(test));
            acts(yes, out);
            acts(no, out);
        }
        Body::Switch(on, arms, other) => {
            out.push(Act::Test(on));
            arms.iter().for_each(|(_, arm)| acts(arm, out));
            other.iter().for_each(|arm| acts(arm, out));
        }
        Body::Call(symbol, given, to) => out.push(Act::Call(symbol, given, to)),
    }
}

impl<'a> Uses<'a> {
    pub fn of(function: &'a Function, shapes: &'a BTreeMap<String, Shape>) -> Self {
        let mut found = Vec::new();
        acts(&function.body, &mut found);
        let count = function.locals.len();
        let mut uses = Uses {
            locals: &function.locals,
            shapes,
            writes: vec![0; count],
            addressed: vec![false; count],
            changed: vec![false; count],
            copies: vec![None; count],
            params: function.params,
            handed: vec![false; count],
            mentions: vec![0; count],
            into: vec![BTreeSet::new(); count],
            calls: Vec::new(),
            firsts: Vec::new(),
        };
        for act in &found {
            match act {
                Act::Assign(to, value) => {
                    uses.write(to);
                    uses.take_address(value);
                }
                Act::Call(symbol, _, to) => {
                    uses.write(to);
                    uses.calls.push((*symbol).to_string());
                }
                Act::Test(_) => {}
            }
            places(act).into_iter().for_each(|place| uses.mention(place));
        }
        uses.find_changed(&found);
        uses.find_copies(&found);
        uses.find_result(&function.body);
        uses.find_handed(&function.body);
        uses
    }

    fn write(&mut self, to: &Place) {
        if let (true, Some(writes)) = (lies_within(to), self.writes.get_mut(to.local)) {
            *writes += 1;
        }
        if to.steps.is_empty() && !self.firsts.contains(&to.local) {
            self.firsts.push(to.local);
        }
    }

    fn mention(&mut self, place: &Place) {
        if let Some(mentions) = self.mentions.get_mut(place.local) {
            *mentions += 1;
        }
    }

    fn take_address(&mut self, value: &Value) {
        if let Value::AddrOf(place) = value {
            if let (true, Some(addressed)) = (lies_within(place), self.addressed.get_mut(place.local)) {
                *addressed = true;
            }
        }
    }

    /// For each local the others that it may hold a pointer into, whatever the sequence; then what is done with these pointers.
    ///
    /// What stands where only shared references may is none of them: Rust lets nobody write where one leads while it lives, be it stored, handed to a call or given
    /// back, and no plain pointer that came of one writes (`shared.rs`). A parameter that no statement writes thus stays as it was, however often it is lent so; and
    /// where the caller lent it, the caller waits, and hands us no pointer to write it by (`may_lend`).
    fn find_changed(&mut self, found: &[Act]) {
        let mut before = usize::MAX;
        while before != self.into.iter().map(BTreeSet::len).sum() {
            before = self.into.iter().map(BTreeSet::len).sum();
            for act in found {
                let (to, more) = match act {
                    Act::Assign(to, value) => (to, self.pointers(value)),
                    // A call's answer may hold a pointer into whatever its arguments lead to.
                    Act::Call(_, given, to) => (to, given.iter().flat_map(|one| self.held(one)).collect()),
                    Act::Test(_) => continue,
                };
                if let (true, Some(known)) = (self.leads(to), self.into.get_mut(to.local)) {
                    known.extend(more);
                }
            }
        }
        for act in found {
            let (to, loose) = match act {
                Act::Assign(to, value) if !lies_within(to) && self.leads(to) => (to, self.pointers(value)),
                Act::Assign(to, _) => (to, BTreeSet::new()),
                Act::Call(_, given, to) => (to, given.iter().flat_map(|one| self.held(one)).collect()),
                Act::Test(_) => continue,
            };
            let through = if lies_within(to) { BTreeSet::new() } else { self.led_to(to.local) };
            loose.union(&through).for_each(|&local| self.changed[local] = true);
        }
    }

    /// Whether what lies at the place may hold a pointer to write by; yes where its type can't be told.
    fn leads(&self, place: &Place) -> bool {
        self.type_of(place).is_none_or(|ty| may_write(&ty, self.shapes))
    }

    fn type_of(&self, place: &Place) -> Option<Ty> {
        type_of(place, self.locals, self.shapes)
    }

    /// The locals that a local's pointers lead into, and those that the pointers that lie there lead into, and so on.
    fn led_to(&self, local: usize) -> BTreeSet<usize> {
        let (mut found, mut todo) = (BTreeSet::new(), vec![local]);
        while let Some(next) = todo.pop() {
            todo.extend(self.into.get(next).into_iter().flatten().filter(|&&one| found.insert(one)));
        }
        found
    }

    /// The locals that an operand may hold a pointer into, or what it leads to.
    fn held(&self, operand: &Operand) -> BTreeSet<usize> {
        match operand {
            Operand::Copy(place) if self.leads(place) => self.led_to(place.local),
            Operand::Copy(_) | Operand::Int(..) | Operand::Bool(_) | Operand::Unit => BTreeSet::new(),
        }
    }

    /// The locals that a value may hold a pointer into.
    fn pointers(&self, value: &Value) -> BTreeSet<usize> {
        match value {
            Value::AddrOf(place) if lies_within(place) => BTreeSet::from([place.local]),
            Value::AddrOf(place) => self.led_to(place.local),
            Value::Operand(one) | Value::Op2(Op2::Offset, one, _) | Value::Repeat(one, _) => self.held(one),
            Value::Aggregate(parts) => parts.iter().flat_map(|one| self.held(one)).collect(),
            Value::Op2(..) | Value::Op1(..) | Value::Lent(..) => BTreeSet::new(),
        }
    }

    /// A local that is written with nothing but what lies at one place, which never changes, is that place.
    fn find_copies(&mut self, found: &[Act]) {
        let mut sources: Vec<Vec<&Place>> = vec![Vec::new(); self.writes.len()];
        for act in found {
            if let Act::Assign(to, Value::Operand(Operand::Copy(from))) = act {
                if to.steps.is_empty() && to.local < sources.len() {
                    sources[to.local].push(from);
                }
            }
        }
        // A copy of a copy stands behind it in the text, and has a higher number.
        for (local, from) in sources.iter().enumerate().skip(self.params + 1) {
            let Some(place) = from.first().map(|first| self.original(first)) else { continue };
            let only = from.len() == self.writes[local] && from.iter().all(|one| self.original(one) == place);
            if is_large(&self.locals[local].ty) && only && !self.changed[local] && self.is_steady(&place) {
                self.copies[local] = Some(place);
            }
        }
    }

    /// A local that is copied to the result right before each return, which alone reads that, is the result.
    fn find_result(&mut self, body: &Body) {
        let mut given = Vec::new();
        given_back(body, &mut given);
        let Some(&first) = given.first() else { return };
        let only = given.len() == self.writes[0] && given.len() == self.mentions[0] && given.iter().all(|&local| local == first);
        let own = first > self.params && !self.is_copy(first) && self.locals[first].ty == self.locals[0].ty;
        if only && own && is_large(&self.locals[first].ty) {
            self.copies[0] = Some(Place { local: first, steps: Vec::new() });
        }
    }

    fn never_changes(&self, local: usize) -> bool {
        self.writes[local] == 0 && !self.changed[local]
    }

    /// Whether what lies at the place stays as it is while the function runs: in a parameter that never changes, or where shared references lead from there. These
    /// came from the caller, so they live as long as the call, and Rust lets nobody write where they lead meanwhile, not through another argument either.
    fn is_steady(&self, place: &Place) -> bool {
        let front = |at: usize| Place { local: place.local, steps: place.steps[..at].to_vec() };
        let is_shared = |at: usize| matches!(self.type_of(&front(at)), Some(Ty::Ref { mutable: false, .. }));
        (1..=self.params).contains(&place.local)
            && self.never_changes(place.local)
            && (0..place.steps.len()).all(|at| !matches!(place.steps[at], Step::Deref(_)) || is_shared(at))
    }

    pub fn is_copy(&self, local: usize) -> bool {
        self.copies.get(local).is_some_and(Option::is_some)
    }

    /// The place, in what its local is a copy of if it is one.
    pub fn original(&self, place: &Place) -> Place {
        match self.copies.get(place.local) {
            Some(Some(of)) => Place { local: of.local, steps: [&of.steps[..], &place.steps].concat() },
            _ => place.clone(),
        }
    }

    /// Whether a call may read this operand where it stands: a call writes nothing that stood before it but what its arguments lead to, and none leads there. What
    /// lies where a pointer leads may be anything, and is lent if it never changes, or if no argument holds a pointer to write by at all.
    pub fn may_lend(&self, operand: &Operand, given: &[Operand]) -> bool {
        let Operand::Copy(place) = operand else { return false };
        let place = self.original(place);
        let reaches = |one: &Operand| match one {
            Operand::Copy(other) if !lies_within(&place) => self.leads(other),
            _ => self.held(one).contains(&place.local),
        };
        self.is_steady(&place) || !given.iter().any(reaches)
    }

    /// A local whose every write is for one statement that alone reads it stands as often again as it is written. (the result is read by every return)
    fn find_handed(&mut self, body: &Body) {
        let mut pairs = vec![0; self.writes.len()];
        self.count_pairs(body, &mut pairs);
        for (local, count) in pairs.into_iter().enumerate().skip(1) {
            self.handed[local] = count > 0 && count == self.writes[local] && self.mentions[local] == 2 * count;
        }
    }

    fn count_pairs(&self, body: &Body, pairs: &mut [usize]) {
        match body {
            Body::Seq(parts) => {
                for (at, part) in parts.iter().enumerate() {
                    let called = self.pair(&parts[at..]).map(|(local, _)| local);
                    if let Some(local) = called.or(self.relay(&parts[at..]).map(|(local, _)| local)) {
                        pairs[local] += 1;
                    }
                    self.count_pairs(part, pairs);
                }
            }
            Body::Block(inner) | Body::Loop(inner) => self.count_pairs(inner, pairs),
            Body::If(_, yes, no) => [yes, no].into_iter().for_each(|arm| self.count_pairs(arm, pairs)),
            Body::Switch(_, arms, other) => {
                arms.iter().for_each(|(_, arm)| self.count_pairs(arm, pairs));
                other.iter().for_each(|arm| self.count_pairs(arm, pairs));
            }
            _ => {}
        }
    }

    /// Of statements in sequence, where the first copies something to a local that a later call alone reads, with nothing between that could write the
    /// original: the local and the original.
    pub fn passes_on<'b>(&self, parts: &'b [Body]) -> Option<(usize, &'b Operand)> {
        self.pair(parts).filter(|(local, _)| self.handed.get(*local) == Some(&true))
    }

    fn pair<'b>(&self, parts: &'b [Body]) -> Option<(usize, &'b Operand)> {
        let (Body::Assign(to, Value::Operand(from @ Operand::Copy(place))), rest) = parts.split_first()? else { return None };
        let place = self.original(place);
        if !to.steps.is_empty() || place.local == to.local || self.is_copy(to.local) {
            return None;
        }
        // Where a pointer leads there may be any local whose address was taken.
        let apart = |other: &Place| other.local != place.local && (lies_within(&place) || !self.addressed[other.local]);
        let harmless = |part: &&Body| matches!(part, Body::Assign(other, _) if lies_within(other) && apart(other));
        let between = rest.iter().take_while(harmless).count();
        let reads = |one: &Operand| matches!(one, Operand::Copy(read) if read.local == to.local && read.steps.is_empty());
        match rest.get(between) {
            Some(Body::Call(_, given, _)) if given.iter().any(reads) && self.may_lend(from, given) => Some((to.local, from)),
            _ => None,
        }
    }

    /// Of statements in sequence, where the first makes a struct or an array that the second copies to another local, and nothing else reads: that other. It may be
    /// made there at once: an assignment and a call read all that they need before their answer is written.
    pub fn relays<'b>(&self, parts: &'b [Body]) -> Option<&'b Place> {
        self.relay(parts).filter(|(local, _)| self.handed.get(*local) == Some(&true)).map(|(_, to)| to)
    }

    fn relay<'b>(&self, parts: &'b [Body]) -> Option<(usize, &'b Place)> {
        let [Body::Assign(made, _) | Body::Call(_, _, made), Body::Assign(to, Value::Operand(Operand::Copy(from))), ..] = parts
        else {
            return None;
        };
        let whole = from == made && made.steps.is_empty() && to.steps.is_empty() && to.local != made.local;
        let (ty, other) = (&self.locals.get(made.local)?.ty, &self.locals.get(to.local)?.ty);
        let is_large = is_large(ty) || matches!(ty, Ty::Slice { .. });
        let own = !self.is_copy(made.local) && !self.is_copy(to.local);
        (whole && is_large && ty == other && own).then_some((made.local, to))
    }
}

fn is_large(ty: &Ty) -> bool {
    matches!(ty, Ty::Array(..) | Ty::Named(_))
}

/// The locals that are copied whole to the result right before a return.
fn given_back(body: &Body, out: &mut Vec<usize>) {
    match body {
        Body::Seq(parts) => {
            for pair in parts.windows(2) {
                if let [Body::Assign(to, Value::Operand(Operand::Copy(from))), Body::Return] = pair {
                    if to.local == 0 && to.steps.is_empty() && from.steps.is_empty() {
                        out.push(from.local);
                    }
                }
            }
            parts.iter().for_each(|part| given_back(part, out));
        }
        Body::Block(inner) | Body::Loop(inner) => given_back(inner, out),
        Body::If(_, yes, no) => [yes, no].into_iter().for_each(|arm| given_back(arm, out)),
        Body::Switch(_, arms, other) => {
            arms.iter().for_each(|(_, arm)| given_back(arm, out));
            other.iter().for_each(|arm| given_back(arm, out));
        }
        _ => {}
    }
}

fn places<'a>(act: &Act<'a>) -> Vec<&'a Place> {
    let of = |operand: &'a Operand| if let Operand::Copy(place) = operand { Some(place) } else { None };
    match act {
        Act::Test(operand) => of(operand).into_iter().collect(),
        Act::Call(_, given, to) => given.iter().filter_map(of).chain([*to]).collect(),
        Act::Assign(to, value) => {
            let mut all = vec![*to];
            match value {
                Value::Operand(one) | Value::Op1(_, one) | Value::Repeat(one, _) => all.extend(of(one)),
                Value::Op2(_, one, other) => all.extend(of(one).into_iter().chain(of(other))),
                Value::AddrOf(place) => all.push(place),
                Value::Aggregate(parts) => all.extend(parts.iter().filter_map(of)),
                Value::Lent(..) => {}
            }
            all
        }
    }
}

/// The type of what lies at the place, where it can be told.
pub fn type_of(place: &Place, locals: &[Local], shapes: &BTreeMap<String, Shape>) -> Option<Ty> {
    let mut ty = locals.get(place.local).map(|local| local.ty.clone());
    let mut steps = place.steps.iter();
    while let Some(step) = steps.next() {
        ty = match (step, &ty) {
            (Step::Deref(to), _) => Some(to.clone()),
            (Step::Field(0), Some(Ty::Slice { mutable, of })) => Some(Ty::Ref { mutable: *mutable, to: of.clone() }),
            (Step::Field(_), Some(Ty::Slice { .. })) => Some(Ty::Int(64)),
            (Step::Field(n), Some(Ty::Named(symbol))) => match shapes.get(symbol) {
                Some(Shape::Fields(fields)) => fields.get(*n).cloned(),
                _ => None,
            },
            (Step::Variant(k), Some(Ty::Named(symbol))) => match (shapes.get(symbol), steps.next()) {
                (_, Some(Step::Field(0))) => Some(Ty::Int(8)),
                (Some(Shape::Variants(kinds)), Some(Step::Field(n))) => kinds.get(*k).and_then(|kind| kind.get(n - 1)).cloned(),
                _ => None,
            },
            _ => None,
        };
    }
    ty
}

/// Whether a value of the type may hold a pointer to write by. A shared reference is none, whatever lies where it leads: Rust lets nobody write by that either.
pub fn may_write(ty: &Ty, shapes: &BTreeMap<String, Shape>) -> bool {
    match ty {
        Ty::Int(_) | Ty::Bool | Ty::Unit => false,
        Ty::Ptr => true,
        Ty::Ref { mutable, .. } | Ty::Slice { mutable, .. } => *mutable,
        Ty::Array(of, _) => may_write(of, shapes),
        Ty::Named(symbol) => match shapes.get(symbol) {
            Some(Shape::Fields(fields)) => fields.iter().any(|field| may_write(field, shapes)),
            Some(Shape::Variants(kinds)) => kinds.iter().flatten().any(|field| may_write(field, shapes)),
            None => true,
        },
    }
}

/// How a parameter is handed over.
#[derive(Clone, Copy, Debug, PartialEq)]
pub enum Passing {
    Value,
    /// By a pointer to what the caller keeps unchanged: a struct or an array that is only read.
    Lent,
    /// By a pointer, and copied at once: an array that is written.
    Copied,
}

pub fn passing(ty: &Ty, local: usize, uses: &Uses<'_>, is_large: bool) -> Passing {
    let only_read = uses.never_changes(local) && !uses.addressed[local];
    match ty {
        Ty::Array(..) if only_read => Passing::Lent,
        Ty::Array(..) => Passing::Copied,
        Ty::Named(_) if only_read && is_large => Passing::Lent,
        _ => Passing::Value,
    }
}
