//! The text of MIR as nested forms: what `portable/mir` prints, before it means anything.
use crate::Refused;

#[derive(Clone, Debug, PartialEq)]
pub enum Form {
    Number(u64),
    Text(String),
    /// `(lcons a (lcons b lnil))`, and the same with the lists of types.
    List(Vec<Form>),
    /// A constructor and what it is given; one that is given nothing has no brackets.
    Made(String, Vec<Form>),
}

const CONS: [&str; 3] = ["lcons", "tcons", "ttcons"];
const NIL: [&str; 3] = ["lnil", "tnil", "ttnil"];

/// All forms of a text, one behind the other.
pub fn read(text: &str) -> Result<Vec<Form>, Refused> {
    let mut open = vec![Vec::new()];
    let mut rest = text.trim_start();
    while let Some(first) = rest.chars().next() {
        let end = piece_end(rest, first)?;
        let (piece, behind) = rest.split_at(end);
        match first {
            '(' => open.push(Vec::new()),
            ')' => close(&mut open)?,
            _ => put(&mut open, atom(piece)?),
        }
        rest = behind.trim_start();
    }
    match (open.pop(), open.is_empty()) {
        (Some(forms), true) => Ok(forms),
        _ => Err(Refused::new("a bracket that is not closed", text.len())),
    }
}

fn piece_end(rest: &str, first: char) -> Result<usize, Refused> {
    match first {
        '(' | ')' => Ok(1),
        '"' => rest[1..].find('"').map(|at| at + 2).ok_or_else(|| Refused::new("a name that is not closed", rest)),
        _ => Ok(rest.find(|c: char| c.is_whitespace() || "()\"".contains(c)).unwrap_or(rest.len())),
    }
}

fn atom(piece: &str) -> Result<Form, Refused> {
    if let Some(text) = piece.strip_prefix('"') {
        return Ok(Form::Text(text.trim_end_matches('"').to_string()));
    }
    if piece.starts_with(|c: char| c.is_ascii_digit()) {
        return piece.parse().map(Form::Number).map_err(|_| Refused::new("number", piece));
    }
    Ok(if NIL.contains(&piece) { Form::List(Vec::new()) } else { Form::Made(piece.to_string(), Vec::new()) })
}

fn put(open: &mut [Vec<Form>], form: Form) {
    if let Some(around) = open.last_mut() {
        around.push(form);
    }
}

fn close(open: &mut Vec<Vec<Form>>) -> Result<(), Refused> {
    let mut parts = open.pop().unwrap_or_default();
    if open.is_empty() || parts.is_empty() {
        return Err(Refused::new("brackets that do not match", parts));
    }
    let head = parts.remove(0);
    let form = match head {
        Form::Made(name, given) if given.is_empty() && CONS.contains(&name.as_str()) => cons(parts)?,
        Form::Made(name, given) if given.is_empty() => Form::Made(name, parts),
        other => return Err(Refused::new("brackets around no constructor", other)),
    };
    put(open, form);
    Ok(())
}

fn cons(parts: Vec<Form>) -> Result<Form, Refused> {
    match <[Form; 2]>::try_from(parts) {
        Ok([first, Form::List(mut rest)]) => {
            rest.insert(0, first);
            Ok(Form::List(rest))
        }
        other => Err(Refused::new("list", other)),
    }
}
