//! The C header: its structs and prototypes, which say what is exported and under which names.
use crate::words::{self, Word};
use crate::Refused;
use std::collections::BTreeMap;

/// A field: its type, its name, and the number of its elements if it is an array.
#[derive(Clone, Debug, PartialEq)]
pub struct Field {
    pub kind: String,
    pub name: String,
    pub count: Option<u64>,
}

/// A parameter: its type, as in `const uint64_t *`, and its name.
#[derive(Clone, Debug, PartialEq)]
pub struct Param {
    pub kind: String,
    pub name: String,
}

#[derive(Clone, Debug, PartialEq)]
pub struct Prototype {
    pub result: String,
    pub params: Vec<Param>,
}

#[derive(Clone, Debug, Default)]
pub struct Header {
    pub structs: BTreeMap<String, Vec<Field>>,
    pub calls: BTreeMap<String, Prototype>,
}

/// Takes typedefs of structs and prototypes; anything else is refused, but for macros, enums and inline functions, which the C file doesn't have. What stands between
/// `#ifdef __cplusplus` and `#endif` is left out.
pub fn read(text: &str) -> Result<Header, Refused> {
    let mut numbers = BTreeMap::new();
    let mut code = String::new();
    let (mut cpp, mut inline) = (false, false);
    // a macro's lines are one line
    for line in without_comments(text).replace("\\\n", " ").lines() {
        let parts: Vec<&str> = line.split_whitespace().collect();
        match parts.as_slice() {
            ["static", "inline", ..] => inline = true,
            ["}"] if inline && line == "}" => inline = false,
            _ if inline => {}
            ["#ifdef", "__cplusplus"] => cpp = true,
            ["#endif"] => cpp = false,
            ["#define", name, number] => {
                if let Ok(n) = number.parse::<u64>() {
                    numbers.insert((*name).to_string(), n);
                }
            }
            [first, ..] if cpp || first.starts_with('#') => {}
            _ => {
                code.push_str(line);
                code.push('\n');
            }
        }
    }
    declarations(&words::split(&code), &numbers)
}

fn without_comments(text: &str) -> String {
    let mut out = String::new();
    let mut rest = text;
    while let Some(at) = rest.find("/*") {
        out.push_str(&rest[..at]);
        rest = rest[at..].find("*/").map_or("", |end| &rest[at + end + 2..]);
    }
    out + rest
}

fn declarations(words: &[Word], numbers: &BTreeMap<String, u64>) -> Result<Header, Refused> {
    let mut header = Header::default();
    let mut rest = words;
    while !rest.is_empty() {
        let end = rest.iter().position(|w| *w == "}" || *w == ")").ok_or_else(|| Refused::new("declaration", rest))?;
        match (&rest[..end], &rest[end..]) {
            (["typedef", "struct", "{", fields @ ..], ["}", name, ";", behind @ ..]) => {
                header.structs.insert((*name).to_string(), struct_fields(fields, numbers)?);
                rest = behind;
            }
            (["enum", "{", ..], ["}", ";", behind @ ..]) => rest = behind,
            ([result, name, "(", params @ ..], [")", ";", behind @ ..]) => {
                let params = params.split(|w| *w == ",").map(param).collect::<Result<_, _>>()?;
                header.calls.insert((*name).to_string(), Prototype { result: (*result).to_string(), params });
                rest = behind;
            }
            (front, _) => return Err(Refused::new("declaration", front)),
        }
    }
    Ok(header)
}

fn struct_fields(words: &[Word], numbers: &BTreeMap<String, u64>) -> Result<Vec<Field>, Refused> {
    let mut fields = Vec::new();
    for line in words.split(|w| *w == ";").filter(|line| !line.is_empty()) {
        let (kind, names) = (line[0].to_string(), &line[1..]);
        for name in names.split(|w| *w == ",") {
            let (name, count) = match name {
                [name] => (name, None),
                [name, "[", count, "]"] => {
                    let number = numbers.get(*count).copied().or_else(|| count.parse().ok());
                    (name, Some(number.ok_or_else(|| Refused::new("length of an array", count))?))
                }
                _ => return Err(Refused::new("field", line)),
            };
            fields.push(Field { kind: kind.clone(), name: (*name).to_string(), count });
        }
    }
    Ok(fields)
}

fn param(words: &[Word]) -> Result<Param, Refused> {
    let (kind, name) = match words {
        [kind, name] => ((*kind).to_string(), name),
        [kind, "*", name] => (format!("{kind} *"), name),
        ["const", kind, "*", name] => (format!("const {kind} *"), name),
        _ => return Err(Refused::new("parameter", words)),
    };
    Ok(Param { kind, name: (*name).to_string() })
}
