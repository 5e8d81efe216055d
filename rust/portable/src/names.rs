//! The names that the sources give to fields, parameters and locals. MIR has numbers there; a name changes nothing that is computed.
use crate::words;
use std::collections::BTreeMap;

/// What C means by these, or this translator.
const TAKEN: &str = "auto break case char const continue default do double else enum extern float for goto if inline int long register restrict return \
    short signed sizeof static struct switch typedef union unsigned void volatile while bool true false result result_to offset signed_of memmove each made given";

#[derive(Clone, Debug, Default, PartialEq)]
pub struct Code {
    pub params: Vec<String>,
    pub lets: Vec<String>,
}

/// By crate and name, one for each declaration of that name.
#[derive(Clone, Debug, Default)]
pub struct Names {
    structs: BTreeMap<(String, String), Vec<Vec<String>>>,
    functions: BTreeMap<(String, String), Vec<Code>>,
}

/// What was put in for parameters, which `portable/mir` writes behind `__`, is left out.
fn key(symbol: &str) -> (String, String) {
    let first = symbol.split("::").next().unwrap_or(symbol);
    let last = symbol.rsplit("::").next().unwrap_or(symbol);
    (first.to_string(), last.split("__").next().unwrap_or(last).to_string())
}

fn only<T>(declared: Option<&Vec<T>>) -> Option<&T> {
    declared.filter(|all| all.len() == 1).and_then(|all| all.first())
}

impl Names {
    /// Adds a file's declarations.
    pub fn read(&mut self, krate: &str, text: &str) {
        let code: String = text.lines().map(|line| line.split("//").next().unwrap_or("").to_string() + "\n").collect();
        let words = words::split(&code);
        for at in 0..words.len().saturating_sub(2) {
            let place = (krate.to_string(), words[at + 1].to_string());
            match words[at] {
                "struct" if words[at + 2] == "{" => {
                    self.structs.entry(place).or_default().push(labels(&words[at + 3..]));
                }
                "fn" => self.functions.entry(place).or_default().push(function(&words[at + 2..])),
                _ => {}
            }
        }
    }

    /// The fields' names, where there is one declaration of that many; else numbers.
    pub fn fields(&self, symbol: &str, count: usize) -> Vec<String> {
        match only(self.structs.get(&key(symbol))) {
            Some(names) if names.len() == count => names.clone(),
            _ => (1..=count).map(|i| format!("f{i}")).collect(),
        }
    }

    /// The names of a function's parameters and lets, where there is one declaration with that many parameters.
    pub fn function(&self, symbol: &str, params: usize) -> Option<&Code> {
        only(self.functions.get(&key(symbol))).filter(|code| code.params.len() == params)
    }
}

/// A name as C may have it, which is none of those in use.
pub fn free(name: &str, used: &[String]) -> String {
    let clash = TAKEN.split_whitespace().any(|word| word == name) || name.ends_with("_t") || numbered(name);
    let mut free = if clash { format!("{name}_") } else { name.to_string() };
    let mut turn = 2;
    while used.contains(&free) {
        free = format!("{name}_{turn}");
        turn += 1;
    }
    free
}

fn numbered(name: &str) -> bool {
    name.strip_prefix('v').is_some_and(|rest| !rest.is_empty() && rest.bytes().all(|b| b.is_ascii_digit()))
}

/// The names before a colon, up to the closing brace or bracket.
fn labels(words: &[&str]) -> Vec<String> {
    let (mut depth, mut names) = (0, Vec::new());
    for (at, word) in words.iter().enumerate() {
        match *word {
            "(" | "[" | "{" => depth += 1,
            ")" | "]" | "}" if depth == 0 => break,
            ")" | "]" | "}" => depth -= 1,
            // (a ghost field is in no value)
            ":" if depth == 0 && at > 0 && (at == 1 || words[at - 2] != "ghost") => names.push(words[at - 1].to_string()),
            "self" if depth == 0 && words.get(at + 1).is_some_and(|next| [",", ")"].contains(next)) => {
                names.push("self".to_string())
            }
            _ => {}
        }
    }
    names
}

/// A function's names, from the words behind its own.
fn function(words: &[&str]) -> Code {
    let Some(open) = words.iter().position(|word| *word == "(") else { return Code::default() };
    let params = labels(&words[open + 1..]);
    let (mut depth, mut inside, mut lets) = (0, false, Vec::new());
    for (at, word) in words.iter().enumerate().skip(open) {
        match *word {
            "(" | "[" => depth += 1,
            "{" => {
                // A clause may have a name of its own before its bracket.
                inside |=
                    depth == 0 && !words[at.saturating_sub(2)..at].iter().any(|word| ["requires", "ensures"].contains(word));
                depth += 1;
            }
            ")" | "]" | "}" => depth -= 1,
            "let" if inside => lets.extend(bound(&words[at + 1..])),
            ";" if !inside && depth == 0 => break,
            _ => {}
        }
        if inside && depth == 0 {
            break;
        }
    }
    Code { params, lets }
}

/// The names that a let binds, from the words behind it: one, or those in the brackets of its pattern.
fn bound(words: &[&str]) -> Vec<String> {
    let pattern = words.split(|word| *word == "=").next().unwrap_or_default();
    let inner = match pattern.iter().position(|word| *word == "{" || *word == "(") {
        Some(open) => &pattern[open + 1..],
        None => pattern.split(|word| *word == ":").next().unwrap_or_default(),
    };
    let is_name = |word: &&&str| **word != "mut" && word.starts_with(|c: char| c.is_ascii_alphabetic() || c == '_');
    inner.iter().filter(is_name).map(|word| (*word).to_string()).collect()
}
