//! What a check of a crate says, function by function.

use crate::source;
use std::collections::BTreeMap;

pub enum Status {
    Proved,
    /// Refused for nothing but what it calls.
    Called,
    /// Rattle looks for these goals' answers by itself, and finds none.
    Left(Vec<String>),
    Refused,
}

pub struct Function {
    pub status: Status,
    /// What it calls and is not proved. Until that is, Rattle looks for no answer by itself.
    pub calls: Vec<String>,
}

pub struct Said {
    /// The check got as far as the prover and had a verdict.
    pub judged: bool,
    pub functions: BTreeMap<String, Function>,
    /// A function, and a goal or a fact that is refused in its proof files, or a goal that is not proved without one.
    pub refused: Vec<(String, String)>,
    /// The first error of the compiler, or else the last line, for a change that does not get so far.
    pub unjudged: String,
}

/// The words between backquotes.
pub fn quoted(text: &str) -> Vec<&str> {
    text.split('`').skip(1).step_by(2).collect()
}

/// `values::fill` of `proofs/values/fill/Answers.antt`; a function that calls itself has a `+` before its name there.
fn function_of(file: &str) -> Option<String> {
    let (folder, _) = file.split("proofs/").last()?.rsplit_once('/')?;
    Some(folder.replace('/', "::").replace('+', ""))
}

/// A line of proof that waits for another one, or that names a goal or a place that the changed code does not have,
/// shows nothing.
fn shows_nothing(message: &str) -> bool {
    ["was not admitted", "not checked", "can be named", "has no field", "has no `", "is not in scope"].iter().any(|unfit| message.contains(unfit))
}

/// The function and the goal of `note: src/values.rt:17:16: it is not proved that .. (`bounds-rises-i`); ..`.
fn unproved(line: &str, functions: &[source::Function]) -> Option<(String, String)> {
    let (place, message) = line.strip_prefix("note: ")?.split_once(": it is not proved that ")?;
    let mut place = place.split(':');
    let (file, number) = (place.next()?, place.next()?.parse().ok()?);
    let goal = message.rsplit("(`").next()?.split('`').next()?;
    Some((source::at(functions, file, number)?.path.clone(), goal.to_string()))
}

fn function_in(name: &str, text: &str) -> Function {
    let (own, calls) = text.split_once("it calls ").unwrap_or((text, ""));
    let calls = quoted(calls).into_iter().filter_map(|path| path.strip_prefix(&format!("{name}::"))).map(str::to_string).collect();
    // a closure is also "proved where its callers give what it asks"
    let status = if own.starts_with("proved") {
        Status::Proved
    } else if let Some((_, left)) = own.split_once("did not prove ") {
        Status::Left(quoted(left).into_iter().map(str::to_string).collect())
    } else if own == "no proof: " {
        Status::Called
    } else {
        Status::Refused
    };
    Function { status, calls }
}

/// `functions` are those of the changed files.
pub fn read(name: &str, text: &str, functions: &[source::Function]) -> Said {
    let mut said = Said { judged: false, functions: BTreeMap::new(), refused: Vec::new(), unjudged: String::new() };
    let own = format!("fn {name}::");
    for line in text.lines() {
        if let Some((_, message)) = line.split_once(": error[") {
            if said.unjudged.is_empty() {
                said.unjudged = format!("error[{message}");
            }
        } else if let Some((place, message)) = line.split_once(": error: ") {
            let function = place.split(':').next().and_then(function_of);
            let goal = message.split('`').nth(1);
            if let (Some(function), Some(goal), false) = (function, goal, shows_nothing(message)) {
                said.refused.push((function, goal.to_string()));
            }
        } else if let Some(found) = unproved(line, functions) {
            said.refused.push(found);
        } else if let Some((path, status)) = line.strip_prefix(&own).and_then(|rest| rest.split_once(": ")) {
            said.functions.insert(path.to_string(), function_in(name, status));
        } else if line.starts_with("logic=") {
            said.judged = true;
        }
    }
    if said.unjudged.is_empty() {
        said.unjudged = text.lines().last().unwrap_or("").to_string();
    }
    said
}
