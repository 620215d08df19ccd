//! The lists. tests/wrong/README.md has their form.

use std::collections::BTreeMap;

/// A text of a function's body, of one line or more, and what comes in its place.
pub struct Change {
    pub old: String,
    pub new: String,
}

pub struct Wrong {
    pub name: String,
    /// The function as the prover names it, without its crate: `values::fill`, `Curve::new`.
    pub function: String,
    /// Made together, each at the one place of the body that has its text.
    pub changes: Vec<Change>,
    /// The goal that must fail.
    pub goal: String,
}

pub struct List {
    pub wrongs: Vec<Wrong>,
    /// Why a function has fewer wrong programs than are due.
    pub few: BTreeMap<String, String>,
    /// How many of a function the gate holds, where they are more than `HELD`.
    pub gate: BTreeMap<String, usize>,
}

/// How many of a function the gate holds where the list says nothing: the first of them.
pub const HELD: usize = 4;

fn word(text: &str) -> bool {
    !text.is_empty() && text.bytes().all(|b| b.is_ascii_lowercase() || b.is_ascii_digit() || b == b'_')
}

/// A wrong program whose lines end before all parts are there is an error of the list.
fn whole(wrong: &Wrong) -> Result<(), String> {
    if wrong.changes.is_empty() || wrong.changes.iter().any(|c| c.old.is_empty()) {
        return Err(format!("{}: it changes nothing", wrong.name));
    }
    if wrong.goal.is_empty() {
        return Err(format!("{}: it names no goal", wrong.name));
    }
    Ok(())
}

pub fn read(text: &str) -> Result<List, String> {
    let mut list = List { wrongs: Vec::new(), few: BTreeMap::new(), gate: BTreeMap::new() };
    let mut function = String::new();
    let mut before = ' ';
    for (number, line) in text.lines().enumerate() {
        let bad = |why: &str| Err(format!("line {} of its list: {why}", number + 1));
        let sign = line.chars().next().unwrap_or(' ');
        if before == '-' && sign != '-' && sign != '+' {
            return bad("what comes in the text's place ('+') is missing");
        }
        let again = sign == before;
        before = sign;
        if line.is_empty() || sign == '#' {
            continue;
        }
        if let Some(path) = line.strip_prefix("fn ") {
            function = path.to_string();
        } else if let Some(reason) = line.strip_prefix("few: ") {
            list.few.insert(function.clone(), reason.to_string());
        } else if let Some(count) = line.strip_prefix("gate: ") {
            let Some(count) = count.parse().ok().filter(|n| HELD < *n) else { return bad("'gate' says a number above four") };
            list.gate.insert(function.clone(), count);
        } else if sign == '-' || sign == '+' {
            let Some(wrong) = list.wrongs.last_mut() else { return bad("a change of no wrong program") };
            if sign == '-' && !again {
                wrong.changes.push(Change { old: String::new(), new: String::new() });
            }
            let Some(change) = wrong.changes.last_mut() else { return bad("'+' without '-'") };
            let side = if sign == '-' { &mut change.old } else { &mut change.new };
            if again {
                side.push('\n');
            } else if !side.is_empty() {
                return bad("'+' without '-'");
            }
            side.push_str(line[1..].strip_prefix(' ').unwrap_or(&line[1..]));
        } else if let Some(goal) = line.strip_prefix("! ") {
            let Some(wrong) = list.wrongs.last_mut() else { return bad("a goal of no wrong program") };
            wrong.goal = goal.to_string();
        } else {
            let Some((name, words)) = line.split_once(": ") else { return bad("it is nothing that a list has") };
            if !word(name) || words.is_empty() || function.is_empty() {
                return bad("a wrong program has a name, words, and a function above it");
            }
            if list.wrongs.iter().any(|w| w.name == name) {
                return bad("this name is taken");
            }
            if let Some(before) = list.wrongs.last() {
                whole(before)?;
            }
            list.wrongs.push(Wrong { name: name.to_string(), function: function.clone(), changes: Vec::new(), goal: String::new() });
        }
    }
    if let Some(last) = list.wrongs.last() {
        whole(last)?;
    }
    Ok(list)
}
