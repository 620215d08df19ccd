//! docs/PROMISES.md names for every public function two wrong programs or more. Each that it names is there, and each
//! function has its row.

use crate::list;
use crate::said::quoted;
use crate::source;
use std::collections::BTreeSet;
use std::fs;
use std::path::Path;

/// The names of a crate's wrong programs and must-fail edits.
fn known(top: &Path, lists: &Path, name: &str) -> BTreeSet<String> {
    let mut names = BTreeSet::new();
    if let Ok(list) = fs::read_to_string(lists.join(name).with_extension("txt")).map_err(|e| e.to_string()).and_then(|text| list::read(&text)) {
        names.extend(list.wrongs.into_iter().map(|w| w.name));
    }
    for entry in fs::read_dir(top.join("crates").join(name).join("must-fail")).into_iter().flatten().flatten() {
        names.extend(entry.path().file_stem().and_then(|s| s.to_str()).map(str::to_string));
    }
    names
}

/// What is wrong with the page's table of wrong answers in the code.
pub fn faults(top: &Path, lists: &Path, crates: &[String]) -> Result<Vec<String>, String> {
    let page = fs::read_to_string(top.join("docs/PROMISES.md")).map_err(|e| format!("it can't be read: {e}"))?;
    let (_, table) = page.split_once("### In the code\n").ok_or("it has no part 'In the code'")?;
    let table = table.split("\n### ").next().unwrap_or("");
    let mut faults = Vec::new();
    let mut rows = BTreeSet::new();
    let mut name = String::new();
    for line in table.lines().filter(|l| l.starts_with("| ")).skip(1) {
        let cells: Vec<&str> = line.split(" | ").collect();
        if let [function] = quoted(cells[0])[..] {
            name = function.split("::").next().unwrap_or("").to_string();
            rows.insert(function.to_string());
        }
        let names = known(top, lists, &name);
        let said = cells[1..].concat();
        let (inside, outside): (Vec<&str>, Vec<&str>) = quoted(&said).into_iter().filter(|n| n.contains('_')).partition(|n| names.contains(*n));
        faults.extend(outside.iter().map(|n| format!("{name} has no wrong program and no edit {n}")));
        if inside.len() < 2 {
            faults.push(format!("fewer than two wrong programs: {}", cells[0]));
        }
    }
    for name in crates {
        for f in source::functions(&top.join("crates").join(name))?.iter().filter(|f| f.public && f.promised) {
            if !rows.contains(&format!("{name}::{}", f.path)) {
                faults.push(format!("no row for {name}::{}", f.path));
            }
        }
    }
    Ok(faults)
}
