//! Wrong programs, tried by the dozen: each puts another text into one function, and the prover has to refuse that
//! function at the goal that is named for it.
//!
//! list.rs     the lists of wrong programs           source.rs   the functions of a crate, and a changed one
//! said.rs     what the prover said                  trial.rs    a batch of changes in a copy of the tree
//! promises.rs     what docs/PROMISES.md says of them
//!
//! wrong gate|all COPY1,COPY2.. LISTS CRATE..
//!   tries the wrong programs of each crate's list, LISTS/CRATE.txt, in the copies, one crate at a time in each: all of
//!   them, or as many as the gate holds. A batch has one change in each of many functions, and is one run of the
//!   prover. What waits there for a changed function that it calls is in a later batch without that change. The last
//!   line counts the wrong programs that were refused as they must be and what failed.
//! wrong promises TOP LISTS CRATE..
//!   looks for the wrong programs that docs/PROMISES.md names, and for the public functions of the crates in it.

mod list;
mod promises;
mod said;
mod source;
mod trial;

use std::collections::VecDeque;
use std::env;
use std::fs;
use std::path::{Path, PathBuf};
use std::process::ExitCode;
use std::sync::Mutex;
use std::thread;
use std::time::Instant;

/// Every function with a promise has wrong programs: four if it is public, else one, or a reason why it has fewer.
fn uncovered(functions: &[source::Function], list: &list::List) -> Vec<String> {
    let mut missing = Vec::new();
    for f in functions.iter().filter(|f| f.promised) {
        let due = if f.public { 4 } else { 1 };
        let listed = list.wrongs.iter().filter(|w| w.function == f.path).count();
        match list.few.get(&f.path) {
            None if listed < due => missing.push(format!("{}: {listed} listed, {due} are due", f.path)),
            Some(_) if listed >= due => missing.push(format!("{}: 'few' is said of it, and it has {listed}", f.path)),
            _ => {}
        }
    }
    for (path, count) in &list.gate {
        let listed = list.wrongs.iter().filter(|w| w.function == *path).count();
        if listed < *count {
            missing.push(format!("{path}: the gate is to hold {count}, and it has {listed}"));
        }
    }
    missing
}

/// All of a list, or of each function what the gate holds: the first four, or as many as its list says.
fn held(list: &list::List, gate: bool) -> Vec<&list::Wrong> {
    let mut held: Vec<&list::Wrong> = Vec::new();
    for wrong in &list.wrongs {
        let most = list.gate.get(&wrong.function).copied().unwrap_or(list::HELD);
        if !gate || held.iter().filter(|w| w.function == wrong.function).count() < most {
            held.push(wrong);
        }
    }
    held
}

fn try_list(copy: &trial::Copy, lists: &Path, name: &str, gate: bool) -> Result<trial::Tried, String> {
    let text = fs::read_to_string(lists.join(name).with_extension("txt")).map_err(|e| format!("its list can't be read: {e}"))?;
    let list = list::read(&text)?;
    let functions = source::functions(&copy.top.join("crates").join(name))?;
    let mut tried = trial::all(copy, name, &functions, &held(&list, gate))?;
    tried.failed.splice(0..0, uncovered(&functions, &list));
    Ok(tried)
}

fn main() -> ExitCode {
    let words: Vec<String> = env::args().skip(1).collect();
    if let [mode, top, lists, crates @ ..] = &words[..] {
        if mode == "promises" {
            let faults = promises::faults(Path::new(top), Path::new(lists), crates).unwrap_or_else(|why| vec![why]);
            for why in &faults {
                println!("failed: docs/PROMISES.md: {why}");
            }
            return if faults.is_empty() { ExitCode::SUCCESS } else { ExitCode::FAILURE };
        }
    }
    let [mode, copies, lists, crates @ ..] = &words[..] else {
        eprintln!("usage: wrong gate|all COPY1,COPY2.. LISTS CRATE.. | promises TOP LISTS CRATE..");
        return ExitCode::from(2);
    };
    let gate = mode == "gate";
    let lists = PathBuf::from(lists);
    // the longest lists first, so that no copy is left with one at the end
    let mut order: Vec<&String> = crates.iter().collect();
    order.sort_by_key(|name| std::cmp::Reverse(fs::metadata(lists.join(name).with_extension("txt")).map_or(0, |m| m.len())));
    let copies: Vec<&str> = copies.split(',').collect();
    let jobs = thread::available_parallelism().map_or(1, |n| n.get()).div_ceil(copies.len());
    let queue = Mutex::new(order.into_iter().collect::<VecDeque<_>>());
    let totals = Mutex::new((0, 0));
    thread::scope(|scope| {
        for copy in &copies {
            let copy = trial::Copy { top: Path::new(copy), jobs };
            let (queue, totals, lists) = (&queue, &totals, &lists);
            scope.spawn(move || loop {
                let Some(name) = queue.lock().unwrap().pop_front() else { break };
                let began = Instant::now();
                let tried = try_list(&copy, lists, name, gate).unwrap_or_else(|why| trial::Tried { refused: 0, failed: vec![why], batches: 0 });
                let mut totals = totals.lock().unwrap();
                totals.0 += tried.refused;
                totals.1 += tried.failed.len();
                for why in &tried.failed {
                    println!("failed: {name}: {why}");
                }
                println!("{name}: {} wrong programs refused, {} failed, in {} batches ({} s)", tried.refused, tried.failed.len(), tried.batches, began.elapsed().as_secs());
            });
        }
    });
    let (refused, failed) = totals.into_inner().unwrap();
    println!("{refused} passed, {failed} failed");
    if failed == 0 { ExitCode::SUCCESS } else { ExitCode::FAILURE }
}
