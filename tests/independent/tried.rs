//! Which counts of ticks tried the judged claims have had.
//!
//! Counts    by kinds 1 to 3 or 4 to 7, and by a name of NAMES

use crate::law::{all_ticks, Decided, Verdict, MOST_HORIZON};
use std::collections::BTreeMap;

/// Where a refuted claim was refuted; of the others all ticks, or none; and how large a count was.
const NAMES: [&str; 7] = [
    "refuted at tick 0",
    "refuted between",
    "refuted at the last tick",
    "all",
    "none",
    "a count of 256 or more",
    "all of a horizon of 4,096",
];

#[derive(Default)]
pub struct Counts(BTreeMap<(bool, &'static str), u64>);

fn end(decided: &Decided) -> &'static str {
    match decided.verdict {
        Verdict::RefutedAt((0, _, _)) => NAMES[0],
        Verdict::RefutedAt((n, _, _)) if n + 1 < decided.all => NAMES[1],
        Verdict::RefutedAt(_) => NAMES[2],
        Verdict::NotJudged => NAMES[4],
        _ => NAMES[3],
    }
}

fn sizes(decided: &Decided) -> Vec<&'static str> {
    let mut names = Vec::new();
    if decided.tried >= 256 {
        names.push(NAMES[5]);
    }
    if decided.tried == all_ticks(decided.kind, MOST_HORIZON) {
        names.push(NAMES[6]);
    }
    names
}

impl Counts {
    pub fn see(&mut self, decided: &Decided) {
        for name in sizes(decided).into_iter().chain([end(decided)]) {
            *self.0.entry((decided.kind >= 4, name)).or_default() += 1;
        }
    }

    fn count(&self, bound: bool, name: &'static str) -> u64 {
        self.0.get(&(bound, name)).copied().unwrap_or(0)
    }

    pub fn missing(&self) -> Vec<String> {
        let mut missing = Vec::new();
        for (bound, kinds) in [(false, "kinds 1 to 3"), (true, "kinds 4 to 7")] {
            let unseen = |name: &&&'static str| self.count(bound, name) == 0;
            for name in NAMES.iter().filter(unseen) {
                missing.push(format!("ticks tried, {kinds}: {name}"));
            }
        }
        missing
    }

    pub fn summary(&self) -> String {
        let mut text = String::from("ticks tried                  kinds 1 to 3  kinds 4 to 7\n");
        for name in NAMES {
            let [equal, bound] = [false, true].map(|bound| self.count(bound, name));
            text += &format!("  {name:25} {equal:13} {bound:13}\n");
        }
        text
    }
}
