//! The finite rule against the definitions of the table under "Claims", tried on ticks
//! far beyond the horizon; and kinds 4 and 5 against the delay of source document 003.
//!
//! beyond       small claims of each kind; the first disagreement ends the run
//! defined, against    the definitions, written out again rather than taken from law.rs
//! operation    kinds 1 to 3: the definition to 4*horizon+50, and R itself
//! bound        kinds 4 to 7: the same, and how far a rate takes to break a bound
//! least_wait   the least wait that serves a tick, by trying one after the other
//! delay        kinds 4 and 5: X against the largest of the least waits

use crate::book::{Book, Claim, Curve};
use crate::check::{codes, finished};
use crate::dice::Dice;
use crate::law::{horizon, lcm, pace, rank, table, value, verdict, Break, Verdict};
use crate::make::{one_claim, sound};
use crate::text::{hex, words};
use std::cmp::Ordering;
use std::collections::BTreeMap;

const MOST_TRIED: i64 = 120;

#[derive(Default)]
struct Seen {
    codes: BTreeMap<(u8, u8), u64>,
    delays: BTreeMap<&'static str, u64>,
}

pub fn beyond(seed: u64, count: u64) -> Result<String, String> {
    let mut seen = Seen::default();
    for kind in 1..=7u8 {
        for index in 0..count {
            let mut dice = Dice::new(seed ^ u64::from(kind) << 56, index);
            let book = one_claim(&mut dice, kind, MOST_TRIED);
            sound(&book);
            let verdict = verdict(&book, &book.claims[0]);
            seen.compare(&book, &verdict)
                .map_err(|what| report(kind, index, &book, &verdict, what))?;
            *seen.codes.entry((kind, verdict.code())).or_default() += 1;
        }
    }
    seen.summary()
}

fn report(kind: u8, index: u64, book: &Book, verdict: &Verdict, what: &str) -> String {
    let (judged, bytes) = (words(verdict), hex(&book.bytes()));
    format!("kind {kind}, claim {index}: {what}; judged: {judged}\nbook {bytes}\n")
}

impl Seen {
    fn compare(&mut self, book: &Book, verdict: &Verdict) -> Result<(), &'static str> {
        let claim = &book.claims[0];
        if claim.kind <= 3 {
            return operation(book, claim, verdict);
        }
        bound(book, claim, verdict)?;
        if claim.kind <= 5 {
            let shown = delay(book, claim, verdict)?;
            *self.delays.entry(shown).or_default() += 1;
        }
        Ok(())
    }

    fn summary(&self) -> Result<String, String> {
        let mut text = String::from("beyond the horizon, kind by code\n");
        let mut missing = Vec::new();
        for kind in 1..=7 {
            text += &format!("  kind {kind}:");
            for code in codes(kind).iter().filter(|code| **code != 5) {
                let count = self.codes.get(&(kind, *code)).copied().unwrap_or(0);
                text += &format!("  code {code} {count}");
                if count == 0 {
                    missing.push(format!("kind {kind} code {code}"));
                }
            }
            text += "\n";
        }
        text += "the largest of the least waits\n";
        for shown in DELAYS {
            let count = self.delays.get(shown).copied().unwrap_or(0);
            text += &format!("  {count:7} {shown}\n");
            if count == 0 {
                missing.push(shown.into());
            }
        }
        finished(text, missing)
    }
}

/// What h(n) is under "Claims".
fn defined(kind: u8, f: &[i64], g: &[i64], n: usize) -> i64 {
    if kind == 1 {
        return f[n] + g[n];
    }
    if kind == 2 {
        return if f[n] < g[n] { f[n] } else { g[n] };
    }
    let mut least = f[0] + g[n];
    for u in 1..=n {
        if f[u] + g[n - u] < least {
            least = f[u] + g[n - u];
        }
    }
    least
}

/// f(s), and what it may not exceed under "Claims".
fn against(kind: u8, f: &Curve, g: &Curve, x: i64, s: i64) -> (i64, i64) {
    let delay = kind == 4 || kind == 5;
    let right = if delay {
        value(g, s + x)
    } else {
        value(g, s) + x
    };
    (value(f, s), right)
}

/// The formula and the repeated rule give one curve.
fn same_values(f: &Curve, values: &[i64]) -> bool {
    (0..values.len()).all(|n| value(f, n as i64) == values[n])
}

fn operation(book: &Book, claim: &Claim, verdict: &Verdict) -> Result<(), &'static str> {
    let last = 4 * horizon(book, claim) + 50;
    let curve = |number: i64| &book.curves[number as usize];
    let (f, g, h) = (
        curve(claim.left.into()),
        curve(claim.right.into()),
        curve(claim.third),
    );
    let (fs, gs, hs) = (table(f, last), table(g, last), table(h, last));
    if !(same_values(f, &fs) && same_values(g, &gs) && same_values(h, &hs)) {
        return Err("formula and rule differ");
    }
    let results: Vec<i64> = (0..fs.len())
        .map(|n| defined(claim.kind, &fs, &gs, n))
        .collect();
    gains(claim.kind, f, g, &results)?;
    let first = (0..results.len()).find(|n| results[*n] != hs[*n]);
    let first = first.map(|n| (n as i64, results[n], hs[n]));
    match (verdict, first) {
        (Verdict::Accepted, None) => Ok(()),
        (Verdict::RefutedAt(named), Some(first)) if *named == first => Ok(()),
        (_, None) => Err("the claim holds on every tick tried"),
        (_, Some(_)) => Err("the first break is another one"),
    }
}

/// From R on, D ticks gain D times the rate: both rates for the sum, else the slower.
fn gains(kind: u8, f: &Curve, g: &Curve, results: &[i64]) -> Result<(), &'static str> {
    let r = rank(kind, f, g) as usize;
    let big_d = lcm(f.d, g.d);
    let (left, right) = (f.c * (big_d / f.d), g.c * (big_d / g.d));
    let gain = match kind {
        1 => left + right,
        _ => left.min(right),
    };
    let step = big_d as usize;
    let same = (r..results.len() - step).all(|n| results[n + step] == results[n] + gain);
    same.then_some(()).ok_or("R is too small a rank")
}

fn bound(book: &Book, claim: &Claim, verdict: &Verdict) -> Result<(), &'static str> {
    let horizon = horizon(book, claim);
    let last = 4 * horizon + 50;
    let f = &book.curves[claim.left as usize];
    let g = &book.curves[claim.right as usize];
    let first = |x: i64| first_break(claim.kind, f, g, x, last);
    let at_x = first(claim.third);
    let exact = claim.kind == 5 || claim.kind == 7;
    let fails_below = claim.third == 0 || first(claim.third - 1).is_some();
    match verdict {
        Verdict::RefutedAt(named) if at_x != Some(*named) => Err("the first break is another one"),
        Verdict::RefutedAt((s, _, _)) if *s >= horizon => Err("the tick named is not a tried one"),
        Verdict::RefutedAt(_) => Ok(()),
        Verdict::ByRate if at_x.is_some_and(|(s, _, _)| s < horizon) => {
            Err("a tick below the horizon breaks")
        }
        Verdict::ByRate => breaks_later(claim, f, g).map(|_| ()),
        Verdict::Accepted | Verdict::NotLeast if at_x.is_some() => Err("X is no bound"),
        Verdict::Accepted | Verdict::NotLeast if !gap_stays(claim, f, g) => Err("the gap closes"),
        Verdict::Accepted if exact && !fails_below => Err("X-1 is a bound as well"),
        Verdict::NotLeast if !exact || fails_below => Err("X-1 is no bound"),
        Verdict::Accepted | Verdict::NotLeast => Ok(()),
        Verdict::NotJudged => Err("a small claim is judged"),
    }
}

fn first_break(kind: u8, f: &Curve, g: &Curve, x: i64, last: i64) -> Option<Break> {
    for s in 0..=last {
        let (left, right) = against(kind, f, g, x, s);
        if left > right {
            return Some((s, left, right));
        }
    }
    None
}

fn gap(claim: &Claim, f: &Curve, g: &Curve, s: i64) -> i64 {
    let (left, right) = against(claim.kind, f, g, claim.third, s);
    right - left
}

/// Each D ticks take the same from the gap, so it is below 0 after gap/loss+1 times D: at the tick
/// given.
fn breaks_later(claim: &Claim, f: &Curve, g: &Curve) -> Result<i64, &'static str> {
    let big_d = lcm(f.d, g.d);
    let s = f.t.max(g.t);
    let loss = gap(claim, f, g, s) - gap(claim, f, g, s + big_d);
    if pace(f, g) != Ordering::Greater || loss <= 0 {
        return Err("f is not the faster one");
    }
    let far = s + (gap(claim, f, g, s) / loss + 1) * big_d;
    if gap(claim, f, g, far) < 0 {
        Ok(far)
    } else {
        Err("no break where the rate must have made one")
    }
}

/// D ticks take nothing from the gap: what holds up to here holds at every tick.
fn gap_stays(claim: &Claim, f: &Curve, g: &Curve) -> bool {
    let big_d = lcm(f.d, g.d);
    let s = f.t.max(g.t);
    (s..s + big_d).all(|s| gap(claim, f, g, s + big_d) >= gap(claim, f, g, s))
}

const EXACT_0: &str = "an exact delay of 0";
const EXACT: &str = "an exact delay above 0";
const BOUND: &str = "a delay bound that is the delay";
const ABOVE: &str = "a delay bound above the delay";
const EXACT_ABOVE: &str = "an exact delay claimed above the delay";
const LONGER: &str = "a tick that waits longer than X";
const NEVER: &str = "a tick that no wait serves";
const LATER: &str = "a faster curve: a later tick that waits longer than X";

const DELAYS: [&str; 8] = [
    EXACT_0,
    EXACT,
    BOUND,
    ABOVE,
    EXACT_ABOVE,
    LONGER,
    NEVER,
    LATER,
];

/// Source document 003, equation 7, on ticks: the least w with f(s) <= g(s+w). None where there is no
/// such w: with c' = 0 no value after g(T'+d'-1) is above it.
fn least_wait(f: &Curve, g: &Curve, s: i64) -> Option<i64> {
    let mut w = 0;
    while value(f, s) > value(g, s + w) {
        if g.c == 0 && s + w >= g.t + g.d - 1 {
            return None;
        }
        w += 1;
    }
    Some(w)
}

/// The largest, over the ticks up to `last`, of the least waits; none where some tick has none.
fn largest_wait(f: &Curve, g: &Curve, last: i64) -> Option<i64> {
    let mut largest = 0;
    for s in 0..=last {
        largest = largest.max(least_wait(f, g, s)?);
    }
    Some(largest)
}

/// No wait of at most X serves. Of a long X only the first waits are tried, and X itself: g never
/// falls.
fn waits_longer(f: &Curve, g: &Curve, s: i64, x: i64) -> bool {
    let tried = (0..=x.min(10_000)).chain([x]);
    tried.into_iter().all(|w| value(f, s) > value(g, s + w))
}

/// Which of DELAYS the claim shows.
fn delay(book: &Book, claim: &Claim, verdict: &Verdict) -> Result<&'static str, &'static str> {
    let f = &book.curves[claim.left as usize];
    let g = &book.curves[claim.right as usize];
    let x = claim.third;
    let within = |s: i64| least_wait(f, g, s).is_some_and(|w| w <= x);
    let largest = match verdict {
        Verdict::RefutedAt((s, ..)) if !(0..*s).all(within) => {
            return Err("a tick before the one named waits longer than X");
        }
        Verdict::RefutedAt((s, ..)) => {
            return match least_wait(f, g, *s) {
                None => Ok(NEVER),
                Some(w) if w > x => Ok(LONGER),
                Some(_) => Err("the tick named waits X at most"),
            };
        }
        Verdict::ByRate => {
            let s = breaks_later(claim, f, g)?;
            let longer = waits_longer(f, g, s, x);
            return longer.then_some(LATER).ok_or("no tick waits longer");
        }
        _ => largest_wait(f, g, 4 * horizon(book, claim) + 50).ok_or("a tick waits for ever")?,
    };
    match (verdict, claim.kind) {
        (Verdict::Accepted, 5) if x != largest => Err("X is not the largest of the least waits"),
        (Verdict::Accepted, 5) => Ok(if x == 0 { EXACT_0 } else { EXACT }),
        (Verdict::Accepted, _) if x < largest => Err("some tick waits longer than X"),
        (Verdict::Accepted, _) => Ok(if x == largest { BOUND } else { ABOVE }),
        (Verdict::NotLeast, 5) if x > largest => Ok(EXACT_ABOVE),
        (Verdict::NotLeast, 5) => Err("X is not above the largest of the least waits"),
        _ => Err("a verdict that the kind does not have"),
    }
}
