//! Document 01, "Curves", "Claims", "The horizon" and "Verdicts", with its letters, and document 02, A3.
//! Numbers are signed throughout, so N is worked out just as document 01 writes it.
//!
//! value, table             a curve's value by formula, and by repeating its rule
//! gcd, lcm                 Euclid's rule, and the common multiple that rests on it
//! sum_rank, minimum_rank, convolution_rank, rank    R
//! horizon                  K+P for kinds 1 to 3, max(T,T')+D for kinds 4 to 7
//! due                      f(n)+g(n), the smaller, or the least f(u)+g(n-u)
//! sides                    f(s) against g(s+X) or g(s)+X
//! Verdict, verdict         the five codes, tried in document 01's order
//! Decided, decided         kind, verdict and ticks tried of a claim
//! all_ticks, tried         how many ticks a horizon has, and document 02's count of those tried
//! Decided::record          the bytes of its record

use crate::book::{Book, Claim, Curve};
use std::cmp::Ordering;

pub const MOST_HORIZON: i64 = 4_096;

/// f(n). From T on, n stands as many whole periods above its place in the first period.
pub fn value(f: &Curve, n: i64) -> i64 {
    if n < f.t + f.d {
        return f.values[n as usize];
    }
    let periods = (n - f.t) / f.d;
    f.values[(n - periods * f.d) as usize] + periods * f.c
}

/// f(0) to f(last), by f(n+d) = f(n)+c again and again.
pub fn table(f: &Curve, last: i64) -> Vec<i64> {
    let mut all = f.values.clone();
    while all.len() as i64 <= last {
        all.push(all[all.len() - f.d as usize] + f.c);
    }
    all.truncate(last as usize + 1);
    all
}

pub fn gcd(a: i64, b: i64) -> i64 {
    if b == 0 {
        a
    } else {
        gcd(b, a % b)
    }
}

pub fn lcm(a: i64, b: i64) -> i64 {
    a / gcd(a, b) * b
}

/// a/b rounded up, for b > 0 and any a. Rust rounds towards 0, which is up below 0.
fn divide_up(a: i64, b: i64) -> i64 {
    if a % b > 0 {
        a / b + 1
    } else {
        a / b
    }
}

/// c*d' against c'*d: Less where f is slower.
pub fn pace(f: &Curve, g: &Curve) -> Ordering {
    (f.c * g.d).cmp(&(g.c * f.d))
}

/// The greatest d*f(t) - c*t over T <= t < T+d.
fn greatest(f: &Curve) -> i64 {
    let all = (f.t..f.t + f.d).map(|t| f.d * value(f, t) - f.c * t);
    all.max().expect("d >= 1")
}

/// The least d'*g(t) - c'*t over T' <= t < T'+d'.
fn least(g: &Curve) -> i64 {
    let all = (g.t..g.t + g.d).map(|t| g.d * value(g, t) - g.c * t);
    all.min().expect("d' >= 1")
}

/// N, for f slower: the larger of 0 and (d'*A - d*B)/(c'*d - c*d') rounded up.
fn crossing(f: &Curve, g: &Curve, a: i64, b: i64) -> i64 {
    divide_up(g.d * a - f.d * b, g.c * f.d - f.c * g.d).max(0)
}

pub fn sum_rank(f: &Curve, g: &Curve) -> i64 {
    f.t.max(g.t)
}

pub fn minimum_rank(f: &Curve, g: &Curve) -> i64 {
    let plain = f.t.max(g.t);
    match pace(f, g) {
        Ordering::Equal => plain,
        Ordering::Less => plain.max(crossing(f, g, greatest(f), least(g))),
        Ordering::Greater => minimum_rank(g, f),
    }
}

pub fn convolution_rank(f: &Curve, g: &Curve) -> i64 {
    let plain = f.t + g.t + lcm(f.d, g.d);
    match pace(f, g) {
        Ordering::Equal => plain,
        Ordering::Less => plain.max(convolution_crossing(f, g)),
        Ordering::Greater => convolution_rank(g, f),
    }
}

/// N of the convolution, for f slower. With T = 0 no tick is before f's first
/// period: the list of B's increase is empty and N is 0.
fn convolution_crossing(f: &Curve, g: &Curve) -> i64 {
    let before = (0..f.t).map(|t| g.d * value(f, t) - g.c * t).min();
    match before {
        None => 0,
        Some(before) => {
            let a = greatest(f) + f.d * value(g, g.t) - f.c * g.t;
            let b = least(g) + before;
            crossing(f, g, a, b)
        }
    }
}

/// R, for kinds 1 to 3.
pub fn rank(kind: u8, f: &Curve, g: &Curve) -> i64 {
    match kind {
        1 => sum_rank(f, g),
        2 => minimum_rank(f, g),
        3 => convolution_rank(f, g),
        _ => unreachable!("kinds 4 to 7 have no rank"),
    }
}

pub fn horizon(book: &Book, claim: &Claim) -> i64 {
    let f = &book.curves[claim.left as usize];
    let g = &book.curves[claim.right as usize];
    let big_d = lcm(f.d, g.d);
    if claim.kind >= 4 {
        return f.t.max(g.t) + big_d;
    }
    let h = &book.curves[claim.third as usize];
    let k = rank(claim.kind, f, g).max(h.t);
    let p = lcm(big_d, h.d);
    k + p
}

/// What h(n) has to be, from the values of f and g at 0 to n.
pub fn due(kind: u8, f: &[i64], g: &[i64], n: usize) -> i64 {
    match kind {
        1 => f[n] + g[n],
        2 => f[n].min(g[n]),
        _ => {
            let sums = (0..=n).map(|u| f[u] + g[n - u]);
            sums.min().expect("u = 0 is always tried")
        }
    }
}

/// The two sides of kinds 4 to 7; the claim breaks where the first is greater.
pub fn sides(kind: u8, f: &Curve, g: &Curve, x: i64, s: i64) -> (i64, i64) {
    match kind {
        4 | 5 => (value(f, s), value(g, s + x)),
        _ => (value(f, s), value(g, s) + x),
    }
}

/// A tick that breaks the rule, with the left and right values of its record.
pub type Break = (i64, i64, i64);

/// Kinds 1 to 3: the first break of ticks 0 to K+P, the last one included.
fn operation_break(book: &Book, claim: &Claim, horizon: i64) -> Option<Break> {
    let of = |number: i64| table(&book.curves[number as usize], horizon);
    let f = of(claim.left.into());
    let g = of(claim.right.into());
    let h = of(claim.third);
    (0..=horizon as usize)
        .map(|n| (n as i64, due(claim.kind, &f, &g, n), h[n]))
        .find(|(_, due, claimed)| due != claimed)
}

/// Kinds 4 to 7: the first break of the ticks below `end`.
pub fn bound_break(kind: u8, f: &Curve, g: &Curve, x: i64, end: i64) -> Option<Break> {
    (0..end)
        .map(|s| (s, sides(kind, f, g, x, s)))
        .map(|(s, (left, right))| (s, left, right))
        .find(|(_, left, right)| left > right)
}

#[derive(Clone, Copy, Debug, PartialEq, Eq)]
pub enum Verdict {
    Accepted,
    RefutedAt(Break),
    ByRate,
    NotLeast,
    NotJudged,
}

pub fn verdict(book: &Book, claim: &Claim) -> Verdict {
    let (kind, x) = (claim.kind, claim.third);
    let f = &book.curves[claim.left as usize];
    let g = &book.curves[claim.right as usize];
    let horizon = horizon(book, claim);
    if horizon > MOST_HORIZON {
        return Verdict::NotJudged;
    }
    let first = match kind {
        1..=3 => operation_break(book, claim, horizon),
        _ => bound_break(kind, f, g, x, horizon),
    };
    if let Some(first) = first {
        return Verdict::RefutedAt(first);
    }
    if kind >= 4 && pace(f, g) == Ordering::Greater {
        return Verdict::ByRate;
    }
    // The rate has passed, so X-1 is a bound if no tick below the horizon breaks it.
    let exact = kind == 5 || kind == 7;
    if exact && x > 0 && bound_break(kind, f, g, x - 1, horizon).is_none() {
        return Verdict::NotLeast;
    }
    Verdict::Accepted
}

impl Verdict {
    pub fn code(&self) -> u8 {
        match self {
            Verdict::Accepted => 1,
            Verdict::RefutedAt(_) => 2,
            Verdict::ByRate => 3,
            Verdict::NotLeast => 4,
            Verdict::NotJudged => 5,
        }
    }
}

/// What is due of one claim.
#[derive(Clone, Copy)]
pub struct Decided {
    pub kind: u8,
    pub verdict: Verdict,
    pub tried: i64,
    /// How many ticks its horizon has, tried or not.
    pub all: i64,
}

/// Ticks 0 to K+P for kinds 1 to 3, those below the horizon for kinds 4 to 7.
pub fn all_ticks(kind: u8, horizon: i64) -> i64 {
    match kind {
        1..=3 => horizon + 1,
        _ => horizon,
    }
}

/// "the named tick plus 1 for code 2, and 0 for code 5. Else it is the horizon for kinds 4 to 7 and the
/// horizon plus 1 for kinds 1 to 3."
pub fn tried(kind: u8, horizon: i64, verdict: &Verdict) -> i64 {
    match verdict {
        Verdict::RefutedAt((tick, _, _)) => tick + 1,
        Verdict::NotJudged => 0,
        _ => all_ticks(kind, horizon),
    }
}

pub fn decided(book: &Book, claim: &Claim) -> Decided {
    let (kind, verdict, horizon) = (claim.kind, verdict(book, claim), horizon(book, claim));
    Decided {
        kind,
        verdict,
        tried: tried(kind, horizon, &verdict),
        all: all_ticks(kind, horizon),
    }
}

impl Decided {
    /// Code, tick (4 bytes), left (8), right (8), ticks tried (2). All but code 2 leave twenty zero bytes
    /// between.
    pub fn record(&self) -> [u8; 23] {
        let mut record = [0; 23];
        record[0] = self.verdict.code();
        if let Verdict::RefutedAt((tick, left, right)) = self.verdict {
            record[1..5].copy_from_slice(&(tick as u32).to_be_bytes());
            record[5..13].copy_from_slice(&left.to_be_bytes());
            record[13..21].copy_from_slice(&right.to_be_bytes());
        }
        record[21..23].copy_from_slice(&(self.tried as u16).to_be_bytes());
        record
    }
}
