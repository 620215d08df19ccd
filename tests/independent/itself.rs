//! Document 02, request A8: of a curve with itself a split and its mirror give the same sum, so that
//! the splits up to the middle of a tick are enough. The middle of an even tick has no mirror.
//!
//! itself_book    a claim of one number twice, and the same of two; how it ends goes by its turn
//! straight       a curve that lists 256 values, and its convolution with itself: a line in the end
//! Mirrored       how such claims have ended, and where the middle alone was the least

use crate::book::{Book, Curve, MOST_LISTED};
use crate::dice::Dice;
use crate::law::{horizon, table, Decided, Verdict, MOST_HORIZON};
use crate::make::{bumpy, due_table, form, line, mended, repeats, rise, rising, shuffled, PACE};
use std::collections::{BTreeMap, BTreeSet};

const ACCEPTED: &str = "accepted";
const UNJUDGED: &str = "not judged";

/// Late is from tick 2*(T+d)-1 on, where a judge needs no splits any more.
const ENDS: [&str; 7] = [
    ACCEPTED,
    "refuted at 0",
    "refuted early, at an even tick",
    "refuted early, at an odd tick",
    "refuted late, at an even tick",
    "refuted late, at an odd tick",
    UNJUDGED,
];

/// Accepted, with a tick whose middle alone has the least sum; by where that middle lies.
const ALONE: [&str; 3] = [
    "the middle alone, below T",
    "the middle alone, from T on",
    "the middle alone, at T+d-1",
];

/// Refuted at such a tick, where the claimed value is what the other splits give.
const LEFT_OUT: [&str; 3] = [
    "the middle left out, below T",
    "the middle left out, from T on",
    "the middle left out, at T+d-1",
];

fn late(f: &Curve) -> i64 {
    2 * (f.t + f.d) - 1
}

fn refuted(f: &Curve, tick: i64) -> &'static str {
    match (tick, tick >= late(f)) {
        (0, _) => ENDS[1],
        (_, false) => ENDS[2 + tick as usize % 2],
        (_, true) => ENDS[4 + tick as usize % 2],
    }
}

/// Of a tick that is not late and whose middle alone has the least sum: where the middle lies, as
/// the two lists above have it, and the least of the other splits.
fn alone(f: &Curve, tick: i64) -> Option<(usize, i64)> {
    if tick % 2 == 1 || tick >= late(f) {
        return None;
    }
    let (values, n) = (table(f, tick), tick as usize);
    let others = (0..n / 2).map(|v| values[n - v] + values[v]).min()?;
    let place = match tick / 2 {
        m if m < f.t => 0,
        m if m < f.t + f.d - 1 => 1,
        _ => 2,
    };
    (2 * values[n / 2] < others).then_some((place, others))
}

/// All ends and middles, with T = 0 and without, in 20 turns. Half of the books have another turn's
/// claims first, so that what a judge may keep of a claim is another curve's.
pub fn itself_book(dice: &mut Dice, turn: u64) -> Book {
    let mut book = Book::default();
    if dice.once_in(2) {
        let other = dice.next();
        add_twice(&mut book, made(dice, other));
    }
    add_twice(&mut book, made(dice, turn));
    shuffled(dice, book)
}

/// Of one number, and of two with equal curves: the same record is due.
fn add_twice(book: &mut Book, [f, h]: [Curve; 2]) {
    let (one, other, third) = (book.add(f.clone()), book.add(f), book.add(h));
    book.claim(3, one, one, third.into());
    book.claim(3, one, other, third.into());
}

/// The curve and the claimed one. With T = 0 no middle is below T.
fn made(dice: &mut Dice, turn: u64) -> [Curve; 2] {
    let (zero, which) = (turn % 2 == 0, (turn / 2 % 10) as usize);
    loop {
        let made = match which {
            0 if dice.once_in(8) => Some(long(dice, zero)),
            6 => unjudged(dice, zero),
            0..=5 => ended(dice, zero, ENDS[which]),
            7 if zero => left_out(dice, zero, 1),
            _ => left_out(dice, zero, which - 7),
        };
        if let Some(made) = made {
            return made;
        }
    }
}

/// Small, or with a convolution that still fits into a list.
fn rank_period(dice: &mut Dice, zero: bool) -> (i64, i64) {
    let listed = match dice.below(10) {
        0 => dice.between(20, 80),
        _ => dice.between(2, 9),
    };
    let t = if zero { 0 } else { dice.between(1, listed - 1) };
    (t, listed - t)
}

fn any_curve(dice: &mut Dice, zero: bool) -> Curve {
    let (t, d) = rank_period(dice, zero);
    let (start, steep) = (dice.below(3), dice.between(1, 5));
    let values = rising(dice, t + d, start, steep);
    let mut curve = Curve { t, d, c: 0, values };
    curve.c = rise(&curve) + dice.below(4);
    curve
}

/// It grows faster and faster, so that the nearer a split is to the middle, the less it has. Mostly
/// a period gains so much that this holds for all splits of a tick that is not late.
fn convex(dice: &mut Dice, zero: bool) -> Curve {
    let (t, d) = rank_period(dice, zero);
    let (mut now, mut step) = (dice.below(3), dice.below(3));
    let mut values = Vec::new();
    for _ in 0..t + d {
        values.push(now);
        now += step;
        step += dice.between(1, 2);
    }
    let far = 2 * now;
    let c = dice.pick(&[0, far, far, far]);
    mended(Curve { t, d, c, values })
}

/// The true result but for one tick, with which the claim ends so.
fn ended(dice: &mut Dice, zero: bool, name: &str) -> Option<[Curve; 2]> {
    let f = match dice.once_in(2) {
        true => convex(dice, zero),
        false => any_curve(dice, zero),
    };
    let (t, p) = (2 * f.t + f.d + dice.below(3), f.d * dice.between(1, 3));
    let mut values = due_table(3, &f, &f, t + p);
    if name != ACCEPTED {
        let ticks: Vec<i64> = (0..=t + p).filter(|n| refuted(&f, *n) == name).collect();
        let n = one_of(dice, &ticks)?;
        values[n as usize] += dice.pick(&[-1, 1]);
    }
    let h = form(&values, t, p).filter(|h| h.values[0] >= 0)?;
    Some([f, h])
}

/// The true result but for one tick, where it has what the splits beside the middle give.
fn left_out(dice: &mut Dice, zero: bool, place: usize) -> Option<[Curve; 2]> {
    let f = convex(dice, zero);
    let there = |n: i64| Some((n, alone(&f, n).filter(|(p, _)| *p == place)?.1));
    let ticks: Vec<(i64, i64)> = (0..late(&f)).filter_map(there).collect();
    let (n, others) = one_of(dice, &ticks)?;
    let t = (2 * f.t + f.d).max(n + 1);
    let mut values = due_table(3, &f, &f, t + f.d);
    values[n as usize] = others;
    let h = form(&values, t, f.d)?;
    Some([f, h])
}

fn one_of<T: Clone>(dice: &mut Dice, all: &[T]) -> Option<T> {
    (!all.is_empty()).then(|| dice.pick(all))
}

/// With long periods; none where they have too small a multiple.
fn unjudged(dice: &mut Dice, zero: bool) -> Option<[Curve; 2]> {
    let (d, p) = (dice.between(20, 190), dice.between(20, 190));
    let t = if zero { 0 } else { dice.between(1, 60) };
    let values = rising(dice, t + d, 0, 3);
    let f = mended(Curve { t, d, c: 0, values });
    let h = line(dice.below(60), p, 1, 0);
    let mut book = Book::default();
    add_twice(&mut book, [f.clone(), h.clone()]);
    (horizon(&book, &book.claims[0]) > MOST_HORIZON).then_some([f, h])
}

fn long(dice: &mut Dice, zero: bool) -> [Curve; 2] {
    let t = if zero { 0 } else { 8 * dice.between(1, 31) };
    straight(dice, t, 1)
}

/// Of rank t, a multiple of 8, with h of period p. From t on each tick has a split f(u)+f(v) without
/// a bump: u is 0, 2, 4 or 6.
pub fn straight(dice: &mut Dice, t: i64, p: i64) -> [Curve; 2] {
    let f = bumpy(t, MOST_LISTED - t, |n| match n {
        0 | 2 | 4 | 6 => 0,
        _ if n >= t && (n % 2 == 1 || n % 8 == 0) => 0,
        _ => dice.between(1, PACE),
    });
    let values = due_table(3, &f, &f, 2 * MOST_LISTED);
    let rank = (0..MOST_LISTED).find(|t| repeats(&values, *t, p));
    let h = rank.and_then(|t| form(&values, t, p));
    [f, h.expect("straight in the end")]
}

/// What the judged convolutions of equal curves have reached: whether the curve's numbers are equal
/// too, whether T is 0, and a name of the lists above.
#[derive(Default)]
pub struct Mirrored(BTreeMap<(bool, bool, &'static str), u64>);

impl Mirrored {
    pub fn see(&mut self, book: &Book, verdicts: &[Decided]) {
        for (claim, Decided { kind, verdict, .. }) in book.claims.iter().zip(verdicts) {
            let f = &book.curves[claim.left as usize];
            if *kind == 3 && *f == book.curves[claim.right as usize] {
                let one = claim.left == claim.right;
                for name in reached(f, verdict) {
                    *self.0.entry((one, f.t == 0, name)).or_default() += 1;
                }
            }
        }
    }

    fn count(&self, one: bool, zero: bool, name: &'static str) -> u64 {
        self.0.get(&(one, zero, name)).copied().unwrap_or(0)
    }

    pub fn missing(&self) -> Vec<String> {
        let mut missing = Vec::new();
        for (name, [one, zero]) in names().flat_map(|name| COLUMNS.map(|c| (name, c))) {
            let never = zero && [ALONE[0], LEFT_OUT[0]].contains(&name);
            if !never && self.count(one, zero, name) == 0 {
                let numbers = if one { "one number" } else { "two numbers" };
                let rank = if zero { "T = 0" } else { "T > 0" };
                missing.push(format!("a curve with itself, {numbers}, {rank}: {name}"));
            }
        }
        missing
    }

    pub fn summary(&self) -> String {
        let mut text = String::from(HEAD);
        for name in names() {
            let [a, b, c, d] = COLUMNS.map(|[one, zero]| self.count(one, zero, name));
            text += &format!("  {name:31} {a:17} {b:7} {c:18} {d:7}\n");
        }
        text
    }
}

/// One number or two, T = 0 or not, as HEAD has them.
const COLUMNS: [[bool; 2]; 4] = [[true, true], [true, false], [false, true], [false, false]];

const HEAD: &str = "\
a curve with itself               one number, T = 0   T > 0 two numbers, T = 0   T > 0
";

fn names() -> impl Iterator<Item = &'static str> {
    ENDS.into_iter().chain(ALONE).chain(LEFT_OUT)
}

fn reached(f: &Curve, verdict: &Verdict) -> BTreeSet<&'static str> {
    match verdict {
        Verdict::Accepted => {
            let places = (0..late(f)).filter_map(|n| alone(f, n));
            let alone = places.map(|(place, _)| ALONE[place]);
            alone.chain([ACCEPTED]).collect()
        }
        Verdict::RefutedAt((n, _, claimed)) => {
            let place = alone(f, *n).filter(|(_, others)| others == claimed);
            let left_out = place.map(|(place, _)| LEFT_OUT[place]);
            left_out.into_iter().chain([refuted(f, *n)]).collect()
        }
        _ => BTreeSet::from([UNJUDGED]),
    }
}
