//! Document 02, request A2: where one period meets the next, f(T)+c may not be below f(T+d-1).
//!
//! READINGS       wrong readings of that rule; each run has to meet a curve on which each goes wrong
//! told_apart     those that go wrong on a curve
//! held_at        the curve in a field, whatever else is wrong with it
//! falls_there    whether a curve falls at the seam and nowhere else
//! edge_of_seam   a curve whose increment is just what its period gains
//! let_fall       the same with one change, so that it falls there
//! over_limit, long_list    more wrong with it, tried before refusal 9
//! seam_book      a book with such a curve in some place; which way goes by its turn

use crate::book::{join, number, Book, Curve, CURVE, MOST_CURVES, MOST_LISTED, MOST_UNITS};
use crate::dice::Dice;
use crate::make::{cost, rise, small_book, small_curve};

/// Whether a curve falls at the seam, by a wrong reading.
type Reading = (&'static str, fn(&Curve) -> bool);

/// f(n), or the listed value that is next to it.
fn at(f: &Curve, n: i64) -> i64 {
    f.values[n.clamp(0, f.t + f.d - 1) as usize]
}

fn first(f: &Curve) -> i64 {
    at(f, f.t) + f.c
}

fn last(f: &Curve) -> i64 {
    at(f, f.t + f.d - 1)
}

fn falls(f: &Curve) -> bool {
    first(f) < last(f)
}

pub const READINGS: [Reading; 17] = [
    ("f(0) for f(T)", |f| at(f, 0) + f.c < last(f)),
    ("f(T-1) for f(T)", |f| at(f, f.t - 1) + f.c < last(f)),
    ("f(T+1) for f(T)", |f| at(f, f.t + 1) + f.c < last(f)),
    ("f(T+d-1) for f(T)", |f| last(f) + f.c < last(f)),
    ("f(T+d-2) for f(T+d-1)", |f| first(f) < at(f, f.t + f.d - 2)),
    ("f(d-1) for f(T+d-1)", |f| first(f) < at(f, f.d - 1)),
    ("c left out", |f| at(f, f.t) < last(f)),
    ("no more than f(T+d-1)", |f| first(f) <= last(f)),
    ("a fall of 1 let in", |f| first(f) + 1 < last(f)),
    ("16 bits of it", |f| first(f) % 65_536 < last(f) % 65_536),
    ("8 bits of it", |f| first(f) % 256 < last(f) % 256),
    ("only if T = 0", |f| f.t == 0 && falls(f)),
    ("only if T > 0", |f| f.t > 0 && falls(f)),
    ("only if c = 0", |f| f.c == 0 && falls(f)),
    ("only if c > 0", |f| f.c > 0 && falls(f)),
    ("only if d > 2", |f| f.d > 2 && falls(f)),
    ("only if T+d < 256", |f| f.t + f.d < MOST_LISTED && falls(f)),
];

/// The names of the readings that go wrong on a curve with nothing else wrong with it.
pub fn told_apart(f: &Curve) -> impl Iterator<Item = &'static str> + '_ {
    let wrong = |(_, reading): &&Reading| reading(f) != falls(f);
    READINGS.iter().filter(wrong).map(|(name, _)| *name)
}

/// Of a curve's field with 8 bytes or more. The list is as long as the bytes that are there, and its
/// length may be another than T+d.
pub fn held_at(book: &[u8], place: usize) -> Option<Curve> {
    let Some([CURVE, high, low, rest @ ..]) = book.get(place..) else {
        return None;
    };
    let length = number(&[*high, *low]) as usize;
    let content = &rest[..length.min(rest.len())];
    (content.len() >= 8).then(|| Curve {
        t: number(&content[0..2]),
        d: number(&content[2..4]),
        c: number(&content[4..8]),
        values: content[8..].chunks_exact(4).map(number).collect(),
    })
}

/// f(T) and f(T+d-1) have to be listed.
pub fn falls_there(f: &Curve) -> bool {
    let rises = f.values.windows(2).all(|w| w[0] <= w[1]);
    let listed = 0 < f.d && f.t + f.d <= f.values.len() as i64;
    rises && listed && falls(f)
}

/// Every value is above the one before it, so that neighbours can't be taken for each other.
pub fn edge_of_seam(dice: &mut Dice) -> Curve {
    let (t, d) = if dice.once_in(4) {
        let d = dice.pick(&[2, 3, 128, 255, 256]);
        (MOST_LISTED - d, d)
    } else {
        (dice.below(6), dice.between(2, 5))
    };
    let most = dice.pick(&[1, 4, 300, MOST_UNITS / (t + d)]);
    let mut values = vec![dice.below(3)];
    while (values.len() as i64) < t + d {
        values.push(values[values.len() - 1] + dice.between(1, most));
    }
    let mut curve = Curve { t, d, c: 0, values };
    curve.c = rise(&curve);
    curve
}

/// c is too small, mostly by one, or the last value is too large by one.
pub fn let_fall(dice: &mut Dice, f: &mut Curve) {
    let any = dice.below(f.c);
    let less = dice.pick(&[f.c - 1, f.c - 1, any, 0]);
    if dice.once_in(3) {
        *f.values.last_mut().expect("d >= 1") += 1;
    } else {
        f.c = less;
    }
}

/// The last value, or c and the last value, or all values. It falls at the seam as before.
pub fn over_limit(dice: &mut Dice, f: &mut Curve) {
    let last = f.values.len() - 1;
    match dice.below(3) {
        0 => f.values[last] = 3 * MOST_UNITS,
        1 => (f.c, f.values[last]) = (MOST_UNITS + 1, 3 * MOST_UNITS),
        _ => f.values.iter_mut().for_each(|v| *v += MOST_UNITS),
    }
}

/// T+d = 257 and as many values, and it falls at the seam.
pub fn long_list(dice: &mut Dice) -> Curve {
    let t = dice.pick(&[0, 1, 128, 255]);
    let d = MOST_LISTED + 1 - t;
    Curve {
        t,
        d,
        c: dice.below(d - 1),
        values: (0..t + d).collect(),
    }
}

/// The edge itself, a fall, and a fall with what is tried before it: 8, 6, 7, 3, 4 and 1.
const WAYS: u64 = 10;

pub fn seam_book(dice: &mut Dice, turn: u64) -> Vec<u8> {
    let way = turn % WAYS;
    let mut curve = edge_of_seam(dice);
    if way >= 2 {
        let_fall(dice, &mut curve);
    }
    match way {
        4 => over_limit(dice, &mut curve),
        5 => curve.values.extend(curve.values.last().copied()),
        6 => curve = long_list(dice),
        7 => return after_a_claim(dice, &curve),
        8 => return as_the_17th(dice, &curve),
        _ => {}
    }
    let (book, at) = book_with(dice, &curve, way < 2);
    let mut fields = book.fields();
    if way == 9 {
        fields.truncate(at + 2);
        fields[at + 1].length += dice.between(1, 4) as u16;
    }
    join(&fields)
}

/// The curve's number is the second. Only a sound book can be costly.
fn book_with(dice: &mut Dice, curve: &Curve, sound: bool) -> (Book, usize) {
    loop {
        let mut book = small_book(dice, false);
        if book.claims.is_empty() {
            continue;
        }
        let at = dice.index(book.curves.len());
        book.curves[at] = curve.clone();
        if !sound || cost(&book) <= 20_000 {
            return (book, at);
        }
    }
}

fn after_a_claim(dice: &mut Dice, curve: &Curve) -> Vec<u8> {
    let book = loop {
        let book = small_book(dice, false);
        if !book.claims.is_empty() {
            break book;
        }
    };
    let mut fields = book.fields();
    let at = 2 + book.curves.len() + dice.index(book.claims.len());
    fields.insert(at, curve.field());
    join(&fields)
}

fn as_the_17th(dice: &mut Dice, curve: &Curve) -> Vec<u8> {
    let mut book = Book::default();
    while book.curves.len() < MOST_CURVES {
        book.add(small_curve(dice));
    }
    book.add(curve.clone());
    join(&book.fields())
}
