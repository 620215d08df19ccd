//! Claims with a horizon of 4,095 to 4,097 whose periods share divisors: a product in the place of
//! a least common multiple shows, and so does a sum of ranks in the place of the greater one, or
//! the greater one in the place of their sum.
//!
//! shared_book    one claim; its kind, its horizon and its rates go by its turn
//! TARGETS        the horizons
//! RATES          f's rate against g's

use crate::book::{Book, MOST_LISTED, MOST_X};
use crate::dice::Dice;
use crate::law::{horizon, lcm};
use crate::make::{line, shuffled};
use std::cmp::Ordering;

pub const TARGETS: [i64; 3] = [4_095, 4_096, 4_097];
pub const RATES: [Ordering; 3] = [Ordering::Equal, Ordering::Less, Ordering::Greater];

/// All kinds, horizons and rates in 63 turns.
pub fn shared_book(dice: &mut Dice, turn: u64) -> Book {
    let kind = 1 + (turn % 7) as u8;
    let target = TARGETS[(turn / 7 % 3) as usize];
    let rates = RATES[(turn / 21 % 3) as usize];
    loop {
        let periods = periods(dice);
        if let Some(ranks) = ranks(dice, kind, periods, target) {
            let book = lines(dice, kind, periods, ranks, rates);
            assert_eq!(horizon(&book, &book.claims[0]), target);
            return shuffled(dice, book);
        }
    }
}

const SHARING: [(i64, i64); 8] = [
    (64, 128),
    (48, 80),
    (60, 84),
    (96, 128),
    (90, 120),
    (100, 150),
    (124, 128),
    (176, 184),
];

/// Of f, g and h. Those of f and g share a divisor, and mostly h's shares one with their multiple.
fn periods(dice: &mut Dice) -> [i64; 3] {
    let (d, e) = if dice.once_in(2) {
        dice.pick(&SHARING)
    } else {
        let divisor = dice.between(2, 64);
        let most = MOST_LISTED / divisor;
        let mut period = || divisor * dice.between(1, most);
        (period(), period())
    };
    let divisor = dice.pick(&[2, 3, 4, 5, 6, 7, 8]);
    let sharing = divisor * dice.between(1, MOST_LISTED / divisor);
    let any = dice.between(1, MOST_LISTED);
    let h = dice.pick(&[1, any, sharing, sharing]);
    if dice.once_in(2) {
        [d, e, h]
    } else {
        [e, d, h]
    }
}

/// Ranks of f, g and h that bring the horizon to the target, if there are such.
fn ranks(dice: &mut Dice, kind: u8, [d, e, h]: [i64; 3], target: i64) -> Option<[i64; 3]> {
    let big_d = lcm(d, e);
    let p = if kind <= 3 { lcm(big_d, h) } else { big_d };
    let k = target - p;
    let most = [d, e, h].map(|d| (MOST_LISTED - d).min(k));
    if kind == 3 && dice.once_in(2) {
        return sum_of_ranks(dice, most, k - big_d);
    }
    let mut ranks = most.map(|most| some_rank(dice, most.max(0)));
    let decides = if kind == 3 {
        2
    } else {
        dice.index(if kind < 3 { 3 } else { 2 })
    };
    ranks[decides] = k;
    let sum = ranks[0] + ranks[1] + big_d;
    let within = 0 <= k && k == most[decides] && (kind != 3 || sum <= k);
    within.then_some(ranks)
}

/// T+T' is `sum`.
fn sum_of_ranks(dice: &mut Dice, most: [i64; 3], sum: i64) -> Option<[i64; 3]> {
    let (low, high) = ((sum - most[1]).max(0), most[0].min(sum));
    if sum < 0 || low > high {
        return None;
    }
    let t = low + some_rank(dice, high - low);
    Some([t, sum - t, some_rank(dice, most[2])])
}

/// 0, the most, or any.
fn some_rank(dice: &mut Dice, most: i64) -> i64 {
    let any = dice.below(most + 1);
    dice.pick(&[0, most, any, any])
}

/// Lines that cross at once, so that N stays below the ranks. A convolution mostly breaks at tick
/// 0, so it is cheap if judged; half of the sums and minima do.
fn lines(dice: &mut Dice, kind: u8, periods: [i64; 3], ranks: [i64; 3], rates: Ordering) -> Book {
    let slow = dice.below(3);
    let fast = slow + dice.between(1, 2);
    let low = dice.below(3);
    let high = low + dice.below(2);
    let ((p, s), (q, r)) = match rates {
        Ordering::Equal if dice.once_in(2) => ((slow, high), (slow, low)),
        Ordering::Equal => ((slow, low), (slow, high)),
        Ordering::Less => ((slow, low), (fast, high)),
        Ordering::Greater => ((fast, high), (slow, low)),
    };
    let mut book = Book::default();
    let left = book.add(line(ranks[0], periods[0], p, s));
    let right = book.add(line(ranks[1], periods[1], q, r));
    if kind > 3 {
        let x = dice.pick(&[0, 1, 2, 3, MOST_X]);
        book.claim(kind, left, right, x);
        return book;
    }
    let (pace, start) = match kind {
        1 => (p + q, s + r),
        2 => (p.min(q), s.min(r)),
        _ => (p.min(q), s + r),
    };
    let wrong = if kind == 3 {
        !dice.once_in(20)
    } else {
        dice.once_in(2)
    };
    let h = line(ranks[2], periods[2], pace, start + i64::from(wrong));
    let third = book.add(h);
    book.claim(kind, left, right, third.into());
    book
}
