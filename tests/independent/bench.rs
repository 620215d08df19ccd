//! Books to measure with, all of 256 claims.
//!
//! worst        accepted convolutions with a horizon of exactly 4,096, of steep curves
//! splits       the same, of curves that list 256 values: the most splits for a judge that tries
//!              only those which it needs
//! itself       the same, of such a curve with itself: left and right are one number
//! growth_H     the same with the horizon H, which is 256, 512, 1024, 2048 or 4096
//! full_sum     accepted sums of curves that list 256 values, with a horizon of exactly 4,096
//! full_delay   accepted delay bounds with a horizon of exactly 4,095
//! largest      the book with the most bytes
//!
//! A kind's name gives small claims of that kind.

use crate::book::{Book, Curve, MOST_CLAIMS, MOST_CURVES, MOST_LISTED, MOST_X};
use crate::dice::Dice;
use crate::itself::straight;
use crate::law::{horizon, verdict, Verdict, MOST_HORIZON};
use crate::make::{bumpy, due_table, form, mended, one_claim, repeats, sound, steep_triple, PACE};

const KINDS: [&str; 7] = [
    "sum",
    "minimum",
    "convolution",
    "delay",
    "exact_delay",
    "backlog",
    "exact_backlog",
];

/// The bytes of the book.
pub fn bench(name: &str) -> Option<Vec<u8>> {
    let book = match name {
        "worst" => worst(),
        "splits" => splits(MOST_HORIZON)?,
        "itself" => itself(),
        "full_sum" => full_sum(),
        "full_delay" => full_delay(),
        "largest" => largest(),
        _ => match name.strip_prefix("growth_") {
            Some(ticks) => splits(ticks.parse().ok()?)?,
            None => small_claims(KINDS.iter().position(|k| *k == name)? as u8 + 1),
        },
    };
    Some(sound(&book))
}

/// Four triples in turn. Each tick n has n+1 splits: 8,394,753 in a claim.
fn worst() -> Book {
    let mut book = Book::default();
    for which in 0..4 {
        let [f, g, h] = steep_triple(which, MOST_HORIZON - 2 * 2_021);
        let (left, right, third) = (book.add(f), book.add(g), book.add(h));
        book.claim(3, left, right, third.into());
    }
    accepted(book, MOST_HORIZON)
}

/// A horizon with T and d, T' and d', and h's period: the slowest found for bench/plain_fast.c. It
/// tries the most splits where T+d and T'+d' are 256, and is slow where both its inner loops have
/// many; a longer horizon only adds ticks without splits. With 256 the lists can't both be long.
const SLOWEST: [(i64, [i64; 5]); 5] = [
    (256, [0, 64, 128, 64, 1]),
    (512, [64, 192, 64, 192, 1]),
    (1_024, [192, 64, 64, 192, 9]),
    (2_048, [64, 192, 64, 192, 27]),
    (4_096, [192, 64, 64, 192, 19]),
];

/// From some tick on each has a split f(u)+g(v) without a bump, so that the convolution is straight.
/// It is one with a small v, one with v in g's first period or one with a small u, as n is 4, odd,
/// or 2 and 6 modulo 8.
fn splits(ticks: i64) -> Option<Book> {
    let (_, [t, d, u, e, p]) = SLOWEST.into_iter().find(|(h, _)| *h == ticks)?;
    let mut dice = Dice::new(3, ticks as u64);
    let mut bump = |none| if none { 0 } else { dice.between(1, PACE) };
    let left = bumpy(t, d, |n| bump(n % 8 == 0 || n == 2 || n == 6));
    let right = bumpy(u, e, |n| match n < u {
        true => bump(n == 0 || n == 4),
        false => bump(n % 2 == 1 || n % 8 == 0),
    });
    let values = due_table(3, &left, &right, 2 * MOST_LISTED);
    let rank = (0..MOST_LISTED).find(|t| repeats(&values, *t, p));
    let claimed = rank.and_then(|t| form(&values, t, p));
    let book = grid(3, left, right, claimed.expect("straight in the end"));
    Some(accepted(book, ticks))
}

/// The slowest found, with T = 32 and period 17 for h. Eight curves, each with itself.
fn itself() -> Book {
    let [f, h] = straight(&mut Dice::new(3, 0), 32, 17);
    let mut book = Book::default();
    for k in 0..8 {
        let (left, third) = (book.add(raised(&f, k)), book.add(raised(&h, 2 * k)));
        book.claim(3, left, left, third.into());
    }
    accepted(book, MOST_HORIZON)
}

/// From the ranks on the bumps repeat with period 8, as the claimed curve does; D is 3,968.
fn full_sum() -> Book {
    let mut dice = Dice::new(1, 0);
    let again: Vec<i64> = (0..8).map(|_| dice.between(0, PACE)).collect();
    let mut bump = |n: i64, t| match n < t {
        true => dice.between(0, PACE),
        false => again[n as usize % 8],
    };
    let left = bumpy(8, 248, |n| bump(n, 8));
    let right = bumpy(128, 128, |n| bump(n, 128));
    let claimed = form(&due_table(1, &left, &right, 256), 128, 128);
    let book = grid(1, left, right, claimed.expect("within the limits"));
    accepted(book, MOST_HORIZON)
}

/// Periods 61 and 67 and rank 8. Four ticks gain more than a bump and the highest raise.
fn full_delay() -> Book {
    let mut book = Book::default();
    let mut dice = Dice::new(4, 0);
    for k in 0..8 {
        book.add(raised(&bumpy(8, 61, |_| dice.between(0, PACE)), k));
        book.add(raised(&bumpy(k, 67, |_| dice.between(0, PACE)), k));
    }
    for k in 0..64 {
        let (left, right) = (2 * (k / 8), 2 * (k % 8) + 1);
        book.claim(4, left as u8, right as u8, 4 + k % 3);
    }
    accepted(book, 4_095)
}

fn raised(f: &Curve, by: i64) -> Curve {
    let mut f = f.clone();
    f.values.iter_mut().for_each(|v| *v += by);
    f
}

/// The claim with both curves raised by 0 to 3, in all ways: sixteen different claims.
fn grid(kind: u8, left: Curve, right: Curve, claimed: Curve) -> Book {
    let mut book = Book::default();
    let lefts: Vec<u8> = (0..4).map(|k| book.add(raised(&left, k))).collect();
    let rights: Vec<u8> = (0..4).map(|k| book.add(raised(&right, k))).collect();
    let thirds: Vec<u8> = (0..7).map(|k| book.add(raised(&claimed, k))).collect();
    for (i, left) in lefts.iter().enumerate() {
        for (j, right) in rights.iter().enumerate() {
            book.claim(kind, *left, *right, thirds[i + j].into());
        }
    }
    book
}

/// The claims again and again. Else this program stops: it would not be what is to be measured.
fn accepted(book: Book, ticks: i64) -> Book {
    for claim in &book.claims {
        assert_eq!(horizon(&book, claim), ticks);
        assert_eq!(verdict(&book, claim), Verdict::Accepted);
    }
    repeated(book)
}

/// 16 curves of 256 values and 256 claims with an X.
fn largest() -> Book {
    let mut book = Book::default();
    let mut dice = Dice::new(0, 0);
    for k in 0..MOST_CURVES as i64 {
        let mut now = 0;
        let mut rise = |_| {
            now += dice.below(3_000);
            now
        };
        book.add(mended(Curve {
            t: MOST_LISTED - 1 - k,
            d: 1 + k,
            c: k,
            values: (0..MOST_LISTED).map(&mut rise).collect(),
        }));
    }
    for k in 0..MOST_CLAIMS as i64 {
        let (kind, left, right) = (4 + k % 4, k % 16, k / 16);
        book.claim(kind as u8, left as u8, right as u8, MOST_X - k);
    }
    book
}

fn repeated(mut book: Book) -> Book {
    book.claims = book
        .claims
        .iter()
        .cycle()
        .take(MOST_CLAIMS)
        .copied()
        .collect();
    book
}

/// Five or more small claims with their curves, again and again.
fn small_claims(kind: u8) -> Book {
    let mut book = Book::default();
    for index in 0.. {
        let mut dice = Dice::new(u64::from(kind), index);
        let one = one_claim(&mut dice, kind, 40);
        let first = book.curves.len();
        if first + one.curves.len() > MOST_CURVES {
            break;
        }
        book.curves.extend(one.curves);
        for mut claim in one.claims {
            claim.left += first as u8;
            claim.right += first as u8;
            if kind <= 3 {
                claim.third += first as i64;
            }
            book.claims.push(claim);
        }
    }
    repeated(book)
}
