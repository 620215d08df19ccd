//! Sound books: small curves with true and nearly true claims, edges of the limits,
//! and horizons about 4,096.
//!
//! Maker            a book that grows claim by claim
//! small_book       one to four claims, with small or with edge curves
//! many_claims      up to 256 claims over a few curves
//! full_of          256 claims with given codes
//! large_book       a horizon of 4,095 to 4,097
//! crossing_book    a crossing N that decides whether the horizon is above 4,096
//! steep_book       the same with curves that jump within a period
//! ranks_book       a horizon of 4,096 or 4,097 by ranks, with different rates
//! unjudged_book    a horizon above 4,096, cheap for any judge
//! one_claim        a book of one small claim of a given kind
//! bumpy            a line of pace 3 with given bumps
//! steep_triple     f, g and their convolution, with T+T'+2*2,021 as the horizon
//! cost             what a judge of a book adds or compares at most
//! rise, mended     what a period's values gain; the curve with no smaller increment
//! sound            the bytes of a book, which has to be read as it was made

use crate::book::{read, Book, Claim, Curve};
use crate::book::{MOST_CLAIMS, MOST_CURVES, MOST_LISTED, MOST_UNITS, MOST_X};
use crate::dice::Dice;
use crate::law::{bound_break, due, gcd, horizon, lcm, rank, sides, table, verdict, MOST_HORIZON};

pub struct Maker<'a> {
    pub dice: &'a mut Dice,
    pub book: Book,
    /// Curves at the limits rather than small ones.
    pub edges: bool,
}

/// One to four claims; now and then none, or no curve at all.
pub fn small_book(dice: &mut Dice, edges: bool) -> Book {
    let budget = if dice.once_in(40) { 300_000 } else { 20_000 };
    loop {
        let mut maker = Maker::new(dice, edges);
        let claims = match maker.dice.below(40) {
            0 => return Book::default(),
            1 | 2 => 0,
            n => 1 + n % 4,
        };
        if claims == 0 || maker.dice.once_in(4) {
            maker.loose_curves();
        }
        for _ in 0..claims {
            let kind = maker.dice.between(1, 7) as u8;
            maker.any_claim(kind);
        }
        let book = maker.finish();
        if cost(&book) <= budget {
            return book;
        }
    }
}

/// One claim of the kind, no other curves, and a horizon of at most `most`.
pub fn one_claim(dice: &mut Dice, kind: u8, most: i64) -> Book {
    loop {
        let mut maker = Maker::new(dice, false);
        maker.made_claim(kind);
        let book = maker.book;
        if horizon(&book, &book.claims[0]) <= most {
            return book;
        }
    }
}

/// Any curves, any claims over them: 256 of them, or nearly.
pub fn many_claims(dice: &mut Dice) -> Book {
    loop {
        let mut maker = Maker::new(dice, false);
        maker.made_claim(1);
        maker.made_claim(2);
        maker.made_claim(3);
        maker.loose_curves();
        let count = maker.dice.pick(&[MOST_CLAIMS, MOST_CLAIMS, 255, 128]);
        while maker.book.claims.len() < count {
            maker.random_claim();
        }
        let book = maker.finish();
        if cost(&book) <= 200_000 {
            return book;
        }
    }
}

/// 256 claims with these codes and no other.
pub fn full_of(dice: &mut Dice, codes: &[u8]) -> Book {
    loop {
        let mut book = if codes.contains(&5) {
            unjudged_book(dice)
        } else {
            small_book(dice, false)
        };
        let wanted = |claim: &&Claim| codes.contains(&verdict(&book, claim).code());
        let claims: Vec<Claim> = book.claims.iter().filter(wanted).copied().collect();
        book.claims = claims.iter().cycle().take(MOST_CLAIMS).copied().collect();
        if !claims.is_empty() && cost(&book) <= 200_000 {
            return book;
        }
    }
}

/// Else this program stops: what is said to be sound and isn't would leave the judge untried.
pub fn sound(book: &Book) -> Vec<u8> {
    let bytes = book.bytes();
    assert_eq!(read(&bytes).as_ref(), Ok(book));
    bytes
}

/// Additions or comparisons that a judge of this book makes at most.
pub fn cost(book: &Book) -> i64 {
    let one = |claim| match (horizon(book, claim), claim.kind) {
        (h, _) if h > MOST_HORIZON => 0,
        (h, 3) => h * h / 2,
        (h, _) => h,
    };
    book.claims.iter().map(one).sum()
}

impl<'a> Maker<'a> {
    fn new(dice: &'a mut Dice, edges: bool) -> Maker<'a> {
        Maker {
            dice,
            book: Book::default(),
            edges,
        }
    }

    fn curve(&mut self) -> Curve {
        if self.edges && !self.dice.once_in(3) {
            edge_curve(self.dice)
        } else {
            small_curve(self.dice)
        }
    }

    fn loose_curves(&mut self) {
        for _ in 0..self.dice.between(1, 3) {
            let curve = self.curve();
            self.book.add(curve);
        }
    }

    fn any_number(&mut self) -> u8 {
        self.dice.index(self.book.curves.len()) as u8
    }

    /// Two of the book's curves, one new curve twice, or two new ones.
    fn operands(&mut self) -> (u8, u8) {
        match self.dice.below(8) {
            0 if !self.book.curves.is_empty() => (self.any_number(), self.any_number()),
            1 => {
                let curve = self.curve();
                let number = self.book.add(curve);
                (number, number)
            }
            _ => {
                let (mut f, mut g) = (self.curve(), self.curve());
                if self.dice.once_in(2) {
                    same_pace(self.dice, &mut f, &mut g);
                }
                (self.book.add(f), self.book.add(g))
            }
        }
    }

    fn any_claim(&mut self, kind: u8) {
        if !self.book.curves.is_empty() && self.dice.once_in(4) {
            self.random_claim();
        } else {
            self.made_claim(kind);
        }
    }

    /// Any kind, any curves of the book, any X.
    fn random_claim(&mut self) {
        let kind = self.dice.between(1, 7) as u8;
        let (left, right) = (self.any_number(), self.any_number());
        let third = if kind <= 3 {
            self.any_number().into()
        } else {
            let small = self.dice.below(8);
            self.dice.pick(&[0, 1, small, small, small, MOST_X])
        };
        self.book.claim(kind, left, right, third);
    }

    /// True, or true but for one change.
    pub fn made_claim(&mut self, kind: u8) {
        match kind {
            1..=3 => self.operation(kind),
            _ if self.dice.once_in(10) => self.late_break(kind),
            _ => self.bound(kind),
        }
    }

    fn operation(&mut self, kind: u8) {
        let (left, right) = self.operands();
        let f = &self.book.curves[left as usize];
        let g = &self.book.curves[right as usize];
        let h = match result(self.dice, kind, f, g) {
            Some(h) if self.dice.once_in(2) => h,
            Some(h) => nearly(self.dice, h),
            None => small_curve(self.dice),
        };
        let third = if self.dice.once_in(12) {
            self.any_number()
        } else {
            self.book.add(h)
        };
        self.book.claim(kind, left, right, third.into());
    }

    fn bound(&mut self, kind: u8) {
        let (left, right) = self.operands();
        let f = &self.book.curves[left as usize];
        let g = &self.book.curves[right as usize];
        let least = least_x(kind, f, g);
        let x = match self.dice.below(12) {
            0..=4 => least,
            5 | 6 => least + 1,
            7 | 8 => (least - 1).max(0),
            9 | 10 => self.dice.below(12),
            _ => self.dice.pick(&[0, MOST_X, MOST_X - 1]),
        };
        self.book.claim(kind, left, right, x);
    }

    /// A claim that breaks at the last tried tick and nowhere before.
    fn late_break(&mut self, kind: u8) {
        let t = self.dice.between(1, 4);
        let (d, e) = self
            .dice
            .pick(&[(2, 3), (3, 2), (3, 4), (4, 3), (3, 5), (2, 5)]);
        let pace = self.dice.between(1, 3);
        let (f, g) = late_pair(t, d, e, pace);
        let (left, right) = (self.book.add(f), self.book.add(g));
        let x = self.dice.below(2);
        self.book.claim(kind, left, right, x);
    }

    /// Sometimes filled up to 16 curves, mostly with the curves in another order.
    fn finish(mut self) -> Book {
        if self.dice.once_in(10) && !self.book.curves.is_empty() {
            while self.book.curves.len() < MOST_CURVES {
                let curve = self.curve();
                self.book.add(curve);
            }
        }
        if self.dice.once_in(3) {
            return self.book;
        }
        shuffled(self.dice, self.book)
    }
}

pub fn shuffled(dice: &mut Dice, mut book: Book) -> Book {
    for i in (1..book.curves.len()).rev() {
        let j = dice.index(i + 1);
        book.curves.swap(i, j);
        let to = |n: i64| match n as usize {
            n if n == i => j as i64,
            n if n == j => i as i64,
            n => n as i64,
        };
        for claim in &mut book.claims {
            claim.left = to(claim.left.into()) as u8;
            claim.right = to(claim.right.into()) as u8;
            if claim.kind <= 3 {
                claim.third = to(claim.third);
            }
        }
    }
    book
}

/// What the values gain from f(T) to f(T+d-1). With a smaller c the curve falls at the seam.
pub fn rise(f: &Curve) -> i64 {
    f.values[(f.t + f.d - 1) as usize] - f.values[f.t as usize]
}

/// The curve itself where it does not fall at the seam, else with the least c with which it does not.
pub fn mended(mut f: Curve) -> Curve {
    f.c = f.c.max(rise(&f));
    f
}

/// Rank up to 5, period up to 4. Many have just the increment that their period's values gain, and
/// some stay at f(T) for ever.
pub fn small_curve(dice: &mut Dice) -> Curve {
    let t = if dice.once_in(3) { 0 } else { dice.below(6) };
    let d = dice.between(1, 4);
    let steep = dice.below(5);
    let start = dice.pick(&[0, 0, 1, 5]);
    let values = rising(dice, t + d, start, steep);
    let mut curve = Curve { t, d, c: 0, values };
    let more = dice.below(3);
    match dice.below(6) {
        0 => stay(&mut curve),
        1 => curve.c = rise(&curve).max(dice.below(9)),
        _ => curve.c = rise(&curve) + more,
    }
    curve
}

/// f(T) from T on.
fn stay(f: &mut Curve) {
    let first = f.values[f.t as usize];
    f.values[f.t as usize..].fill(first);
    f.c = 0;
}

pub fn rising(dice: &mut Dice, count: i64, start: i64, steep: i64) -> Vec<i64> {
    let mut now = start;
    let mut values = Vec::new();
    for _ in 0..count {
        values.push(now);
        now = (now + dice.below(steep + 1)).min(MOST_UNITS);
    }
    values
}

/// Curves at the limits: zero, 256 listed values, 1,000,000, the least increment there is.
fn edge_curve(dice: &mut Dice) -> Curve {
    let mut curve = small_curve(dice);
    let last = curve.values.len() - 1;
    mended(match dice.below(9) {
        0 => line(curve.t, curve.d, 0, 0),
        1 => line(0, 1, 0, 0),
        2 => {
            let t = dice.pick(&[0, 1, 128, 255, 255, 255]);
            line(t, MOST_LISTED - t, dice.pick(&[0, 1, 3_906]), 0)
        }
        3 => {
            let t = dice.pick(&[0, 1, 128, 252, 254, 255]);
            let steep = dice.pick(&[1, 4, 8_000]);
            let values = rising(dice, MOST_LISTED, 0, steep);
            let d = MOST_LISTED - t;
            let c = dice.pick(&[0, 1, d, MOST_UNITS]);
            Curve { t, d, c, values }
        }
        4 => {
            curve.values.fill(MOST_UNITS);
            curve.c = dice.pick(&[0, 1, MOST_UNITS]);
            curve
        }
        5 => {
            curve.values.fill(0);
            curve.values[last] = MOST_UNITS;
            curve.c = dice.pick(&[0, 1, MOST_UNITS]);
            curve
        }
        6 => line(dice.below(3), 1, MOST_UNITS / 4, 0),
        7 => {
            curve.c = MOST_UNITS;
            curve
        }
        _ => {
            curve.values[last] = MOST_UNITS;
            curve
        }
    })
}

/// f(n) = start + pace*n.
pub fn line(t: i64, d: i64, pace: i64, start: i64) -> Curve {
    let values = (0..t + d).map(|n| start + pace * n).collect();
    let c = pace * d;
    Curve { t, d, c, values }
}

pub const PACE: i64 = 3;

/// Straight but for bumps of at most the pace, so that no value falls.
pub fn bumpy(t: i64, d: i64, mut bump: impl FnMut(i64) -> i64) -> Curve {
    let mut curve = line(t, d, PACE, 0);
    for (n, value) in curve.values.iter_mut().enumerate() {
        *value += bump(n as i64);
    }
    curve
}

/// Gives both the pace k/gcd(d,d') of the multiples that suit both periods: the least with which
/// neither falls at its seam, or a little more; some stay at f(T) and g(T') first, so that it can be
/// 0. Leaves both alone where an increment would be too large.
fn same_pace(dice: &mut Dice, f: &mut Curve, g: &mut Curve) {
    if dice.once_in(4) {
        stay(f);
        stay(g);
    }
    let common = gcd(f.d, g.d);
    let least = |f: &Curve| (rise(f) * common + f.d - 1) / f.d;
    let k = least(f).max(least(g)) + dice.pick(&[0, 0, 1, 2]);
    let (c, other) = (k * f.d / common, k * g.d / common);
    if c.max(other) <= MOST_UNITS {
        (f.c, g.c) = (c, other);
    }
}

/// For coprime d and e, f is 1 above its line in the last place of each period and g is
/// on its line only in the first place. They meet at T-1 modulo d*e: before f's first
/// period, where f is not raised, and at the last tick below max(T,T')+D. The pace is at least 1,
/// else both would fall at the seam; with 1 neither has more than it needs there.
fn late_pair(t: i64, d: i64, e: i64, pace: i64) -> (Curve, Curve) {
    let mut f = line(t, d, pace, 0);
    f.values[(t + d - 1) as usize] += 1;
    let mut g = line(t - 1, e, pace, 0);
    for v in &mut g.values[t as usize..] {
        *v += 1;
    }
    (f, g)
}

/// The true result in one of its forms, or in one whose rank is too small and whose
/// increment fits just there; none where that form is not within the limits.
fn result(dice: &mut Dice, kind: u8, f: &Curve, g: &Curve) -> Option<Curve> {
    let r = rank(kind, f, g);
    let big_d = lcm(f.d, g.d);
    if r + 2 * big_d > MOST_LISTED {
        return None;
    }
    let values = due_table(kind, f, g, r + 4 * big_d + 8);
    let short = (1..=big_d).find(|p| big_d % p == 0 && repeats(&values, r, *p));
    let p = dice.pick(&[big_d, big_d, 2 * big_d, short.unwrap_or(big_d)]);
    let t = match dice.below(4) {
        0 => (0..r).find(|t| repeats(&values, *t, p)).unwrap_or(r),
        1 => (r + dice.between(-2, 3)).max(0),
        _ => r,
    };
    form(&values, t, p)
}

pub fn due_table(kind: u8, f: &Curve, g: &Curve, last: i64) -> Vec<i64> {
    let (f, g) = (table(f, last), table(g, last));
    (0..f.len()).map(|n| due(kind, &f, &g, n)).collect()
}

/// Over the whole table, p ticks always gain the same from t on.
pub fn repeats(values: &[i64], t: i64, p: i64) -> bool {
    let (t, p) = (t as usize, p as usize);
    let gain = values[t + p] - values[t];
    (t..values.len() - p).all(|n| values[n + p] - values[n] == gain)
}

/// The curve of rank t and period p with these values, if it is within the limits. The next period
/// begins with values[t+p], so that value may not be below the one before it either.
pub fn form(values: &[i64], t: i64, p: i64) -> Option<Curve> {
    let (first, next) = (t as usize, (t + p) as usize);
    let c = values[next] - values[first];
    let listed = &values[..next];
    let rises = values[..=next].windows(2).all(|w| w[0] <= w[1]);
    let within = (0..=MOST_UNITS).contains(&c) && listed[next - 1] <= MOST_UNITS;
    (rises && within && t + p <= MOST_LISTED).then(|| Curve {
        t,
        d: p,
        c,
        values: listed.to_vec(),
    })
}

/// The curve with one change that lets it fall nowhere.
fn nearly(dice: &mut Dice, h: Curve) -> Curve {
    loop {
        let near = changed(dice, h.clone());
        if rise(&near) <= near.c {
            return near;
        }
    }
}

/// The curve with one change: a value, the increment, the rank or the period.
fn changed(dice: &mut Dice, mut h: Curve) -> Curve {
    let last = h.values.len() - 1;
    match dice.below(6) {
        0 => {
            let from = dice.index(h.values.len());
            change_one(&mut h.values, from);
        }
        1 => change_one(&mut h.values, last),
        2 => h.c = (h.c + 1).min(MOST_UNITS),
        3 => h.c = (h.c - 1).max(0),
        4 if h.t > 0 => {
            h.t -= 1;
            h.values.pop();
        }
        _ if h.d > 1 => {
            h.d -= 1;
            h.values.pop();
        }
        _ => h.c = (h.c + 1).min(MOST_UNITS),
    }
    h
}

/// One value up or down by 1 where its neighbours allow it, else the last one up.
fn change_one(values: &mut [i64], at: usize) {
    let last = values.len() - 1;
    if at < last && values[at] < values[at + 1] {
        values[at] += 1;
    } else if at > 0 && values[at - 1] < values[at] {
        values[at] -= 1;
    } else if values[last] < MOST_UNITS {
        values[last] += 1;
    }
}

/// The least X that no tried tick breaks; 0 where the search finds none.
fn least_x(kind: u8, f: &Curve, g: &Curve) -> i64 {
    let end = f.t.max(g.t) + lcm(f.d, g.d);
    if kind >= 6 {
        let gap = |s| {
            let (left, right) = sides(kind, f, g, 0, s);
            left - right
        };
        return (0..end).map(gap).max().unwrap_or(0).max(0);
    }
    let mut all = 0..200;
    all.find(|x| bound_break(kind, f, g, *x, end).is_none())
        .unwrap_or(0)
}

/// A horizon of 4,095 to 4,097.
pub fn large_book(dice: &mut Dice) -> Book {
    let mut book = Book::default();
    let target = dice.pick(&[4_095, 4_096, 4_096, 4_097]);
    match dice.between(1, 7) as u8 {
        kind @ (1 | 2) if kind == 1 || dice.once_in(2) => far_lines(dice, &mut book, kind, target),
        3 if dice.once_in(2) => far_convolution(dice, &mut book, target),
        kind @ (2 | 3) => far_crossing(dice, &mut book, kind, target),
        kind => far_bound(dice, &mut book, kind, target),
    }
    shuffled(dice, book)
}

const COPRIME: [(i64, i64); 4] = [(61, 67), (63, 65), (63, 64), (59, 67)];

/// Lines of coprime periods; one of the three ranks brings the horizon to the target.
fn far_lines(dice: &mut Dice, book: &mut Book, kind: u8, target: i64) {
    let (d, e) = dice.pick(&COPRIME);
    let most = target - d * e;
    let mut ranks = [0; 3].map(|_| dice.below(most + 1));
    ranks[dice.index(3)] = most;
    let pace = dice.below(3);
    let f = line(ranks[0], d, pace, dice.below(3));
    let g = line(ranks[1], e, pace, dice.below(3));
    let (start, pace) = match kind {
        1 => (f.values[0] + g.values[0], 2 * pace),
        _ => (f.values[0].min(g.values[0]), pace),
    };
    let mut h = line(ranks[2], 1, pace, start);
    if dice.once_in(2) {
        h = nearly(dice, h);
    }
    let (left, right, third) = (book.add(f), book.add(g), book.add(h));
    book.claim(kind, left, right, third.into());
}

/// Lines of different rates that cross at once, so that ranks and periods alone bring the
/// horizon to 4,096 or 4,097. Kinds 1 to 3 mostly break at tick 0, so they are cheap if judged.
pub fn ranks_book(dice: &mut Dice) -> Book {
    let mut book = Book::default();
    let kind = dice.between(1, 7) as u8;
    let (d, e) = match kind {
        3 => (43, 47),
        _ => dice.pick(&COPRIME),
    };
    let twice = if kind == 3 { 2 } else { 1 };
    let most = dice.pick(&[MOST_HORIZON, MOST_HORIZON + 1]) - twice * d * e;
    let any = dice.below(most + 1);
    let (t, u) = match dice.below(3) {
        _ if kind == 3 => (any, most - any),
        0 => (most, any),
        1 => (any, most),
        _ => (most, most),
    };
    let (slow, fast) = (book.add(line(t, d, 0, 0)), book.add(line(u, e, 1, 2)));
    let (left, right) = match dice.below(2) {
        0 => (slow, fast),
        _ => (fast, slow),
    };
    let wrong = if dice.once_in(20) { 0 } else { 1 };
    let third = match kind {
        1 => book.add(line(any.min(9), 1, 1, 2 + wrong)).into(),
        2 => book.add(line(any.min(9), 1, 0, wrong)).into(),
        3 => book.add(line(any.min(9), 1, 0, 2 + wrong)).into(),
        _ => dice.below(2),
    };
    book.claim(kind, left, right, third);
    shuffled(dice, book)
}

fn far_convolution(dice: &mut Dice, book: &mut Book, target: i64) {
    let [f, g, mut h] = steep_triple(dice.below(4), target - 2 * 2_021);
    if dice.once_in(2) {
        h = nearly(dice, h);
    }
    let (left, right, third) = (book.add(f), book.add(g), book.add(h));
    book.claim(3, left, right, third.into());
}

/// The slower curve stands at `high`, so N is high/pace rounded up and one tick less than
/// the horizon; the claim h = g breaks there or at the horizon itself.
fn far_crossing(dice: &mut Dice, book: &mut Book, kind: u8, target: i64) {
    let pace = dice.between(1, 3);
    let high = pace * (target - 1) - dice.below(pace);
    let f = match kind {
        2 => line(0, 1, 0, high),
        _ => Curve {
            t: 1,
            d: 1,
            c: 0,
            values: vec![0, high],
        },
    };
    let (slow, fast) = (book.add(f), book.add(line(0, 1, pace, 0)));
    if dice.once_in(2) {
        book.claim(kind, slow, fast, fast.into());
    } else {
        book.claim(kind, fast, slow, fast.into());
    }
}

/// A minimum or convolution of any small curves, the slower one raised from T on until
/// the horizon is 4,096 or 4,097. The claim breaks at tick 0, so it is cheap if judged.
pub fn crossing_book(dice: &mut Dice) -> Book {
    loop {
        let kind = dice.between(2, 3) as u8;
        let (f, g, mut h) = (small_curve(dice), small_curve(dice), small_curve(dice));
        // No value of f or g is 0, so h(0) = 0 is wrong.
        h.values[0] = 0;
        let h = mended(h);
        let mut g = raised(g, 0, 1);
        // A steep rise after tick 0 makes that tick the lowest before T.
        let (late, steep) = (f.t.min(1), dice.pick(&[0, 0, 30]));
        let f = raised(raised(f, 0, 1), late, steep);
        // At least one unit a tick faster, so that one unit more moves N by one at most.
        g.c = (f.c / f.d + dice.between(2, 4)) * g.d + dice.below(g.d);
        let g = mended(g);
        let at = |high: i64| crossing_claim(kind, &raised(f.clone(), f.t, high), &g, &h);
        if let Some(high) = to_the_limit(dice, at) {
            return turned(dice, at(high));
        }
    }
}

/// The slower curve jumps within its period, and its increment grows by as much; the other one is a
/// little faster and may jump too. The horizon is 4,096 or 4,097, but for a convolution with T = 0,
/// which has no N however steep it is. The claim breaks at tick 0, so it is cheap if judged.
pub fn steep_book(dice: &mut Dice) -> Book {
    loop {
        let kind = dice.between(2, 3) as u8;
        let (f, g, mut h) = (small_curve(dice), small_curve(dice), small_curve(dice));
        if f.d == 1 {
            continue;
        }
        h.values[0] = 0;
        let (f, g, h) = (raised(f, 0, 1), raised(g, 0, 1), mended(h));
        let (faster, rest) = (dice.between(4, 8), dice.below(g.d));
        let place = f.t + dice.between(1, f.d - 1);
        let other = g.t + dice.between(1, g.d);
        let at = |steep: i64| {
            let mut f = raised(f.clone(), place, steep * f.d);
            f.c += steep * f.d;
            let mut g = raised(g.clone(), other, steep * g.d);
            g.c = (f.c / f.d + faster) * g.d + rest;
            crossing_claim(kind, &f, &mended(g), &h)
        };
        let steep = if kind == 3 && f.t == 0 {
            Some(dice.between(20_000, 60_000))
        } else {
            to_the_limit(dice, at)
        };
        if let Some(steep) = steep {
            return turned(dice, at(steep));
        }
    }
}

/// What brings the horizon of the claim to 4,096 or 4,097, if something does.
fn to_the_limit(dice: &mut Dice, at: impl Fn(i64) -> Book) -> Option<i64> {
    let target = dice.pick(&[MOST_HORIZON, MOST_HORIZON + 1]);
    let far = |high: i64| horizon(&at(high), &at(high).claims[0]);
    let high = least_from(0, 60_000, |high| far(high) >= target);
    (far(high) == target).then_some(high)
}

/// Sometimes left and right are exchanged.
fn turned(dice: &mut Dice, mut book: Book) -> Book {
    if dice.once_in(2) {
        (book.claims[0].left, book.claims[0].right) = (1, 0);
    }
    book
}

fn crossing_claim(kind: u8, f: &Curve, g: &Curve, h: &Curve) -> Book {
    let mut book = Book {
        curves: vec![f.clone(), g.clone(), h.clone()],
        claims: vec![],
    };
    book.claim(kind, 0, 1, 2);
    book
}

/// The values from `from` on, higher by `by`.
fn raised(mut f: Curve, from: i64, by: i64) -> Curve {
    for v in &mut f.values[from as usize..] {
        *v += by;
    }
    f
}

/// The least number of low..=high that is enough, where more is enough as well.
fn least_from(low: i64, high: i64, enough: impl Fn(i64) -> bool) -> i64 {
    let (mut low, mut high) = (low, high);
    while low < high {
        let middle = (low + high) / 2;
        if enough(middle) {
            high = middle;
        } else {
            low = middle + 1;
        }
    }
    low
}

fn far_bound(dice: &mut Dice, book: &mut Book, kind: u8, target: i64) {
    let (d, e) = dice.pick(&[(61, 67), (67, 61), (63, 64), (59, 67)]);
    let pace = dice.between(1, 3);
    let (mut f, g) = late_pair(target - d * e, d, e, pace);
    let x = match dice.below(4) {
        0 => 0,
        1 => 1,
        2 => least_x(kind, &f, &g),
        _ => least_x(kind, &f, &g) + 1,
    };
    if dice.once_in(5) {
        f.c += 1;
    }
    let (left, right) = (book.add(f), book.add(g));
    book.claim(kind, left, right, x);
}

/// Periods 43 and 47 and ranks that add up to `ranks` (at least 52): two lines of pace 1
/// in the end, so their convolution h has period 1 and the horizon is ranks + 2*43*47.
pub fn steep_triple(which: i64, ranks: i64) -> [Curve; 3] {
    let (t, u) = (20 + which, ranks - 20 - which);
    let f = curve_of(t, 43, |n| ((3 + which) * n).min(n + 30));
    let g = curve_of(u, 47, |n| (5 * (n - 7).max(0)).min(n + 40));
    let values = due_table(3, &f, &g, ranks + 2_021 + 50);
    let t = (0..=ranks).find(|t| repeats(&values, *t, 1));
    let h = t.and_then(|t| form(&values, t, 1));
    [f, g, h.expect("the convolution ends as a line of pace 1")]
}

fn curve_of(t: i64, d: i64, f: impl Fn(i64) -> i64) -> Curve {
    Curve {
        t,
        d,
        c: f(t + d) - f(t),
        values: (0..t + d).map(f).collect(),
    }
}

/// Lines with long periods, or with a crossing so far that its terms need more than
/// 32 bits; the horizon is above 4,096.
pub fn unjudged_book(dice: &mut Dice) -> Book {
    loop {
        let mut book = Book::default();
        for _ in 0..3 {
            let t = dice.below(60);
            let any = dice.between(20, 190);
            let d = dice.pick(&[any, any, 64, 128]);
            let low = dice.below(2_000);
            let start = dice.pick(&[low, low, MOST_UNITS - 1_000]);
            book.add(line(t, d, dice.below(3), start));
        }
        for _ in 0..dice.between(1, 4) {
            let mut number = || dice.below(3) as u8;
            let (left, right, third) = (number(), number(), number());
            let kind = dice.between(1, 7) as u8;
            book.claim(kind, left, right, third.into());
        }
        let above = book.claims.iter().any(|c| horizon(&book, c) > MOST_HORIZON);
        if above && cost(&book) <= 20_000 {
            return book;
        }
    }
}
