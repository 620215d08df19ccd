//! Sequences of calls of the writer over lent buffers, and their form on the wire.
//!
//! Step        a call, another lent buffer, or another state
//! sequences   those of a seed and an index, and of nothing else: a made one and, where the case
//!             of this seed and index has a sound book, the calls that write that book
//! write       'W' and the steps; numbers in 8 bytes, high byte first

use crate::book::{read, Book, Claim, Curve};
use crate::book::{MOST_BYTES, MOST_CLAIMS, MOST_CURVES, MOST_LISTED, MOST_UNITS, MOST_X};
use crate::cases::{case, write_lent, write_numbers, Lent, FAR_BITS, SENT};
use crate::dice::Dice;
use crate::make::{many_claims, mended, small_book, small_curve, sound};
use crate::seam::{edge_of_seam, let_fall, long_list, over_limit};
use crate::writer::{call, faults, Call, State};
use std::io::{self, Write};

pub enum Step {
    Lend(Lent),
    Pass(u64),
    Call(Call),
}

pub struct Sequence {
    pub label: &'static str,
    pub steps: Vec<Step>,
    /// The book that the steps must leave at the start of the buffer.
    pub book: Option<Vec<u8>>,
}

pub fn sequences(seed: u64, index: u64) -> Vec<Sequence> {
    let made = made(seed, index);
    match read(&case(seed, index).book.bytes) {
        Ok(book) => vec![made, again(seed, index, &book)],
        Err(_) => vec![made],
    }
}

/// Every so many sequences one lends far more than the low bits of the length say, and one is about
/// the seam.
const FAR: u64 = 500;
const SEAM: u64 = 100;

fn made(seed: u64, index: u64) -> Sequence {
    // A seed of its own: the cases have the indices of the seed itself.
    let mut dice = Dice::new(!seed, index);
    let mut script = Script::new(&mut dice);
    let label = match script.dice.below(1_000) {
        _ if index % FAR == FAR - 1 => script.far(index / FAR),
        _ if index % SEAM == 1 => script.seam(),
        0..=4 => script.largest(),
        5..=9 => script.full(),
        10..=199 => script.forged(),
        200..=349 => script.any_order(),
        350..=499 => script.tight(),
        _ => script.mixed(),
    };
    Sequence {
        label,
        steps: script.steps,
        book: None,
    }
}

/// Into a buffer of just the book's length, or longer.
fn again(seed: u64, index: u64, book: &Book) -> Sequence {
    let mut dice = Dice::new(!seed, u64::MAX - index);
    let mut script = Script::new(&mut dice);
    let bytes = sound(book);
    let more = script.dice.pick(&[0, 0, 0, 1, 50]);
    script.lend(bytes.len() + more);
    for call in calls(book) {
        script.call(call);
    }
    Sequence {
        label: "a sound book of the cases",
        steps: script.steps,
        book: Some(bytes),
    }
}

fn calls(book: &Book) -> Vec<Call> {
    let mut calls = vec![Call::Begin];
    calls.extend(book.curves.iter().map(Call::of_curve));
    calls.extend(book.claims.iter().map(Call::of_claim));
    calls.push(Call::Close);
    calls
}

/// The steps so far, and the state and the buffer that they lead to.
struct Script<'a> {
    dice: &'a mut Dice,
    steps: Vec<Step>,
    state: u64,
    room: Vec<u8>,
    length: u64,
}

impl<'a> Script<'a> {
    fn new(dice: &'a mut Dice) -> Script<'a> {
        Script {
            dice,
            steps: vec![],
            state: 0,
            room: vec![],
            length: 0,
        }
    }

    /// The refusal, 0 for none.
    fn call(&mut self, next: Call) -> u64 {
        let faults = faults(&next, self.state, self.length);
        let (refusal, state) = call(&next, &faults, self.state, &mut self.room);
        self.state = state;
        self.steps.push(Step::Call(next));
        refusal
    }

    fn lend_this(&mut self, lent: Lent) {
        self.room = lent.bytes.clone();
        self.length = lent.length();
        self.steps.push(Step::Lend(lent));
    }

    fn lend(&mut self, length: usize) {
        let bytes = self.dice.bytes(length);
        self.lend_this(Lent::all(bytes));
    }

    /// Another length, and in it what was written so far, as far as it goes.
    fn lend_on(&mut self, length: usize) {
        let mut bytes = self.dice.bytes(length);
        let kept = self.written().min(length).min(self.room.len());
        bytes[..kept].copy_from_slice(&self.room[..kept]);
        self.lend_this(Lent::all(bytes));
    }

    fn pass(&mut self, state: u64) {
        self.state = state;
        self.steps.push(Step::Pass(state));
    }

    fn written(&self) -> usize {
        State::of(self.state).written as usize
    }

    fn curves(&self) -> u64 {
        State::of(self.state).curves
    }

    /// A length with just enough room for the call, or nearly.
    fn length_about(&mut self, next: &Call) -> usize {
        let exact = self.written() + next.size().min(2_000) as usize;
        match self.dice.below(10) {
            0..=2 => exact,
            3..=5 => exact - 1,
            6 => exact + 1,
            7 => self.dice.index(exact + 1),
            8 => self.written(),
            _ if self.dice.once_in(2) => 0,
            _ => exact + 40,
        }
    }

    /// A whole book with bad calls between and after its own.
    fn mixed(&mut self) -> &'static str {
        let book = any_book(self.dice);
        let exact = book.bytes().len();
        let more = self.dice.pick(&[0, 0, 1, 300]);
        self.lend(exact + more);
        let often = self.dice.pick(&[2, 3, 9, 1_000]);
        for next in calls(&book) {
            while self.dice.once_in(often) {
                self.bad();
            }
            self.call(next);
        }
        while self.dice.once_in(3) {
            self.bad();
        }
        "a book with bad calls between"
    }

    /// A refused call in most states.
    fn bad(&mut self) {
        let curves = self.curves();
        let next = match self.dice.below(10) {
            0..=3 => faulty_curve(self.dice),
            4..=7 => faulty_claim(self.dice, curves),
            8 => Call::Begin,
            _ => any_call(self.dice, curves),
        };
        self.call(next);
    }

    /// A book whose buffer grows, shrinks and is taken away between the calls.
    fn tight(&mut self) -> &'static str {
        let book = any_book(self.dice);
        let keep = !self.dice.once_in(4);
        for next in calls(&book) {
            if self.dice.once_in(2) {
                let length = self.length_about(&next);
                if keep {
                    self.lend_on(length);
                } else {
                    self.lend(length);
                }
            }
            if self.dice.once_in(6) {
                self.bad();
            }
            let size = next.size() as usize;
            if self.call(next.clone()) == 14 && !self.dice.once_in(20) {
                self.lend_on(self.written() + size);
                self.call(next);
            }
        }
        "a buffer that changes"
    }

    fn any_order(&mut self) -> &'static str {
        let length = self.dice.pick(&[0, 3, 4, 30, 100, 300, 1_000, 3_000]);
        self.lend(length);
        if !self.dice.once_in(6) {
            self.call(Call::Begin);
        }
        for _ in 0..self.dice.between(3, 16) {
            let next = any_call(self.dice, self.curves());
            match self.dice.below(8) {
                0 => self.bad(),
                _ => {
                    self.call(next);
                }
            }
        }
        "any order"
    }

    fn forged(&mut self) -> &'static str {
        for _ in 0..self.dice.between(1, 6) {
            let state = forged_state(self.dice);
            self.pass(state);
            let curves = self.curves();
            let next = match self.dice.below(4) {
                0 => faulty_curve(self.dice),
                1 => faulty_claim(self.dice, curves),
                _ => any_call(self.dice, curves),
            };
            if !self.dice.once_in(8) {
                let length = self.length_about(&next);
                let more = self.dice.pick(&[0, 0, 30]);
                self.lend(length + more);
            }
            self.call(next);
            for _ in 0..self.dice.below(3) {
                let next = any_call(self.dice, self.curves());
                self.call(next);
            }
        }
        "a forged state"
    }

    /// 16 curves of 256 values and 256 claims, in a buffer that is exact or one byte short.
    fn largest(&mut self) -> &'static str {
        let mut book = Book::default();
        for _ in 0..MOST_CURVES {
            let t = self.dice.pick(&[0, 1, 128, 255]);
            let curve = limit_curve(self.dice, t, MOST_LISTED - t);
            book.add(curve);
        }
        sound(&book);
        let x_only = !self.dice.once_in(4);
        while book.claims.len() < MOST_CLAIMS {
            let claim = sound_claim(self.dice, MOST_CURVES as u64);
            if !x_only || claim.kind >= 4 {
                book.claims.push(claim);
            }
        }
        self.whole(&book);
        "the largest book"
    }

    /// 256 claims, or nearly, over few curves.
    fn full(&mut self) -> &'static str {
        let book = many_claims(self.dice);
        self.whole(&book);
        "256 claims"
    }

    fn whole(&mut self, book: &Book) {
        let exact = book.bytes().len();
        let less = self.dice.pick(&[0, 0, 1]);
        self.lend(exact - less);
        for next in calls(book) {
            if self.dice.once_in(20) || (next == Call::Close && !self.dice.once_in(4)) {
                self.bad();
            }
            let state = State::of(self.state);
            if state.curves == MOST_CURVES as u64 && state.claims == 0 {
                let curve = any_curve(self.dice);
                self.call(Call::of_curve(&curve));
            }
            if state.claims == MOST_CLAIMS as u64 {
                let claim = sound_claim(self.dice, state.curves);
                self.call(Call::of_claim(&claim));
            }
            self.call(next);
        }
        if self.dice.once_in(2) {
            self.lend_on(exact);
            self.call(Call::Close);
        }
    }

    /// By the low bits of its length alone the buffer would be too short, or the list just right.
    fn far(&mut self, turn: u64) -> &'static str {
        let far = 1u64 << FAR_BITS[(turn % 5) as usize];
        let length = far + self.dice.below(12) as u64;
        let bytes = self.dice.bytes(length.min(SENT as u64) as usize);
        self.lend_this(Lent::long(bytes, length));
        self.call(Call::Begin);
        let mut curve = any_curve(self.dice);
        curve.values.fill(0);
        self.call(Call::of_curve(&curve));
        // The values need four times as many bytes.
        let far = far.min(1 << 32);
        self.call(Call::Curve {
            rank: curve.t as u64,
            period: curve.d as u64,
            increment: curve.c as u64,
            values: vec![0; SENT / 4],
            zeros: far + (curve.t + curve.d) as u64 - (SENT / 4) as u64,
        });
        let claim = sound_claim(self.dice, self.curves());
        self.call(Call::of_claim(&claim));
        self.call(Call::Close);
        "a far longer buffer, a far longer list"
    }

    /// A curve at the edge of the seam and one that falls there: before begin, in their turn, with
    /// each fault that is tried before 9, with too little room, and as a 17th curve.
    fn seam(&mut self) -> &'static str {
        let edge = edge_of_seam(self.dice);
        let mut low = edge.clone();
        let_fall(self.dice, &mut low);
        let mut over = low.clone();
        over_limit(self.dice, &mut over);
        let mut longer = low.clone();
        longer.values.extend(low.values.last());
        let long = long_list(self.dice);
        let (edge, low) = (Call::of_curve(&edge), Call::of_curve(&low));
        let size = edge.size() as usize;
        let less = self.dice.pick(&[0, 1, size]);
        self.lend(4 + 2 * size - less);
        self.call(low.clone());
        self.call(Call::Begin);
        for curve in [&over, &longer, &long] {
            self.call(Call::of_curve(curve));
        }
        for next in [&low, &edge, &low, &edge] {
            self.call(next.clone());
        }
        let state = State {
            curves: MOST_CURVES as u64,
            ..State::of(self.state)
        };
        self.pass(state.number());
        self.call(low);
        self.call(edge);
        "a curve at its seam"
    }
}

/// A sound book: one of the cases' small ones, or one at the limits.
fn any_book(dice: &mut Dice) -> Book {
    if !dice.once_in(3) {
        let edges = dice.once_in(8);
        return small_book(dice, edges);
    }
    let mut book = Book::default();
    for _ in 0..dice.pick(&[0, 1, 2, 3, 3, 15, 16]) {
        let curve = any_curve(dice);
        book.add(curve);
    }
    let curves = book.curves.len() as u64;
    if curves > 0 {
        for _ in 0..dice.below(6) {
            book.claims.push(sound_claim(dice, curves));
        }
    }
    sound(&book);
    book
}

/// Small, or at the limits.
fn any_curve(dice: &mut Dice) -> Curve {
    let all = MOST_LISTED;
    match dice.below(8) {
        0 => {
            let t = dice.pick(&[0, 1, 128, 254, 255]);
            limit_curve(dice, t, all - t)
        }
        1 => {
            let (t, d) = dice.pick(&[(0, 1), (0, 2), (1, 1), (254, 1), (0, 255), (1, 254)]);
            limit_curve(dice, t, d)
        }
        2 => {
            let t = dice.below(30);
            let d = dice.between(1, 30);
            limit_curve(dice, t, d)
        }
        _ => small_curve(dice),
    }
}

fn limit_curve(dice: &mut Dice, t: i64, d: i64) -> Curve {
    let steep = dice.pick(&[0, 1, 700, 9_000]);
    let mut now = dice.pick(&[0, 0, 1, 65_535, MOST_UNITS - 1, MOST_UNITS]);
    let mut values = vec![];
    for _ in 0..t + d {
        values.push(now);
        now = (now + dice.below(steep + 1)).min(MOST_UNITS);
    }
    if dice.once_in(3) {
        values[(t + d - 1) as usize] = MOST_UNITS;
    }
    let any = dice.below(MOST_UNITS);
    let c = dice.pick(&[0, 1, 255, 256, 65_536, any, any, MOST_UNITS - 1, MOST_UNITS]);
    mended(Curve { t, d, c, values })
}

/// Over so many curves; the numbers are 0 where there are none.
fn sound_claim(dice: &mut Dice, curves: u64) -> Claim {
    let mut named = || match (dice.below(4), curves) {
        (_, 0) => 0,
        (0, _) => curves as u8 - 1,
        _ => dice.below(curves as i64) as u8,
    };
    let (left, right, h) = (named(), named(), named());
    let kind = dice.between(1, 7) as u8;
    let any = dice.between(0, MOST_X);
    let x = dice.pick(&[0, 1, 15, 256, 65_536, 1 << 24, any, any, MOST_X - 1, MOST_X]);
    Claim {
        kind,
        left,
        right,
        third: if kind <= 3 { h.into() } else { x },
    }
}

/// Any of the four, mostly with sound arguments.
fn any_call(dice: &mut Dice, curves: u64) -> Call {
    match dice.below(12) {
        0 => Call::Begin,
        1..=4 => Call::of_curve(&any_curve(dice)),
        5..=8 => Call::of_claim(&sound_claim(dice, curves)),
        9 => faulty_curve(dice),
        10 => faulty_claim(dice, curves),
        _ => Call::Close,
    }
}

const EDGES: [u64; 38] = [
    0,
    1,
    2,
    3,
    4,
    7,
    8,
    15,
    16,
    17,
    127,
    128,
    255,
    256,
    257,
    258,
    65_535,
    65_536,
    65_537,
    999_999,
    1_000_000,
    1_000_001,
    999_999_999,
    1_000_000_000,
    1_000_000_001,
    (1 << 31) - 1,
    1 << 31,
    (1 << 31) + 1,
    (1 << 32) - 1,
    1 << 32,
    (1 << 32) + 1,
    (1 << 63) - 1,
    1 << 63,
    (1 << 63) + 1,
    u64::MAX - 256,
    u64::MAX - 255,
    u64::MAX - 1,
    u64::MAX,
];

/// A number at some limit, or one of which only the low bits are right.
fn odd(dice: &mut Dice, right: u64) -> u64 {
    let high = 1u64 << dice.pick(&[8, 16, 24, 31, 32, 33, 40, 48, 62, 63]);
    match dice.below(3) {
        0 => dice.pick(&EDGES),
        1 => right.wrapping_add(high),
        _ => right.wrapping_sub(high),
    }
}

/// Mostly one, else two or more: that shows their order.
fn several(dice: &mut Dice) -> i64 {
    dice.pick(&[1, 1, 1, 2, 2, 3])
}

fn faulty_curve(dice: &mut Dice) -> Call {
    let mut next = Call::of_curve(&any_curve(dice));
    for _ in 0..several(dice) {
        spoil_curve(dice, &mut next);
    }
    next
}

fn spoil_curve(dice: &mut Dice, next: &mut Call) {
    let Call::Curve {
        rank,
        period,
        increment,
        values,
        ..
    } = next
    else {
        return;
    };
    let last = values.last().copied().unwrap_or(0);
    match dice.below(14) {
        0 => {
            *period = 0;
            if dice.once_in(2) {
                values.truncate(*rank as usize);
            }
        }
        1 => {
            *rank = dice.pick(&[0, 1, 128, 255, 256]);
            *period = 257 - *rank;
            let listed = dice.pick(&[256, 257, 257, 257]);
            values.resize(listed, last);
        }
        2 => (*rank, *period) = wrapping(dice, values.len() as u64),
        3 => *rank = odd(dice, *rank),
        4 => *period = odd(dice, *period),
        5 => {
            values.pop();
        }
        6 => values.push(last),
        7 => {
            let (t, d) = (*rank as usize % 300, *period as usize % 300);
            let listed = dice.pick(&[0, t, d, 2 * (t + d), 256, 257, t + d + 256]);
            values.resize(listed, last);
        }
        8 => {
            let any = odd(dice, *increment);
            *increment = dice.pick(&[MOST_UNITS as u64 + 1, any]);
        }
        9 | 10 => large_value(dice, values),
        11 => fall(dice, values),
        _ => fall_at_seam(dice, *rank, increment, values),
    }
}

/// Rank and period that add up to `sum` in so many bits, and not without them.
fn wrapping(dice: &mut Dice, sum: u64) -> (u64, u64) {
    let less = dice.between(1, 250) as u64;
    let wrap = dice.pick(&[1 << 8, 1 << 16, 1 << 32, 0, 0u64]);
    let (a, b) = (wrap.wrapping_sub(less), sum + less);
    if dice.once_in(2) {
        (a, b)
    } else {
        (b, a)
    }
}

/// Some place, the first and the last more often than others; none of an empty list.
fn place(dice: &mut Dice, length: usize) -> Option<usize> {
    let last = length.checked_sub(1)?;
    let any = dice.index(length);
    Some(dice.pick(&[0, last, any]))
}

fn large_value(dice: &mut Dice, values: &mut [u32]) {
    let large = dice.pick(&[1_000_001, 1_000_001, 1 << 24, 1 << 31, u32::MAX]);
    let Some(at) = place(dice, values.len()) else {
        return;
    };
    if dice.once_in(3) {
        values[at] = large;
    } else {
        // No value falls after it.
        values[at..].fill(large);
    }
}

/// One value is one above the next, or far above it.
fn fall(dice: &mut Dice, values: &mut [u32]) {
    if let Some(at) = place(dice, values.len().saturating_sub(1)) {
        let by = dice.pick(&[1, 1, 1, 700_000]);
        values[at] = values[at + 1].saturating_add(by);
    }
}

/// The increment is one too small for what the period gains, or the last value one too large for it.
/// With d = 1 there is no such fault.
fn fall_at_seam(dice: &mut Dice, rank: u64, increment: &mut u64, values: &mut [u32]) {
    let from = usize::try_from(rank).ok().and_then(|n| values.get_mut(n..));
    let Some([first, .., last]) = from else {
        return;
    };
    let gain = last.saturating_sub(*first);
    if gain > 0 && dice.once_in(2) {
        *increment = u64::from(gain) - 1;
    } else {
        *last = first.saturating_add(*increment as u32).saturating_add(1);
    }
}

fn faulty_claim(dice: &mut Dice, curves: u64) -> Call {
    let mut next = Call::of_claim(&sound_claim(dice, curves));
    for _ in 0..several(dice) {
        spoil_claim(dice, &mut next, curves);
    }
    next
}

fn spoil_claim(dice: &mut Dice, next: &mut Call, curves: u64) {
    let Call::Claim {
        kind,
        left,
        right,
        third,
    } = next
    else {
        return;
    };
    let no_curve = |dice: &mut Dice, right: u64| {
        let any = odd(dice, right);
        dice.pick(&[curves, curves, curves + 1, any, any])
    };
    match dice.below(5) {
        0 => {
            let any = odd(dice, *kind);
            *kind = dice.pick(&[0, 8, any, any]);
        }
        1 => *left = no_curve(dice, *left),
        2 => *right = no_curve(dice, *right),
        3 => *third = no_curve(dice, *third),
        _ => {
            let any = odd(dice, *third);
            *third = dice.pick(&[MOST_X as u64 + 1, any]);
        }
    }
}

/// Mostly one that some calls could have given, but for one or two of its parts.
fn forged_state(dice: &mut Dice) -> u64 {
    let few = dice.below(300) as u64;
    let mut state = State {
        written: dice.pick(&[0, 4, 4, few, few]),
        claims: dice.pick(&[0, 0, 0, 1]),
        curves: dice.pick(&[0, 1, 2, 3, 16]),
        version: dice.pick(&[0, 1, 1, 1, 1]),
        closed: dice.once_in(8),
        above: 0,
    };
    let most = MOST_BYTES as u64;
    for _ in 0..dice.between(1, 2) {
        match dice.below(12) {
            0 if dice.once_in(2) => {
                state.written = dice.pick(&[most - 1, most, most, most + 1, most + 1, 0xFFFF]);
            }
            0 | 1 => state.written = few,
            2..=4 => state.claims = dice.pick(&[1, 255, 255, 256, 256, 257, 512, 0x8000, 0xFFFF]),
            5..=7 => state.curves = dice.pick(&[15, 15, 16, 17, 128, 254, 255]),
            8 => state.version = dice.pick(&[0, 2, 64, 127]),
            9 => state.closed = true,
            10 => state.above = 1 << dice.below(16),
            _ if dice.once_in(3) => return dice.next() >> dice.below(64),
            _ => state.above = dice.next() & 0xFFFF,
        }
    }
    state.number()
}

pub fn write(sequence: &Sequence, out: &mut impl Write) -> io::Result<()> {
    out.write_all(b"W")?;
    write_numbers(&[sequence.steps.len() as u64], out)?;
    for step in &sequence.steps {
        write_step(step, out)?;
    }
    Ok(())
}

fn write_step(step: &Step, out: &mut impl Write) -> io::Result<()> {
    match step {
        Step::Lend(lent) => {
            out.write_all(b"l")?;
            write_lent(lent, out)
        }
        Step::Pass(state) => {
            out.write_all(b"s")?;
            write_numbers(&[*state], out)
        }
        Step::Call(call) => write_call(call, out),
    }
}

fn write_call(call: &Call, out: &mut impl Write) -> io::Result<()> {
    match call {
        Call::Begin => out.write_all(b"b"),
        Call::Close => out.write_all(b"e"),
        Call::Claim {
            kind,
            left,
            right,
            third,
        } => {
            out.write_all(b"k")?;
            write_numbers(&[*kind, *left, *right, *third], out)
        }
        Call::Curve {
            rank,
            period,
            increment,
            values,
            zeros,
        } => {
            let count = values.len() as u64 + zeros;
            out.write_all(b"c")?;
            write_numbers(&[*rank, *period, *increment, count], out)?;
            let bytes: Vec<u8> = values.iter().flat_map(|v| v.to_be_bytes()).collect();
            out.write_all(&bytes)
        }
    }
}
