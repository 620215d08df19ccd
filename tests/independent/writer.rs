//! Document 01, "Writing goes by begin, add curve, add claim, close", and the header's state.
//!
//! State      what the bits of a state say
//! Call       a call with its arguments
//! Fault      the call's name, the refusal number and which of its reasons it is
//! faults_of  every fault that a call of a name can have
//! faults     all that is wrong with a call, in the order in which it is tried
//! call       the answer to a call, and the lent bytes after it

use crate::book::{join, Claim, Curve, Field, END, VERSION};
use crate::book::{MOST_BYTES, MOST_CLAIMS, MOST_CURVES, MOST_LISTED, MOST_UNITS, MOST_X};

#[derive(Clone, Copy, Debug, PartialEq, Eq)]
pub struct State {
    pub written: u64,
    pub claims: u64,
    pub curves: u64,
    pub version: u64,
    pub closed: bool,
    /// Bits 48 to 63, where no state has one.
    pub above: u64,
}

impl State {
    pub fn of(number: u64) -> State {
        let part = |from: u32, bits: u32| number >> from & ((1 << bits) - 1);
        State {
            written: part(0, 16),
            claims: part(16, 16),
            curves: part(32, 8),
            version: part(40, 7),
            closed: part(47, 1) == 1,
            above: part(48, 16),
        }
    }

    pub fn number(&self) -> u64 {
        let closed = u64::from(self.closed);
        self.written
            | self.claims << 16
            | self.curves << 32
            | self.version << 40
            | closed << 47
            | self.above << 48
    }
}

/// The values of a curve are `values` and then `zeros` times 0.
#[derive(Clone, Debug, PartialEq, Eq)]
pub enum Call {
    Begin,
    Curve {
        rank: u64,
        period: u64,
        increment: u64,
        values: Vec<u32>,
        zeros: u64,
    },
    Claim {
        kind: u64,
        left: u64,
        right: u64,
        third: u64,
    },
    Close,
}

pub const NAMES: [&str; 4] = ["begin", "curve", "claim", "close"];

impl Call {
    pub fn name(&self) -> &'static str {
        match self {
            Call::Begin => NAMES[0],
            Call::Curve { .. } => NAMES[1],
            Call::Claim { .. } => NAMES[2],
            Call::Close => NAMES[3],
        }
    }

    pub fn of_curve(curve: &Curve) -> Call {
        Call::Curve {
            rank: curve.t as u64,
            period: curve.d as u64,
            increment: curve.c as u64,
            values: curve.values.iter().map(|v| *v as u32).collect(),
            zeros: 0,
        }
    }

    pub fn of_claim(claim: &Claim) -> Call {
        Call::Claim {
            kind: claim.kind.into(),
            left: claim.left.into(),
            right: claim.right.into(),
            third: claim.third as u64,
        }
    }

    /// The bytes of the field. Of a curve whose list isn't T+d values, those with the shorter
    /// list; of a claim of unknown kind, those of the shorter claim.
    pub fn size(&self) -> u128 {
        match self {
            Call::Begin => 4,
            Call::Curve { .. } => 11 + 4 * self.listed().min(self.due()),
            Call::Claim { kind, .. } if (4..=7).contains(kind) => 10,
            Call::Claim { .. } => 7,
            Call::Close => 3,
        }
    }

    fn listed(&self) -> u128 {
        match self {
            Call::Curve { values, zeros, .. } => values.len() as u128 + u128::from(*zeros),
            _ => 0,
        }
    }

    /// T+d.
    fn due(&self) -> u128 {
        match self {
            Call::Curve { rank, period, .. } => u128::from(*rank) + u128::from(*period),
            _ => 0,
        }
    }

    /// f(n) of a curve, if it is listed.
    fn listed_at(&self, n: u128) -> Option<u128> {
        match self {
            Call::Curve { values, .. } if n < self.listed() => {
                let value = usize::try_from(n).ok().and_then(|n| values.get(n));
                Some(value.copied().unwrap_or(0).into())
            }
            _ => None,
        }
    }

    /// f(T)+c is below f(T+d-1), where both are listed.
    fn falls_at_seam(&self) -> bool {
        let Call::Curve {
            rank, increment, ..
        } = self
        else {
            return false;
        };
        let last = self.due().checked_sub(1);
        let first = self.listed_at(u128::from(*rank));
        match (first, last.and_then(|last| self.listed_at(last))) {
            (Some(first), Some(last)) => first + u128::from(*increment) < last,
            _ => false,
        }
    }

    /// Of a call that is taken: all its numbers are within the limits.
    fn field(&self) -> Field {
        match self {
            Call::Begin => Field::new(VERSION, vec![1]),
            Call::Curve { .. } => self.curve().unwrap().field(),
            Call::Claim { .. } => self.claim().unwrap().field(),
            Call::Close => Field::new(END, vec![]),
        }
    }

    /// The curve that a taken call has added.
    pub fn curve(&self) -> Option<Curve> {
        match self {
            Call::Curve {
                rank,
                period,
                increment,
                values,
                ..
            } => Some(Curve {
                t: *rank as i64,
                d: *period as i64,
                c: *increment as i64,
                values: values.iter().map(|v| i64::from(*v)).collect(),
            }),
            _ => None,
        }
    }

    /// The claim that a taken call has added.
    pub fn claim(&self) -> Option<Claim> {
        match self {
            Call::Claim {
                kind,
                left,
                right,
                third,
            } => Some(Claim {
                kind: *kind as u8,
                left: *left as u8,
                right: *right as u8,
                third: *third as i64,
            }),
            _ => None,
        }
    }
}

#[derive(Clone, Copy, Debug, PartialEq, Eq, PartialOrd, Ord)]
pub struct Fault {
    pub call: &'static str,
    pub number: u8,
    pub why: &'static str,
}

type Reason = (u8, &'static str);

const ABOVE: Reason = (3, "a state with a bit above bit 47");
const FAR: Reason = (3, "a state with over 32,768 bytes");
const CLOSED: Reason = (3, "closed");
const BEGUN: Reason = (3, "begun already");
const NOT_BEGUN: Reason = (3, "nothing begun");
const LATE: Reason = (3, "a curve after a claim");
const CURVES: Reason = (4, "a 17th curve");
const CLAIMS: Reason = (4, "a 257th claim");
const NO_PERIOD: Reason = (7, "d = 0");
const LONG_LIST: Reason = (7, "T+d > 256");
const FEWER: Reason = (6, "fewer than T+d values");
const MORE: Reason = (6, "more than T+d values");
const BIG_C: Reason = (8, "c over 1,000,000");
const BIG_VALUE: Reason = (8, "a value over 1,000,000");
const FALLS: Reason = (9, "values fall");
pub const SEAM: Reason = (9, "the curve falls at the seam");
const KIND_0: Reason = (10, "kind 0");
const KIND_8: Reason = (10, "a kind above 7");
const LEFT: Reason = (11, "left names no curve");
const RIGHT: Reason = (11, "right names no curve");
const RESULT: Reason = (11, "h names no curve");
const BIG_X: Reason = (12, "X too large");
const ROOM: Reason = (14, "too few bytes remain");
const ROOM_X: Reason = (14, "too few bytes remain, with an X");

const BEGIN_REASONS: [Reason; 5] = [ABOVE, FAR, CLOSED, BEGUN, ROOM];
const CURVE_REASONS: [Reason; 15] = [
    ABOVE, FAR, CLOSED, NOT_BEGUN, LATE, CURVES, NO_PERIOD, LONG_LIST, FEWER, MORE, BIG_C,
    BIG_VALUE, FALLS, SEAM, ROOM,
];
const CLAIM_REASONS: [Reason; 13] = [
    ABOVE, FAR, CLOSED, NOT_BEGUN, CLAIMS, KIND_0, KIND_8, LEFT, RIGHT, RESULT, BIG_X, ROOM, ROOM_X,
];
const CLOSE_REASONS: [Reason; 5] = [ABOVE, FAR, CLOSED, NOT_BEGUN, ROOM];

const FAULTS: [(&str, &[Reason]); 4] = [
    (NAMES[0], &BEGIN_REASONS),
    (NAMES[1], &CURVE_REASONS),
    (NAMES[2], &CLAIM_REASONS),
    (NAMES[3], &CLOSE_REASONS),
];

/// Every fault that a call of this name can have, in the order in which they are tried.
pub fn faults_of(name: &str) -> Vec<Fault> {
    let named = FAULTS.iter().filter(|(call, _)| *call == name);
    let faults = named.flat_map(|(call, reasons)| {
        reasons.iter().map(|(number, why)| Fault {
            call,
            number: *number,
            why,
        })
    });
    faults.collect()
}

/// `length` is that of the lent buffer. The first fault is the refusal; without one the call is
/// taken. The later ones stand by themselves, so that a wrong order shows.
pub fn faults(call: &Call, state: u64, length: u64) -> Vec<Fault> {
    let state = State::of(state);
    let mut all = out_of_order(call, &state);
    match call {
        Call::Curve { .. } => all.extend(curve_faults(call, &state)),
        Call::Claim { .. } => all.extend(claim_faults(call, &state)),
        _ => {}
    }
    if u128::from(state.written) + call.size() > u128::from(length) {
        let with_x = matches!(call, Call::Claim { kind: 4..=7, .. });
        all.push(if with_x { ROOM_X } else { ROOM });
    }
    let fault = |(number, why)| Fault {
        call: call.name(),
        number,
        why,
    };
    all.into_iter().map(fault).collect()
}

fn holding(all: &[(bool, Reason)]) -> Vec<Reason> {
    all.iter().filter(|(is, _)| *is).map(|(_, r)| *r).collect()
}

fn out_of_order(call: &Call, state: &State) -> Vec<Reason> {
    let begins = *call == Call::Begin;
    let begun = state.version != 0;
    let adds_curve = matches!(call, Call::Curve { .. });
    holding(&[
        (state.above != 0, ABOVE),
        (state.written > MOST_BYTES as u64, FAR),
        (state.closed, CLOSED),
        (begins && begun, BEGUN),
        (!begins && !begun, NOT_BEGUN),
        (adds_curve && state.claims > 0, LATE),
    ])
}

fn curve_faults(call: &Call, state: &State) -> Vec<Reason> {
    let Call::Curve {
        period,
        increment,
        values,
        zeros,
        ..
    } = call
    else {
        return vec![];
    };
    let most = MOST_UNITS as u64;
    let over = values.iter().any(|v| u64::from(*v) > most);
    let to_zero = *zeros > 0 && values.last().is_some_and(|v| *v > 0);
    let falls = to_zero || values.windows(2).any(|w| w[1] < w[0]);
    holding(&[
        (state.curves >= MOST_CURVES as u64, CURVES),
        (*period == 0, NO_PERIOD),
        (call.due() > MOST_LISTED as u128, LONG_LIST),
        (call.listed() < call.due(), FEWER),
        (call.listed() > call.due(), MORE),
        (*increment > most, BIG_C),
        (over, BIG_VALUE),
        (falls, FALLS),
        (call.falls_at_seam(), SEAM),
    ])
}

/// Of an unknown kind, `third` is taken for h and for X at once.
fn claim_faults(call: &Call, state: &State) -> Vec<Reason> {
    let Call::Claim {
        kind,
        left,
        right,
        third,
    } = call
    else {
        return vec![];
    };
    let named = |number: u64| number < state.curves;
    let has_x = (4..=7).contains(kind);
    let has_h = (1..=3).contains(kind);
    holding(&[
        (state.claims >= MOST_CLAIMS as u64, CLAIMS),
        (*kind == 0, KIND_0),
        (*kind > 7, KIND_8),
        (!named(*left), LEFT),
        (!named(*right), RIGHT),
        (!has_x && !named(*third), RESULT),
        (!has_h && *third > MOST_X as u64, BIG_X),
    ])
}

/// The answer to a call with its faults: refusal and state. `book` is the lent buffer before the
/// call and after it, or at least its first bytes.
pub fn call(call: &Call, faults: &[Fault], state: u64, book: &mut [u8]) -> (u64, u64) {
    if let Some(first) = faults.first() {
        return (first.number.into(), state);
    }
    let bytes = join(&[call.field()]);
    let mut after = State::of(state);
    let place = after.written as usize;
    book[place..place + bytes.len()].copy_from_slice(&bytes);
    after.written += bytes.len() as u64;
    match call {
        Call::Begin => after.version = 1,
        Call::Curve { .. } => after.curves += 1,
        Call::Claim { .. } => after.claims += 1,
        Call::Close => after.closed = true,
    }
    (0, after.number())
}
