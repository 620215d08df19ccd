//! What the header for C has to say: its functions on answers, records and states, and its
//! constants, all worked out from document 01.
//!
//! Parts        the parts of an answer, from the refusal or the totals
//! record       code, tick, left and right of a verdict
//! write        the cases for the functions: any numbers and bytes, and one for the constants
//! check        reads what the header says of them
//! names        every name that the header may have

use crate::book::{MOST_BYTES, MOST_CLAIMS, MOST_CURVES, MOST_LISTED};
use crate::cases::write_numbers;
use crate::check::{take, take_number};
use crate::dice::Dice;
use crate::judge::{MOST_TICK, RECORD};
use crate::law::{Decided, Verdict};
use std::io::{self, Read, Write};

/// Version, 16 curves of 256 values, 256 claims with an X, end.
const MOST_WRITTEN: usize =
    4 + MOST_CURVES * (3 + 8 + 4 * MOST_LISTED as usize) + MOST_CLAIMS * (3 + 7) + 3;

const CONSTANTS: [(&str, u64); 28] = [
    ("ZURMAKIDA_MAX_BOOK_BYTES", MOST_BYTES as u64),
    ("ZURMAKIDA_MAX_CURVES", MOST_CURVES as u64),
    ("ZURMAKIDA_MAX_CLAIMS", MOST_CLAIMS as u64),
    ("ZURMAKIDA_RECORD_BYTES", RECORD as u64),
    ("ZURMAKIDA_MAX_VERDICT_BYTES", (MOST_CLAIMS * RECORD) as u64),
    ("ZURMAKIDA_MAX_TICK", MOST_TICK),
    ("ZURMAKIDA_MAX_WRITTEN_BYTES", MOST_WRITTEN as u64),
    ("ZURMAKIDA_NOT_REFUSED", 0),
    ("ZURMAKIDA_REFUSED_RUNS_PAST", 1),
    ("ZURMAKIDA_REFUSED_UNKNOWN_TAG", 2),
    ("ZURMAKIDA_REFUSED_OUT_OF_PLACE", 3),
    ("ZURMAKIDA_REFUSED_TOO_MANY", 4),
    ("ZURMAKIDA_REFUSED_VERSION", 5),
    ("ZURMAKIDA_REFUSED_CURVE_LENGTH", 6),
    ("ZURMAKIDA_REFUSED_RANK_PERIOD", 7),
    ("ZURMAKIDA_REFUSED_OVER_LIMIT", 8),
    ("ZURMAKIDA_REFUSED_VALUES_FALL", 9),
    ("ZURMAKIDA_REFUSED_CLAIM", 10),
    ("ZURMAKIDA_REFUSED_NO_SUCH_CURVE", 11),
    ("ZURMAKIDA_REFUSED_TOO_LARGE", 12),
    ("ZURMAKIDA_REFUSED_END", 13),
    ("ZURMAKIDA_REFUSED_NO_ROOM", 14),
    ("ZURMAKIDA_REFUSED_BOOK_TOO_LONG", 15),
    ("ZURMAKIDA_ACCEPTED", 1),
    ("ZURMAKIDA_REFUTED_AT_TICK", 2),
    ("ZURMAKIDA_REFUTED_BY_RATE", 3),
    ("ZURMAKIDA_REFUTED_NOT_LEAST", 4),
    ("ZURMAKIDA_NOT_JUDGED", 5),
];

/// The functions that are compared, and three types.
const OTHERS: [&str; 13] = [
    "zurmakida_refusal",
    "zurmakida_place",
    "zurmakida_accepted",
    "zurmakida_refuted",
    "zurmakida_not_judged",
    "zurmakida_claims",
    "zurmakida_certified",
    "zurmakida_written",
    "zurmakida_number",
    "zurmakida_record_at",
    "zurmakida_record",
    "zurmakida_code",
    "zurmakida_refusal_number",
];

pub fn names() -> String {
    let constants = CONSTANTS.iter().map(|(name, _)| *name);
    let all: Vec<&str> = constants.chain(OTHERS).collect();
    all.join("\n") + "\n"
}

#[derive(Clone, Copy, Default)]
pub struct Parts {
    pub refusal: u64,
    pub place: u64,
    pub accepted: u64,
    pub refuted: u64,
    pub unjudged: u64,
}

const PARTS: [&str; 6] = [
    "refusal",
    "place",
    "accepted",
    "refuted",
    "not judged",
    "claims",
];

impl Parts {
    /// Of any number, by "refusal number + 2^8 * place + 2^24 * accepted + 2^36 * refuted + 2^48 *
    /// not judged".
    fn of(number: u64) -> Parts {
        Parts {
            refusal: number % (1 << 8),
            place: number / (1 << 8) % (1 << 16),
            accepted: number / (1 << 24) % (1 << 12),
            refuted: number / (1 << 36) % (1 << 12),
            unjudged: number / (1 << 48),
        }
    }

    fn number(&self) -> u64 {
        self.refusal
            + self.place * (1 << 8)
            + self.accepted * (1 << 24)
            + self.refuted * (1 << 36)
            + self.unjudged * (1 << 48)
    }

    fn claims(&self) -> u64 {
        self.accepted + self.refuted + self.unjudged
    }

    fn certified(&self) -> u64 {
        u64::from(self.claims() > 0 && self.accepted == self.claims())
    }

    fn take_most(&self, answers: &mut impl Read) -> Result<(), String> {
        let due = [
            self.refusal,
            self.place,
            self.accepted,
            self.refuted,
            self.unjudged,
            self.claims(),
        ];
        for (name, due) in PARTS.iter().zip(due) {
            take_said(answers, name, due)?;
        }
        Ok(())
    }

    /// What the header says of this answer.
    pub fn take(&self, answers: &mut impl Read) -> Result<(), String> {
        self.take_most(answers)?;
        take_said(answers, "certified", self.certified())
    }
}

/// A number that the header gives.
pub fn take_said(answers: &mut impl Read, name: &str, due: u64) -> Result<(), String> {
    let got = take_number(answers)?;
    if got == due {
        return Ok(());
    }
    Err(format!(
        "the header, {name}: due {due} ({due:X} hex), got {got} ({got:X} hex)"
    ))
}

/// Code, tick, left, right and ticks tried.
type Record = [u64; 5];

pub fn record(decided: &Decided) -> Record {
    let (tick, left, right) = match decided.verdict {
        Verdict::RefutedAt(named) => named,
        _ => (0, 0, 0),
    };
    let code = decided.verdict.code().into();
    let [tick, left, right, tried] = [tick, left, right, decided.tried].map(|n| n as u64);
    [code, tick, left, right, tried]
}

pub fn take_record(answers: &mut impl Read, due: Record) -> Result<(), String> {
    for (name, due) in ["code", "tick", "left", "right", "tried"].iter().zip(due) {
        take_said(answers, name, due)?;
    }
    Ok(())
}

/// What the functions are called with.
struct Call {
    /// Read as an answer and as a state.
    number: u64,
    /// One that judge can give.
    answer: Parts,
    bytes: Vec<u8>,
    claim: usize,
    records: Vec<u8>,
}

fn call(seed: u64, index: u64) -> Call {
    let mut dice = Dice::new(seed ^ 1 << 63, index);
    let number = dice.next();
    let answer = answer(&mut dice);
    let count = dice.index(9);
    let any = dice.index(MOST_CLAIMS);
    let claim = dice.pick(&[0, 0, 1, 2, any, MOST_CLAIMS - 1]);
    Call {
        number,
        answer,
        bytes: dice.bytes(count),
        claim,
        records: dice.bytes((claim + 1) * RECORD),
    }
}

/// A refusal, or totals of at most 256 claims; of these many are certified, and many have one claim
/// that is not accepted.
fn answer(dice: &mut Dice) -> Parts {
    if dice.once_in(4) {
        return Parts {
            refusal: dice.between(1, 15) as u64,
            place: dice.below(MOST_BYTES as i64) as u64,
            ..Parts::default()
        };
    }
    let few = dice.between(1, 3) as u64;
    let any = dice.below(200) as u64;
    let accepted = dice.pick(&[0, few, any, MOST_CLAIMS as u64]);
    let rest = MOST_CLAIMS as u64 - accepted;
    let refuted = dice.pick(&[0, 0, 1, any]).min(rest);
    let unjudged = dice.pick(&[0, 0, 1, any]).min(rest - refuted);
    Parts {
        accepted,
        refuted,
        unjudged,
        ..Parts::default()
    }
}

fn number(bytes: &[u8]) -> u64 {
    bytes.iter().fold(0, |n, b| n * 256 + u64::from(*b))
}

pub fn write(seed: u64, count: u64, out: &mut impl Write) -> io::Result<()> {
    out.write_all(b"C")?;
    for index in 0..count {
        let call = call(seed, index);
        out.write_all(b"H")?;
        let length = call.bytes.len() as u64;
        write_numbers(&[call.number, call.answer.number(), length], out)?;
        out.write_all(&call.bytes)?;
        write_numbers(&[call.claim as u64], out)?;
        out.write_all(&call.records)?;
    }
    Ok(())
}

/// A line for what was compared, or the report of the first difference.
pub fn check(seed: u64, count: u64, answers: &mut impl Read) -> Result<String, String> {
    check_constants(answers)?;
    for index in 0..count {
        let call = call(seed, index);
        check_call(&call, answers).map_err(|report| format!("call {index}: {report}\n"))?;
    }
    if !take(answers, 1).is_err_and(|e| e.is_empty()) {
        return Err("bytes are left after the last answer\n".into());
    }
    let constants = CONSTANTS.len();
    Ok(format!(
        "the header: {constants} constants, {count} calls of each function\n"
    ))
}

fn check_constants(answers: &mut impl Read) -> Result<(), String> {
    take_said(answers, "count of the constants", CONSTANTS.len() as u64)?;
    for (name, value) in CONSTANTS {
        let length = take_number(answers)?;
        let got = take(answers, length.min(100) as usize).unwrap_or_default();
        if got != name.as_bytes() {
            return Err(format!("the header's constant {name} is missing\n"));
        }
        take_said(answers, name, value)?;
    }
    Ok(())
}

fn check_call(call: &Call, answers: &mut impl Read) -> Result<(), String> {
    Parts::of(call.number).take_most(answers)?;
    let name = format!("certified {:016X}", call.answer.number());
    take_said(answers, &name, call.answer.certified())?;
    take_said(answers, "written", call.number % (1 << 16))?;
    let bytes = &call.records[call.claim * RECORD..];
    let parts = [0..1, 1..5, 5..13, 13..21, 21..23].map(|part| &bytes[part]);
    for _ in 0..2 {
        take_said(answers, "number", number(&call.bytes))?;
        take_record(answers, parts.map(number))?;
    }
    Ok(())
}
