//! What the entries answer: the 64-bit number, the lent buffer after the call, a value.
//!
//! decide     every verdict of a book with its ticks tried, or its refusal
//! Totals     accepted, refuted and not judged, counted over the verdicts
//! answer     the 64-bit number, with the records written into the lent buffer
//! ask_value  a curve's value asked of a book

use crate::book::{read, Refusal, ROOM};
use crate::law::{decided, value, Decided};

pub const MOST_TICK: u64 = 2_000_000_000;
pub const RECORD: usize = 23;

/// What is due of each claim.
pub fn decide(bytes: &[u8]) -> Result<Vec<Decided>, Refusal> {
    let book = read(bytes)?;
    let one = |claim| decided(&book, claim);
    Ok(book.claims.iter().map(one).collect())
}

#[derive(Default)]
pub struct Totals {
    pub accepted: u64,
    pub refuted: u64,
    pub unjudged: u64,
}

impl Totals {
    pub fn of(verdicts: &[Decided]) -> Totals {
        let mut totals = Totals::default();
        for decided in verdicts {
            match decided.verdict.code() {
                1 => totals.accepted += 1,
                2..=4 => totals.refuted += 1,
                _ => totals.unjudged += 1,
            }
        }
        totals
    }
}

/// Refusal 14 comes last: only a sound book can meet a buffer that is too short.
pub fn room_enough(claims: usize, room: usize) -> Result<(), Refusal> {
    if claims * RECORD > room {
        return Err(Refusal {
            number: ROOM.0,
            place: 0,
            why: ROOM.1,
        });
    }
    Ok(())
}

pub fn refusal_number(refusal: &Refusal) -> u64 {
    u64::from(refusal.number) + (refusal.place as u64) * (1 << 8)
}

/// The answer of `judge`; `room` is the lent buffer before the call and after it.
pub fn answer(decision: &Result<Vec<Decided>, Refusal>, room: &mut [u8]) -> u64 {
    let verdicts = match decision {
        Ok(verdicts) => verdicts,
        Err(refusal) => return refusal_number(refusal),
    };
    if let Err(refusal) = room_enough(verdicts.len(), room.len()) {
        return refusal_number(&refusal);
    }
    for (k, decided) in verdicts.iter().enumerate() {
        room[k * RECORD..(k + 1) * RECORD].copy_from_slice(&decided.record());
    }
    let totals = Totals::of(verdicts);
    (totals.accepted << 24) + (totals.refuted << 36) + (totals.unjudged << 48)
}

/// The book's refusal, then 11, then 12; the last two have place 0.
pub fn ask_value(bytes: &[u8], curve: u64, tick: u64) -> Result<u64, Refusal> {
    let book = read(bytes)?;
    let refuse = |number, why| Refusal {
        number,
        place: 0,
        why,
    };
    if curve >= book.curves.len() as u64 {
        return Err(refuse(11, "asked: a number that names no curve"));
    }
    if tick > MOST_TICK {
        return Err(refuse(12, "asked: a tick above 2,000,000,000"));
    }
    Ok(value(&book.curves[curve as usize], tick as i64) as u64)
}
