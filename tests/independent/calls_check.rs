//! The writer's answers compared with the due ones, and every byte of the lent buffer after each
//! call; and what the sequences have reached.
//!
//! check    reads the answers to each sequence; the first difference ends the run
//! Seen     counts of taken calls, refusals by reason, faults at once, buffers by length

use crate::book::{join, read, Book, Field, END, MOST_CLAIMS, MOST_CURVES};
use crate::calls::{sequences, Sequence, Step};
use crate::cases::{Lent, FAR_BITS};
use crate::check::{finished, take, take_number, Seams};
use crate::header::take_said;
use crate::seam::told_apart;
use crate::text::hex;
use crate::writer::{call, faults, faults_of, Call, Fault, State, NAMES, SEAM};
use std::collections::{BTreeMap, BTreeSet};
use std::io::Read;

#[derive(Default)]
struct Seen {
    labels: BTreeMap<&'static str, u64>,
    calls: u64,
    taken: BTreeMap<&'static str, u64>,
    /// How often it was given, and how often it was the only fault.
    refusals: BTreeMap<Fault, (u64, u64)>,
    /// The number that was given and another one whose fault was there too.
    pairs: BTreeMap<(&'static str, u8, u8), u64>,
    /// Of sound calls by field: with just enough room, and with one byte less.
    rooms: BTreeMap<&'static str, [u64; 2]>,
    forged: u64,
    /// The highest bits of the buffers' lengths.
    far: BTreeSet<u32>,
    seams: Seams,
    books: u64,
    closed: u64,
    largest: u64,
    again: u64,
}

/// The summary, or the report of the first difference.
pub fn check(seed: u64, count: u64, answers: &mut impl Read) -> Result<String, String> {
    let mut seen = Seen::default();
    for index in 0..count {
        for sequence in sequences(seed, index) {
            *seen.labels.entry(sequence.label).or_default() += 1;
            let (label, mut follower) = (sequence.label, Follower::new(&mut seen));
            follower
                .follow(&sequence, answers)
                .map_err(|report| format!("sequence {index} ({label}), {report}\n"))?;
        }
    }
    if !take(answers, 1).is_err_and(|e| e.is_empty()) {
        return Err("bytes are left after the last answer\n".into());
    }
    seen.finish()
}

/// A sequence as far as it has come: `room` is what the lent buffer has to hold, `got` what it
/// holds by the answers.
struct Follower<'a> {
    seen: &'a mut Seen,
    room: Vec<u8>,
    got: Vec<u8>,
    length: u64,
    state: u64,
    forged: bool,
    /// What the taken calls have added; none where some of it stands in another buffer.
    book: Option<Book>,
}

impl<'a> Follower<'a> {
    fn new(seen: &'a mut Seen) -> Follower<'a> {
        Follower {
            seen,
            room: vec![],
            got: vec![],
            length: 0,
            state: 0,
            forged: false,
            book: Some(Book::default()),
        }
    }

    fn follow(&mut self, sequence: &Sequence, answers: &mut impl Read) -> Result<(), String> {
        for (at, step) in sequence.steps.iter().enumerate() {
            match step {
                Step::Lend(lent) => self.lend(lent),
                Step::Pass(state) => {
                    self.state = *state;
                    self.forged = true;
                    self.book = None;
                }
                Step::Call(next) => self
                    .call(next, answers)
                    .map_err(|report| format!("step {at}: {}", self.report(next, &report)))?,
            }
        }
        self.read_back(sequence)
    }

    fn lend(&mut self, lent: &Lent) {
        let bytes = &lent.bytes;
        let written = State::of(self.state).written as usize;
        let kept = self.room.get(..written);
        if kept.is_none() || kept != bytes.get(..written) {
            self.book = None;
        }
        self.room = bytes.clone();
        self.got = bytes.clone();
        self.length = lent.length();
    }

    fn call(&mut self, next: &Call, answers: &mut impl Read) -> Result<(), String> {
        let faults = faults(next, self.state, self.length);
        self.seen
            .call(next, &faults, self.state, self.length, self.forged);
        let (refusal, state) = call(next, &faults, self.state, &mut self.room);
        let (got_refusal, got_state) = (take_number(answers)?, take_number(answers)?);
        self.change(answers)?;
        if (got_refusal, got_state) != (refusal, state) {
            return Err(format!(
                "due refusal {refusal}, state {state:016X}\n\
                 got refusal {got_refusal}, state {got_state:016X}"
            ));
        }
        if self.got != self.room {
            let mut both = self.room.iter().zip(&self.got).enumerate();
            let first = both.find(|(_, (due, got))| due != got);
            return Err(format!("the buffer differs, (byte, (due, got)) {first:?}"));
        }
        take_said(answers, "written", State::of(state).written)?;
        self.state = state;
        if let (0, Some(book)) = (refusal, &mut self.book) {
            book.curves.extend(next.curve());
            book.claims.extend(next.claim());
        }
        Ok(())
    }

    /// Brings `got` to what the buffer holds after the call.
    fn change(&mut self, answers: &mut impl Read) -> Result<(), String> {
        let length = take_number(answers)? as usize;
        if length == 0 {
            return Ok(());
        }
        let place = take_number(answers)? as usize;
        let bytes = take(answers, length).map_err(|_| "the changed bytes are missing")?;
        let end = place.saturating_add(length);
        let part = self.got.get_mut(place..end);
        let part = part.ok_or(format!("bytes {place} to {end} changed"))?;
        part.copy_from_slice(&bytes);
        Ok(())
    }

    fn report(&self, next: &Call, what: &str) -> String {
        let faults = faults(next, self.state, self.length);
        let whys: Vec<_> = faults.iter().map(|f| (f.number, f.why)).collect();
        format!(
            "{what}\n{next:?}\nstate {:016X}, buffer of {} bytes; faults {whys:?}",
            self.state, self.length
        )
    }

    /// What was written is a sound book with the same curves and claims, or the start of one.
    fn read_back(&mut self, sequence: &Sequence) -> Result<(), String> {
        let state = State::of(self.state);
        let written = state.written as usize;
        if let Some(due) = &sequence.book {
            if !state.closed || self.got.get(..written) != Some(due) {
                return Err(format!("the end: not the book {}", hex(due)));
            }
            self.seen.again += 1;
        }
        let Some(book) = &self.book else {
            return Ok(());
        };
        if state.version == 0 {
            return Ok(());
        }
        let mut bytes = self.got[..written].to_vec();
        if !state.closed {
            bytes.extend(join(&[Field::new(END, vec![])]));
        }
        if read(&bytes).as_ref() != Ok(book) {
            return Err(format!(
                "the end: no sound book, or another: {}",
                hex(&bytes)
            ));
        }
        let full = book.curves.len() == MOST_CURVES && book.claims.len() == MOST_CLAIMS;
        self.seen.books += 1;
        self.seen.closed += u64::from(state.closed);
        self.seen.largest += u64::from(state.closed && full);
        Ok(())
    }
}

/// Two refusal numbers of a call, the one that is tried first before the other.
fn pairs(name: &str) -> Vec<(u8, u8)> {
    let mut numbers: Vec<u8> = faults_of(name).iter().map(|f| f.number).collect();
    numbers.dedup();
    let mut pairs = vec![];
    for (i, first) in numbers.iter().enumerate() {
        pairs.extend(numbers[i + 1..].iter().map(|other| (*first, *other)));
    }
    pairs
}

const FIELDS: [&str; 5] = ["begin", "curve", "claim", "claim with X", "close"];

fn field_of(call: &Call) -> &'static str {
    match call {
        Call::Claim { kind: 4..=7, .. } => "claim with X",
        _ => call.name(),
    }
}

impl Seen {
    fn call(&mut self, next: &Call, faults: &[Fault], state: u64, length: u64, forged: bool) {
        self.calls += 1;
        self.forged += u64::from(forged);
        self.far.extend(length.checked_ilog2());
        let name = next.name();
        if let Some(first) = faults.first() {
            let given = self.refusals.entry(*first).or_default();
            given.0 += 1;
            given.1 += u64::from(faults.len() == 1);
            for other in faults.iter().filter(|f| f.number != first.number) {
                let pair = (name, first.number, other.number);
                *self.pairs.entry(pair).or_default() += 1;
            }
        } else {
            *self.taken.entry(name).or_default() += 1;
        }
        self.seam(next, faults);
        if faults.iter().all(|f| f.number == 14) {
            let end = State::of(state).written + next.size() as u64;
            let rooms = self.rooms.entry(field_of(next)).or_default();
            rooms[0] += u64::from(length == end);
            rooms[1] += u64::from(length + 1 == end);
        }
    }

    fn seam(&mut self, next: &Call, faults: &[Fault]) {
        let is_seam = |f: &&Fault| (f.number, f.why) == SEAM;
        let before = faults.iter().take_while(|f| !is_seam(f));
        let numbers: Vec<u8> = before.map(|f| f.number).collect();
        let falls = faults.iter().any(|f| is_seam(&f));
        if numbers.iter().all(|number| *number == 14) {
            let told = next.curve();
            self.seams.readings.extend(told.iter().flat_map(told_apart));
        }
        // Where the list falls too, 9 would be due all the same.
        if falls && !numbers.contains(&9) {
            let after = faults.last().map(|f| &f.number).filter(|n| **n == 14);
            self.seams.others.extend(numbers.first().or(after));
        }
    }

    fn finish(self) -> Result<String, String> {
        finished(self.summary(), self.missing())
    }

    fn missing(&self) -> Vec<String> {
        let mut missing = Vec::new();
        for name in NAMES {
            for fault in faults_of(name) {
                if self.given(&fault).1 == 0 {
                    let (number, why) = (fault.number, fault.why);
                    missing.push(format!("{name}, refusal {number} alone, {why}"));
                }
            }
            for (first, other) in pairs(name) {
                if !self.pairs.contains_key(&(name, first, other)) {
                    missing.push(format!("{name}, refusal {first} with {other}"));
                }
            }
            if !self.taken.contains_key(name) {
                missing.push(format!("{name}, taken"));
            }
        }
        for field in FIELDS {
            let rooms = self.rooms.get(field).copied().unwrap_or_default();
            if rooms.contains(&0) {
                missing.push(format!("{field} with just enough room, or one byte less"));
            }
        }
        for bit in FAR_BITS.iter().filter(|bit| !self.far.contains(bit)) {
            missing.push(format!("a buffer of 2^{bit} bytes and more"));
        }
        missing.extend(self.seams.missing(&[3, 4, 6, 7, 8, 14]));
        for (count, what) in [
            (self.closed, "a book closed and read back"),
            (self.largest, "a book of 16 curves and 256 claims"),
            (self.again, "a sound book of the cases"),
        ] {
            if count == 0 {
                missing.push(what.into());
            }
        }
        missing
    }

    fn given(&self, fault: &Fault) -> (u64, u64) {
        self.refusals.get(fault).copied().unwrap_or_default()
    }

    fn summary(&self) -> String {
        let mut text = String::from("sequences of the writer's calls\n");
        for (label, count) in &self.labels {
            text += &format!("  {count:7} {label}\n");
        }
        text += "refusals of the writer: all, without another fault\n";
        for fault in NAMES.iter().flat_map(|name| faults_of(name)) {
            let (all, alone) = self.given(&fault);
            let Fault { call, number, why } = fault;
            text += &format!("  {all:7} {alone:7} {call} {number:2} {why}\n");
        }
        let each = |name: &str| format!("{name} {}", self.taken.get(name).unwrap_or(&0));
        let each = NAMES.map(each).join(", ");
        let taken: u64 = self.taken.values().sum();
        let sum = |i: usize| self.rooms.values().map(|rooms| rooms[i]).sum::<u64>();
        text += &format!(
            "calls {}: taken {taken} ({each}), refused {}; after a forged state {}\n",
            self.calls,
            self.calls - taken,
            self.forged
        );
        text += &format!(
            "room for sound calls: just enough {}, one byte less {}; pairs of faults at once {}\n",
            sum(0),
            sum(1),
            self.pairs.len()
        );
        text += &self.seams.summary();
        text += &format!(
            "books read back {}, closed {}, of 16 curves and 256 claims {}; written again {}\n",
            self.books, self.closed, self.largest, self.again
        );
        text
    }
}
