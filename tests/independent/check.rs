//! Answers compared with the due ones, byte for byte, and what the cases have reached.
//!
//! check    reads one answer for each case; the first difference ends the run
//! Seen     counts of refusals by reason, verdicts by kind and code, buffers by length, and more

use crate::book::{read, Book, Refusal, MOST_CLAIMS, REASONS, SEAM};
use crate::cases::{case, Ask, Case, Lent, CODES, FAR_BITS, SHARING};
use crate::header::{record, take_record, take_said, Parts};
use crate::itself::Mirrored;
use crate::judge::{answer, ask_value, decide, refusal_number, room_enough, Totals, RECORD};
use crate::law::{horizon, pace, Decided};
use crate::seam::{falls_there, held_at, told_apart, READINGS};
use crate::shared::{RATES, TARGETS};
use crate::text::{hex, words};
use crate::tried::Counts;
use std::cmp::Ordering;
use std::collections::{BTreeMap, BTreeSet};
use std::io::Read;

/// The codes that a kind can have.
pub fn codes(kind: u8) -> &'static [u8] {
    match kind {
        1..=3 => &[1, 2, 5],
        4 | 6 => &[1, 2, 3, 5],
        _ => &[1, 2, 3, 4, 5],
    }
}

#[derive(Default)]
struct Seen {
    labels: BTreeMap<&'static str, u64>,
    judged: u64,
    claims: u64,
    refusals: BTreeMap<(u8, &'static str), u64>,
    verdicts: BTreeMap<(u8, u8), u64>,
    rooms: [u64; 3],
    /// 256 claims accepted, refuted, not judged.
    full: [u64; 3],
    /// Kind, horizon, and f's rate against g's, of the claims whose periods share divisors.
    sharing: BTreeSet<(u8, i64, Ordering)>,
    mirrored: Mirrored,
    counts: Counts,
    /// What was long, and the highest bit of its length.
    far: BTreeSet<(&'static str, u32)>,
    seams: Seams,
    values: u64,
    asked_refusals: BTreeMap<(u8, bool), u64>,
    asked_seams: u64,
}

/// Wrong readings of the seam that some curve has told apart, and the refusals of curves that fall
/// there with something else wrong, with which the rule comes before or after.
#[derive(Default)]
pub struct Seams {
    pub readings: BTreeSet<&'static str>,
    pub others: BTreeSet<u8>,
}

impl Seams {
    pub fn missing(&self, others: &[u8]) -> Vec<String> {
        let readings = READINGS.iter().map(|(name, _)| *name);
        let untold = readings.filter(|name| !self.readings.contains(name));
        let alone = others.iter().filter(|number| !self.others.contains(number));
        let untold = untold.map(|name| format!("a curve that tells apart at the seam: {name}"));
        let alone = alone.map(|number| format!("a fall at the seam with refusal {number}"));
        untold.chain(alone).collect()
    }

    pub fn summary(&self) -> String {
        format!(
            "the seam: {} wrong readings told apart, {} refusals with a fall there\n",
            self.readings.len(),
            self.others.len()
        )
    }
}

/// The summary, or the report of the first difference.
pub fn check(seed: u64, count: u64, answers: &mut impl Read) -> Result<String, String> {
    let mut seen = Seen::default();
    for index in 0..count {
        let case = case(seed, index);
        *seen.labels.entry(case.label).or_default() += 1;
        seen.lengths(&case);
        let compared = match &case.ask {
            Ask::Judge(room) => judge_case(&case, room, answers, &mut seen),
            Ask::Value { curve, tick } => value_case(&case, *curve, *tick, answers, &mut seen),
        };
        compared.map_err(|report| {
            let (length, book) = (case.book.length(), hex(&case.book.bytes));
            let label = case.label;
            format!("case {index} ({label}): {report}\nbook of {length} bytes {book}\n")
        })?;
    }
    if !take(answers, 1).is_err_and(|e| e.is_empty()) {
        return Err("bytes are left after the last answer\n".into());
    }
    seen.finish()
}

/// Exactly `length` bytes, or the fewer that were left.
pub fn take(answers: &mut impl Read, length: usize) -> Result<Vec<u8>, Vec<u8>> {
    let mut bytes = Vec::new();
    match answers.take(length as u64).read_to_end(&mut bytes) {
        Ok(n) if n == length => Ok(bytes),
        _ => Err(bytes),
    }
}

pub fn take_number(answers: &mut impl Read) -> Result<u64, String> {
    let bytes = take(answers, 8).map_err(|_| "the answer is missing".to_string())?;
    Ok(bytes.iter().fold(0, |n, b| n * 256 + u64::from(*b)))
}

fn judge_case(
    case: &Case,
    room: &Lent,
    answers: &mut impl Read,
    seen: &mut Seen,
) -> Result<(), String> {
    // What is not sent is over 32,768 bytes, or more than any records need.
    let decision = decide(&case.book.bytes);
    seen.judge(case, &decision, room.bytes.len());
    let mut due_room = room.bytes.clone();
    let due = answer(&decision, &mut due_room);
    let got = take_number(answers)?;
    let got_room = take(answers, room.bytes.len()).map_err(|_| "the buffer is missing")?;
    if got == due && got_room == due_room {
        return header_says(&decision, room.bytes.len(), answers);
    }
    let mut report = format!("judge, buffer of {} bytes\n", room.length());
    if got != due {
        report += &format!("due {}\ngot {}\n", spelled(due), spelled(got));
    }
    if let Some(at) = (0..due_room.len()).find(|i| got_room[*i] != due_room[*i]) {
        report += &room_report(&decision, &due_room, &got_room, at);
    }
    Err(report)
}

/// Of an answer that is right, and of its records.
fn header_says(
    decision: &Result<Vec<Decided>, Refusal>,
    room: usize,
    answers: &mut impl Read,
) -> Result<(), String> {
    let refused = match decision {
        Ok(verdicts) => room_enough(verdicts.len(), room).err(),
        Err(refusal) => Some(*refusal),
    };
    if let Some(Refusal { number, place, .. }) = refused {
        let parts = Parts {
            refusal: number.into(),
            place: place as u64,
            ..Parts::default()
        };
        return parts.take(answers);
    }
    let verdicts = decision.as_ref().map_or(&[][..], |verdicts| verdicts);
    let totals = Totals::of(verdicts);
    let parts = Parts {
        accepted: totals.accepted,
        refuted: totals.refuted,
        unjudged: totals.unjudged,
        ..Parts::default()
    };
    parts.take(answers)?;
    for (claim, decided) in verdicts.iter().enumerate() {
        take_record(answers, record(decided))
            .map_err(|report| format!("record {claim}: {report}"))?;
    }
    Ok(())
}

fn spelled(answer: u64) -> String {
    format!(
        "{answer:016X}: refusal {} at {}, accepted {}, refuted {}, not judged {}",
        answer & 0xFF,
        answer >> 8 & 0xFFFF,
        answer >> 24 & 0xFFF,
        answer >> 36 & 0xFFF,
        answer >> 48
    )
}

fn room_report(
    decision: &Result<Vec<Decided>, Refusal>,
    due: &[u8],
    got: &[u8],
    at: usize,
) -> String {
    let (due_byte, got_byte) = (due[at], got[at]);
    let record = at / RECORD;
    let end = due.len().min((record + 1) * RECORD);
    let within = record * RECORD..end;
    let claim = match decision {
        Ok(verdicts) => match verdicts.get(record) {
            Some(Decided {
                kind,
                verdict,
                tried,
                ..
            }) => {
                let said = words(verdict);
                format!("claim {record} of kind {kind}: {said}, {tried} ticks tried")
            }
            None => "after the last record, must stay".into(),
        },
        Err(refusal) => format!("refused ({}), must stay", refusal.why),
    };
    format!(
        "buffer differs first at byte {at}: due {due_byte:02X}, got {got_byte:02X}\n\
         record {record}, byte {} of it; {claim}\ndue {}\ngot {}\n",
        at % RECORD,
        hex(&due[within.clone()]),
        hex(&got[within])
    )
}

fn value_case(
    case: &Case,
    curve: u64,
    tick: u64,
    answers: &mut impl Read,
    seen: &mut Seen,
) -> Result<(), String> {
    let outcome = ask_value(&case.book.bytes, curve, tick);
    seen.value(&outcome);
    seen.asked_seams += u64::from(outcome.as_ref().is_err_and(|r| (r.number, r.why) == SEAM));
    let (due_refusal, due_value) = match &outcome {
        Ok(value) => (0, *value),
        Err(refusal) => (refusal_number(refusal), 0),
    };
    let refusal = take_number(answers)?;
    let value = take_number(answers)?;
    if (refusal, value) == (due_refusal, due_value) {
        let (number, place) = outcome.err().map_or((0, 0), |r| (r.number.into(), r.place));
        take_said(answers, "refusal", number)?;
        return take_said(answers, "place", place as u64);
    }
    Err(format!(
        "value of curve {curve} at tick {tick}\n\
         due refusal {} at {}, value {due_value}\ngot refusal {} at {}, value {value}\n",
        due_refusal & 0xFF,
        due_refusal >> 8,
        refusal & 0xFF,
        refusal >> 8
    ))
}

impl Seen {
    fn lengths(&mut self, case: &Case) {
        let book = case.book.length();
        let lengths = match &case.ask {
            Ask::Judge(room) => vec![("a book", book), ("a buffer", room.length())],
            Ask::Value { .. } => vec![("a book asked for a value", book)],
        };
        let highest = |(what, length): (_, u64)| Some((what, length.checked_ilog2()?));
        self.far.extend(lengths.into_iter().filter_map(highest));
    }

    fn judge(&mut self, case: &Case, decision: &Result<Vec<Decided>, Refusal>, room: usize) {
        self.judged += 1;
        self.seam(&case.book.bytes);
        let verdicts = match decision {
            Ok(verdicts) => verdicts,
            Err(refusal) => return self.refuse(refusal),
        };
        let size = match room.cmp(&(verdicts.len() * RECORD)) {
            Ordering::Less => 0,
            Ordering::Equal => 1,
            Ordering::Greater => 2,
        };
        self.rooms[size] += 1;
        if let Err(refusal) = room_enough(verdicts.len(), room) {
            return self.refuse(&refusal);
        }
        for decided in verdicts {
            let reached = (decided.kind, decided.verdict.code());
            self.claims += 1;
            *self.verdicts.entry(reached).or_default() += 1;
            self.counts.see(decided);
        }
        for (full, codes) in self.full.iter_mut().zip(CODES) {
            let counted = verdicts
                .iter()
                .filter(|d| codes.contains(&d.verdict.code()));
            *full += u64::from(counted.count() == MOST_CLAIMS);
        }
        let book = read(&case.book.bytes).expect("a book that was judged");
        self.mirrored.see(&book, verdicts);
        if case.label == SHARING {
            self.share(&book);
        }
    }

    fn seam(&mut self, bytes: &[u8]) {
        let refusal = match read(bytes) {
            Ok(book) => {
                let told = book.curves.iter().flat_map(told_apart);
                return self.seams.readings.extend(told);
            }
            Err(refusal) => refusal,
        };
        let held = held_at(bytes, refusal.place);
        match held.filter(falls_there) {
            Some(curve) if (refusal.number, refusal.why) == SEAM => {
                self.seams.readings.extend(told_apart(&curve));
            }
            Some(_) => {
                self.seams.others.insert(refusal.number);
            }
            None => {}
        }
    }

    fn share(&mut self, book: &Book) {
        for claim in &book.claims {
            let (f, g) = (
                &book.curves[claim.left as usize],
                &book.curves[claim.right as usize],
            );
            let reached = (claim.kind, horizon(book, claim), pace(f, g));
            self.sharing.insert(reached);
        }
    }

    fn refuse(&mut self, refusal: &Refusal) {
        let reason = (refusal.number, refusal.why);
        *self.refusals.entry(reason).or_default() += 1;
    }

    fn value(&mut self, outcome: &Result<u64, Refusal>) {
        match outcome {
            Ok(_) => self.values += 1,
            Err(refusal) => {
                let asked = refusal.why.starts_with("asked");
                let entry = self.asked_refusals.entry((refusal.number, asked));
                *entry.or_default() += 1;
            }
        }
    }

    fn finish(self) -> Result<String, String> {
        finished(self.summary(), self.missing())
    }

    fn missing(&self) -> Vec<String> {
        let mut missing = Vec::new();
        for reason in REASONS {
            if !self.refusals.contains_key(&reason) {
                missing.push(format!("refusal {}, {}", reason.0, reason.1));
            }
        }
        for kind in 1..=7 {
            let unseen = |code: &&u8| !self.verdicts.contains_key(&(kind, **code));
            for code in codes(kind).iter().filter(unseen) {
                missing.push(format!("kind {kind} code {code}"));
            }
        }
        for (size, name) in ["too short", "exact", "too long"].iter().enumerate() {
            if self.rooms[size] == 0 {
                missing.push(format!("a buffer that is {name}"));
            }
        }
        missing.extend(self.missing_limits());
        missing.extend(self.mirrored.missing());
        missing.extend(self.counts.missing());
        missing.extend(self.seams.missing(&[1, 3, 4, 6, 7, 8]));
        missing.extend(self.missing_values());
        missing
    }

    fn missing_limits(&self) -> Vec<String> {
        let mut missing = Vec::new();
        for (full, name) in self.full.iter().zip(["accepted", "refuted", "not judged"]) {
            if *full == 0 {
                missing.push(format!("256 claims {name}"));
            }
        }
        for what in ["a book", "a book asked for a value", "a buffer"] {
            let unseen = |bit: &&u32| !self.far.contains(&(what, **bit));
            for bit in FAR_BITS.iter().filter(unseen) {
                missing.push(format!("{what} of 2^{bit} bytes and more"));
            }
        }
        for kind in 1..=7 {
            for (target, rates) in TARGETS.iter().flat_map(|t| RATES.map(|r| (*t, r))) {
                if !self.sharing.contains(&(kind, target, rates)) {
                    missing.push(format!("{SHARING}: {kind}, {target}, rates {rates:?}"));
                }
            }
        }
        missing
    }

    fn missing_values(&self) -> Vec<String> {
        let mut missing = Vec::new();
        if self.values == 0 {
            missing.push("a value".into());
        }
        for number in [11, 12] {
            if !self.asked_refusals.contains_key(&(number, true)) {
                missing.push(format!("a value query refused with {number}"));
            }
        }
        if !self.asked_refusals.keys().any(|(_, asked)| !asked) {
            missing.push("a value query of a bad book".into());
        }
        if self.asked_seams == 0 {
            missing.push("a value query of a book with a fall at the seam".into());
        }
        missing
    }

    fn summary(&self) -> String {
        let mut text = String::from("cases\n");
        for (label, count) in &self.labels {
            text += &format!("  {count:7} {label}\n");
        }
        text += "refusals of judge\n";
        for ((number, why), count) in &self.refusals {
            text += &format!("  {count:7} {number:2} {why}\n");
        }
        text += "claims, kind by code\n             1       2       3       4       5\n";
        for kind in 1..=7u8 {
            text += &format!("  {kind}  ");
            for code in 1..=5u8 {
                let count = self.verdicts.get(&(kind, code)).copied().unwrap_or(0);
                text += &format!(" {count:7}");
            }
            text += "\n";
        }
        let [short, exact, long] = self.rooms;
        text += &format!(
            "books judged {}, claims {}; buffers of sound books: \
             too short {short}, exact {exact}, too long {long}\n",
            self.judged, self.claims
        );
        let [accepted, refuted, unjudged] = self.full;
        text += &format!(
            "256 claims accepted {accepted}, refuted {refuted}, not judged {unjudged}; \
             {SHARING}: {} kinds with horizons and rates\n",
            self.sharing.len()
        );
        text += &self.mirrored.summary();
        text += &self.counts.summary();
        text += &self.seams.summary();
        text + &self.value_summary()
    }

    fn value_summary(&self) -> String {
        let count = |number| self.asked_refusals.get(&(number, true)).unwrap_or(&0);
        let bad = self.asked_refusals.iter().filter(|((_, asked), _)| !asked);
        format!(
            "value queries: {} values, {} no such curve, {} tick too large, {} bad books\n",
            self.values,
            count(11),
            count(12),
            bad.map(|(_, n)| n).sum::<u64>()
        )
    }
}

/// A run's summary: as an error, with what it should have met and did not, where there is such.
pub fn finished(mut text: String, missing: Vec<String>) -> Result<String, String> {
    if missing.is_empty() {
        return Ok(text);
    }
    for m in missing {
        text += &format!("not seen: {m}\n");
    }
    Err(text)
}
