//! The lines that the program prints for a book, and readable forms for reports.

use crate::book::Refusal;
use crate::header::record;
use crate::judge::{decide, Totals};
use crate::law::{Decided, Verdict};

pub fn lines(bytes: &[u8]) -> String {
    match decide(bytes) {
        Err(refusal) => refused(&refusal),
        Ok(verdicts) => judged(&verdicts),
    }
}

fn refused(refusal: &Refusal) -> String {
    format!("refused {} at {}\n", refusal.number, refusal.place)
}

fn judged(verdicts: &[Decided]) -> String {
    let mut text = String::new();
    for (k, Decided { verdict, .. }) in verdicts.iter().enumerate() {
        text += &format!("claim {k} {}\n", words(verdict));
    }
    let totals = Totals::of(verdicts);
    text += &format!(
        "total {} accepted {} refuted {} unjudged {}\n",
        verdicts.len(),
        totals.accepted,
        totals.refuted,
        totals.unjudged
    );
    text + certified(verdicts)
}

fn certified(verdicts: &[Decided]) -> &'static str {
    let accepted = Totals::of(verdicts).accepted;
    if !verdicts.is_empty() && accepted == verdicts.len() as u64 {
        "certified yes\n"
    } else {
        "certified no\n"
    }
}

/// What the example in the header's comment prints.
pub fn shown(bytes: &[u8]) -> String {
    let verdicts = match decide(bytes) {
        Err(refusal) => return refused(&refusal),
        Ok(verdicts) => verdicts,
    };
    let mut text = String::new();
    for (k, decided) in verdicts.iter().enumerate() {
        let [code, tick, ..] = record(decided);
        text += &format!("claim {k}: code {code}, tick {tick}\n");
    }
    text + certified(&verdicts)
}

pub fn words(verdict: &Verdict) -> String {
    match verdict {
        Verdict::Accepted => "accepted".into(),
        Verdict::RefutedAt((n, v, w)) => format!("refuted at {n} left {v} right {w}"),
        Verdict::ByRate => "refuted by rate".into(),
        Verdict::NotLeast => "refuted not least".into(),
        Verdict::NotJudged => "not judged".into(),
    }
}

/// At most the first 4,096 bytes, so that a report stays readable.
pub fn hex(bytes: &[u8]) -> String {
    let shown = &bytes[..bytes.len().min(4_096)];
    let mut text: String = shown.iter().map(|b| format!("{b:02X}")).collect();
    if shown.len() < bytes.len() {
        text += &format!("... ({} bytes in all)", bytes.len());
    }
    text
}
