//! The cases: which case has which seed and index, and its form on the wire.
//!
//! Lent     bytes to be lent, and how many zeros after them that are not sent
//! case     the case of a seed and an index, and of nothing else
//! write    'J' book room, or 'V' book curve tick; numbers in 8 bytes, high byte first

use crate::book::{read, Book};
use crate::dice::Dice;
use crate::itself::itself_book;
use crate::judge::{MOST_TICK, RECORD};
use crate::make::{crossing_book, full_of, large_book, many_claims};
use crate::make::{ranks_book, small_book, sound, steep_book, unjudged_book};
use crate::seam::seam_book;
use crate::shared::shared_book;
use crate::spoil::{long_book, rubbish, spoil_bytes, spoil_fields, spoil_twice};
use std::io::{self, Write};

/// Of what is longer only so many bytes are sent; the rest is zeros.
pub const SENT: usize = 131_072;

pub struct Lent {
    pub bytes: Vec<u8>,
    pub zeros: u64,
}

pub enum Ask {
    /// The lent buffer as it is before the call.
    Judge(Lent),
    Value {
        curve: u64,
        tick: u64,
    },
}

pub struct Case {
    pub label: &'static str,
    pub book: Lent,
    pub ask: Ask,
}

impl Case {
    fn of(label: &'static str, book: Vec<u8>, ask: Ask) -> Case {
        let book = Lent::all(book);
        Case { label, book, ask }
    }
}

impl Lent {
    pub fn all(bytes: Vec<u8>) -> Lent {
        Lent { bytes, zeros: 0 }
    }

    /// These bytes and zeros after them, up to this length.
    pub fn long(mut bytes: Vec<u8>, length: u64) -> Lent {
        let sent = length.min(SENT as u64);
        bytes.resize(sent as usize, 0);
        let zeros = length - sent;
        Lent { bytes, zeros }
    }

    pub fn length(&self) -> u64 {
        self.bytes.len() as u64 + self.zeros
    }
}

/// These classes come at fixed indices, so that some thousand cases have all of them; no two meet.
///
/// Every tenth case tears a book; 150 of them in a row tear the same one, each at
/// another length, so a book of up to 149 bytes is torn at every length.
const TORN: u64 = 10;
const LENGTHS: u64 = 150;
const ITSELF: u64 = 10;
const SHARED: u64 = 30;
const SEAM: u64 = 20;
const FAR: u64 = 250;
const TOTALS: u64 = 300;

pub const SHARING: &str = "periods that share divisors";

/// The codes of each of the three totals.
pub const CODES: [&[u8]; 3] = [&[1], &[2, 3, 4], &[5]];

pub fn case(seed: u64, index: u64) -> Case {
    let mut dice = Dice::new(seed, index);
    if index % TORN == 9 {
        let book = torn(seed, index / TORN);
        let ask = ask(&mut dice, &book);
        return Case::of("torn", book, ask);
    }
    if index % ITSELF == 6 {
        let book = itself_book(&mut dice, index / ITSELF);
        return judged(&mut dice, "a curve with itself", &book);
    }
    if index % SHARED == 4 {
        let book = shared_book(&mut dice, index / SHARED);
        return judged(&mut dice, SHARING, &book);
    }
    if index % SEAM == 1 {
        return seam_case(&mut dice, index / SEAM);
    }
    if index % TOTALS == 2 {
        let book = full_of(&mut dice, CODES[(index / TOTALS % 3) as usize]);
        return judged(&mut dice, "256 in one total", &book);
    }
    if index % FAR == 7 {
        return far_case(&mut dice, index / FAR);
    }
    let (label, book) = any_book(&mut dice);
    let ask = ask(&mut dice, &book);
    Case::of(label, book, ask)
}

/// With a buffer that is long enough.
fn judged(dice: &mut Dice, label: &'static str, book: &Book) -> Case {
    let more = dice.pick(&[0, 0, 1, 60]);
    let room = room(dice, book.claims.len() * RECORD + more);
    Case::of(label, sound(book), Ask::Judge(Lent::all(room)))
}

/// Every third one is asked for a value, and so each of the ten ways of such a book in turn.
fn seam_case(dice: &mut Dice, turn: u64) -> Case {
    let book = seam_book(dice, turn);
    let ask = match read(&book) {
        Ok(sound) if turn % 3 == 0 => value_ask(dice, &listed(&sound)),
        Err(_) if turn % 3 == 0 => value_ask(dice, &[]),
        _ => ask(dice, &book),
    };
    Case::of("a curve at its seam", book, ask)
}

/// So far the lengths of far cases go beyond what their low bits say.
pub const FAR_BITS: [u32; 5] = [16, 24, 31, 32, 33];

/// By the low bits of its length alone the book would be sound, or the buffer too short.
fn far_case(dice: &mut Dice, turn: u64) -> Case {
    let far = 1 << FAR_BITS[(turn / 3 % 5) as usize];
    let book = sound_book(dice);
    let exact = book.claims.len() * RECORD;
    if turn % 3 == 0 {
        let length = far + dice.index(exact) as u64;
        let room = room(dice, length.min(SENT as u64) as usize);
        let ask = Ask::Judge(Lent::long(room, length));
        return Case::of("a far longer buffer", sound(&book), ask);
    }
    let (label, ask) = if turn % 3 == 1 {
        let room = room(dice, exact);
        ("a far longer book", Ask::Judge(Lent::all(room)))
    } else {
        let ask = value_ask(dice, &listed(&book));
        ("a far longer book, asked for a value", ask)
    };
    let bytes = sound(&book);
    let length = far + bytes.len() as u64;
    let book = Lent::long(bytes, length);
    Case { label, book, ask }
}

/// With a claim.
fn sound_book(dice: &mut Dice) -> Book {
    loop {
        let book = small_book(dice, false);
        if !book.claims.is_empty() {
            return book;
        }
    }
}

fn listed(book: &Book) -> Vec<i64> {
    book.curves.iter().map(|c| c.t + c.d).collect()
}

fn torn(seed: u64, turn: u64) -> Vec<u8> {
    // An index that no case has, so that the torn book is one of its own.
    let mut dice = Dice::new(seed, u64::MAX - turn / LENGTHS);
    let mut book = sound(&small_book(&mut dice, false));
    while book.len() < 60 || book.len() as u64 >= LENGTHS {
        book = sound(&small_book(&mut dice, false));
    }
    book.truncate((turn % LENGTHS) as usize);
    book
}

fn any_book(dice: &mut Dice) -> (&'static str, Vec<u8>) {
    match dice.below(1_000) {
        0..=2 => ("a horizon about 4,096", sound(&large_book(dice))),
        3..=17 => ("a horizon above 4,096", sound(&unjudged_book(dice))),
        18..=20 => ("many claims", sound(&many_claims(dice))),
        21..=28 => ("long", long_book(dice)),
        29..=43 => ("a crossing at the limit", sound(&crossing_book(dice))),
        44..=59 => ("rubbish", rubbish(dice)),
        60..=139 => {
            let edges = dice.once_in(8);
            let book = sound(&small_book(dice, edges));
            ("bytes spoiled", spoil_bytes(dice, book))
        }
        140..=339 => ("a field spoiled", spoil_fields(dice)),
        340..=419 => ("several faults", spoil_twice(dice)),
        420..=519 => ("edges", sound(&small_book(dice, true))),
        520..=534 => ("ranks at the limit", sound(&ranks_book(dice))),
        535..=549 => ("a steep crossing", sound(&steep_book(dice))),
        _ => ("sound", sound(&small_book(dice, false))),
    }
}

fn ask(dice: &mut Dice, book: &[u8]) -> Ask {
    let sound = read(book).ok();
    if dice.once_in(12) {
        let listed = sound.as_ref().map(listed).unwrap_or_default();
        return value_ask(dice, &listed);
    }
    let length = match sound {
        Some(sound) => room_for(dice, sound.claims.len() * RECORD),
        None => dice.index(100),
    };
    Ask::Judge(Lent::all(room(dice, length)))
}

/// Any bytes, of which the first is not 0.
fn room(dice: &mut Dice, length: usize) -> Vec<u8> {
    let mut room = dice.bytes(length);
    if let Some(first) = room.first_mut() {
        *first |= 1;
    }
    room
}

/// Half exact, else longer by 1 to 60, too short, or empty.
fn room_for(dice: &mut Dice, exact: usize) -> usize {
    match dice.below(8) {
        0 | 1 => exact + dice.between(1, 60) as usize,
        2 if exact > 0 => exact - dice.between(1, exact.min(30) as i64) as usize,
        3 if dice.once_in(2) => 0,
        _ => exact,
    }
}

/// Numbers and ticks at their edges, and such as keep only their low bytes sound.
fn value_ask(dice: &mut Dice, listed: &[i64]) -> Ask {
    let count = listed.len() as u64;
    let curve = match dice.below(6) {
        0 => dice.pick(&[count, 16, 255, 256, 1 << 32, u64::MAX]),
        _ => dice.below(count.max(1) as i64) as u64,
    };
    let seam = listed.get(curve as usize).copied().unwrap_or(1);
    let tick = match dice.below(8) {
        0..=2 => (seam + dice.between(-2, 2)).max(0) as u64,
        3 => dice.below(300) as u64,
        4 | 5 => dice.below(MOST_TICK as i64) as u64,
        6 => MOST_TICK,
        _ => dice.pick(&[MOST_TICK + 1, 1 << 32, 1 << 63, u64::MAX]),
    };
    Ask::Value { curve, tick }
}

pub fn write(case: &Case, out: &mut impl Write) -> io::Result<()> {
    let head = match &case.ask {
        Ask::Judge(_) => b'J',
        Ask::Value { .. } => b'V',
    };
    out.write_all(&[head])?;
    write_lent(&case.book, out)?;
    match &case.ask {
        Ask::Judge(room) => write_lent(room, out),
        Ask::Value { curve, tick } => write_numbers(&[*curve, *tick], out),
    }
}

pub fn write_lent(lent: &Lent, out: &mut impl Write) -> io::Result<()> {
    write_numbers(&[lent.length()], out)?;
    out.write_all(&lent.bytes)
}

pub fn write_numbers(numbers: &[u64], out: &mut impl Write) -> io::Result<()> {
    for number in numbers {
        out.write_all(&number.to_be_bytes())?;
    }
    Ok(())
}
