//! Spoiled books: by bytes, by fields, by several faults in one field; rubbish; long books.
//!
//! spoil_bytes     one to three bytes changed, inserted or deleted
//! spoil_fields    one fault of order, number, tag, length or content
//! spoil_twice     several faults in the same field, which shows their order
//! rubbish         bytes with little sense
//! long_book       lengths of 32,767 to 70,000

use crate::book::{join, number, Book, Field, CLAIM, CURVE, END, VERSION};
use crate::dice::Dice;
use crate::make::{small_book, small_curve};

pub fn spoil_bytes(dice: &mut Dice, mut bytes: Vec<u8>) -> Vec<u8> {
    for _ in 0..dice.between(1, 3) {
        let at = dice.index(bytes.len());
        match dice.below(5) {
            0 => bytes[at] = dice.next() as u8,
            1 => bytes[at] = bytes[at].wrapping_add(1),
            2 => bytes[at] = bytes[at].wrapping_sub(1),
            3 => bytes.insert(at, dice.next() as u8),
            _ if bytes.len() > 1 => {
                bytes.remove(at);
            }
            _ => bytes[at] ^= 0x80,
        }
    }
    bytes
}

/// A book with at least one curve and one claim.
fn base(dice: &mut Dice) -> Book {
    loop {
        let book = small_book(dice, false);
        if !book.claims.is_empty() {
            return book;
        }
    }
}

pub fn spoil_fields(dice: &mut Dice) -> Vec<u8> {
    let book = base(dice);
    let mut fields = book.fields();
    match dice.below(20) {
        0..=5 => {
            let at = place_of(dice, &fields, CURVE);
            curve_fault(dice, &mut fields[at]);
        }
        6..=10 => {
            let at = place_of(dice, &fields, CLAIM);
            claim_fault(dice, &mut fields[at], book.curves.len());
        }
        11..=13 => order_fault(dice, &mut fields),
        14 => number_fault(dice, &mut fields, book),
        15 => version_fault(dice, &mut fields[0]),
        16 | 17 => return end_fault(dice, fields),
        _ => {
            let at = dice.index(fields.len());
            frame_fault(dice, &mut fields[at]);
        }
    }
    join(&fields)
}

/// The first bad field decides, and within it the order of document 01.
pub fn spoil_twice(dice: &mut Dice) -> Vec<u8> {
    let book = base(dice);
    let curves = book.curves.len();
    let mut fields = book.fields();
    let at = match dice.below(8) {
        0..=2 => place_of(dice, &fields, CURVE),
        3 | 4 => place_of(dice, &fields, CLAIM),
        5 => {
            number_fault(dice, &mut fields, book);
            fields.len() - 2
        }
        _ => {
            order_fault(dice, &mut fields);
            dice.index(fields.len())
        }
    };
    for _ in 0..dice.between(1, 3) {
        content_fault(dice, &mut fields[at], curves);
    }
    if dice.once_in(3) {
        frame_fault(dice, &mut fields[at]);
    }
    let mut bytes = join(&fields);
    if dice.once_in(6) {
        bytes.truncate(bytes.len() - dice.index(bytes.len().min(12)));
    }
    bytes
}

fn content_fault(dice: &mut Dice, field: &mut Field, curves: usize) {
    match field.tag {
        CURVE => curve_fault(dice, field),
        CLAIM => claim_fault(dice, field, curves),
        VERSION => version_fault(dice, field),
        _ => frame_fault(dice, field),
    }
}

/// A field with this tag; the books spoiled here have one.
fn place_of(dice: &mut Dice, fields: &[Field], tag: u8) -> usize {
    let all: Vec<usize> = (0..fields.len())
        .filter(|i| fields[*i].tag == tag)
        .collect();
    dice.pick(&all)
}

fn put(content: &mut [u8], at: usize, number: &[u8]) {
    if let Some(part) = content.get_mut(at..at + number.len()) {
        part.copy_from_slice(number);
    }
}

const TOO_LARGE: [u32; 4] = [1_000_001, 0x0100_0000, 0x8000_0000, u32::MAX];

/// Leaves a curve's field alone where it is too short for the fault.
fn curve_fault(dice: &mut Dice, field: &mut Field) {
    let content = &mut field.content;
    let words = content.len().saturating_sub(8) / 4;
    match dice.below(11) {
        0 => content.truncate(dice.index(8)),
        1 => put(content, 2, &[0, 0]),
        2 => long_list(dice, content),
        3 => {
            // Sums that two bytes cannot hold: 65,536 and 65,537.
            put(content, 0, &[0xFF, 0xFF]);
            put(content, 2, &[0, 1 + dice.below(2) as u8]);
        }
        4 => {
            let more = dice.between(1, 4) as usize;
            content.extend(dice.bytes(more));
        }
        5 => content.truncate(content.len().saturating_sub(dice.between(1, 4) as usize)),
        6 => put(content, 4, &dice.pick(&TOO_LARGE).to_be_bytes()),
        7 if words > 0 => {
            let at = 8 + 4 * dice.index(words);
            put(content, at, &dice.pick(&TOO_LARGE).to_be_bytes());
        }
        8 | 9 => seam_fault(dice, content),
        _ if words > 1 => {
            let at = 8 + 4 * dice.index(words - 1);
            put(content, at, &900_000u32.to_be_bytes());
        }
        _ => content.truncate(7),
    }
    field.settle();
}

/// c is one less than f(T+d-1)-f(T), or f(T+d-1) is one more than f(T)+c. With d = 1 there is no such
/// fault.
fn seam_fault(dice: &mut Dice, content: &mut [u8]) {
    let number_at = |at: usize, size: usize| content.get(at..at + size).map(number);
    let head = (number_at(0, 2), number_at(2, 2), number_at(4, 4));
    let (Some(t), Some(d), Some(c)) = head else {
        return;
    };
    let place = |n: i64| 8 + 4 * n.max(0) as usize;
    let last = place(t + d - 1);
    let (Some(low), Some(high)) = (number_at(place(t), 4), number_at(last, 4)) else {
        return;
    };
    if d > 1 && dice.once_in(2) {
        put(content, last, &((low + c + 1) as u32).to_be_bytes());
    } else if low < high {
        put(content, 4, &((high - low - 1) as u32).to_be_bytes());
    }
}

/// T+d = 257, with 257 values or with as many as before.
fn long_list(dice: &mut Dice, content: &mut Vec<u8>) {
    let d = dice.pick(&[1u16, 2, 128, 256, 257]);
    put(content, 0, &(257 - d).to_be_bytes());
    put(content, 2, &d.to_be_bytes());
    if dice.once_in(2) {
        content.resize(8 + 4 * 257, 0);
    }
}

fn claim_fault(dice: &mut Dice, field: &mut Field, curves: usize) {
    let content = &mut field.content;
    let kind = content.first().copied().unwrap_or(0);
    let no_curve = dice.pick(&[curves as u8, 16.max(curves as u8), 128, 255]);
    match dice.below(9) {
        0 => content.clear(),
        1 => put(content, 0, &[dice.pick(&[0, 8, 9, 127, 128, 255])]),
        2 => put(content, 0, &[dice.between(1, 7) as u8]),
        3 => content.push(dice.next() as u8),
        4 => {
            content.pop();
        }
        5 => put(content, 1, &[no_curve]),
        6 => put(content, 2, &[no_curve]),
        7 if (1..=3).contains(&kind) => put(content, 3, &[no_curve]),
        _ if (4..=7).contains(&kind) => {
            let x = dice.pick(&[1_000_000_001, 1_000_000_001, 0x8000_0000, u32::MAX]);
            put(content, 3, &x.to_be_bytes());
        }
        _ => content.truncate(2),
    }
    field.settle();
}

fn version_fault(dice: &mut Dice, field: &mut Field) {
    field.content = dice.pick(&[vec![0], vec![2], vec![255], vec![], vec![1, 1], vec![0, 1]]);
    field.settle();
}

/// The tag or the length, whatever the content.
fn frame_fault(dice: &mut Dice, field: &mut Field) {
    match dice.below(5) {
        0 => field.tag = dice.pick(&[0, 3, 0x0F, 0x11, 0x12, 0x7E, 0x80, 0xFF]),
        1 => field.length = field.length.wrapping_add(dice.between(1, 4) as u16),
        2 => field.length = field.length.saturating_sub(dice.between(1, 4) as u16),
        3 => field.length = dice.pick(&[0x7FFF, 0x8000, 0xFFFF]),
        _ => field.tag = dice.pick(&[VERSION, CURVE, CLAIM, END]),
    }
}

/// A field dropped, doubled, moved or put in where it has no place.
fn order_fault(dice: &mut Dice, fields: &mut Vec<Field>) {
    let at = dice.index(fields.len());
    let to = dice.index(fields.len());
    match dice.below(6) {
        0 => {
            fields.remove(at);
        }
        1 => fields.insert(at, fields[at].clone()),
        2 => fields.swap(at, to),
        3 => fields.insert(to, fields[at].clone()),
        4 => fields.insert(at, Field::new(VERSION, vec![1])),
        _ => fields.insert(to, small_curve(dice).field()),
    }
}

/// A 17th curve or a 257th claim, last before the end.
fn number_fault(dice: &mut Dice, fields: &mut Vec<Field>, mut book: Book) {
    if dice.once_in(3) {
        let claim = book.claims[0];
        book.claims.resize(257, claim);
    } else {
        book.claims.clear();
        while book.curves.len() < 17 {
            book.add(small_curve(dice));
        }
    }
    *fields = book.fields();
}

fn end_fault(dice: &mut Dice, mut fields: Vec<Field>) -> Vec<u8> {
    let last = fields.len() - 1;
    match dice.below(6) {
        0 => {
            fields.pop();
        }
        1 => fields[last] = Field::new(END, vec![0]),
        2 => fields[last].length = 1,
        3 => fields.push(Field::new(END, vec![])),
        4 => fields.push(small_curve(dice).field()),
        _ => {}
    }
    let mut bytes = join(&fields);
    if dice.once_in(3) {
        let more = dice.between(1, 3) as usize;
        bytes.extend(dice.bytes(more));
    }
    bytes
}

pub fn rubbish(dice: &mut Dice) -> Vec<u8> {
    let length = dice.index(80);
    match dice.below(4) {
        0 => dice.bytes(length),
        1 => [vec![VERSION, 0, 1, 1], dice.bytes(length)].concat(),
        2 => rubbish_fields(dice),
        _ => {
            let tag = dice.pick(&[VERSION, CURVE, CLAIM, END]);
            [vec![tag, 0], dice.bytes(length)].concat()
        }
    }
}

/// Known tags and true lengths, contents at random.
fn rubbish_fields(dice: &mut Dice) -> Vec<u8> {
    let mut fields = vec![Field::new(VERSION, vec![1])];
    for _ in 0..dice.below(6) {
        let tag = dice.pick(&[CURVE, CURVE, CLAIM, CLAIM, END, VERSION]);
        let length = dice.index(24);
        let mut content = dice.bytes(length);
        for b in content.iter_mut() {
            *b &= dice.pick(&[0, 0, 1, 7]);
        }
        fields.push(Field::new(tag, content));
    }
    join(&fields)
}

/// A book followed by bytes, or one huge field, about and above 32,768 bytes.
pub fn long_book(dice: &mut Dice) -> Vec<u8> {
    let any = dice.between(32_700, 70_000) as usize;
    let length = dice.pick(&[32_767, 32_768, 32_768, 32_769, 32_769, 65_536, 70_000, any]);
    let mut fields = base(dice).fields();
    match dice.below(4) {
        0 => fields.truncate(1),
        1 => {
            fields.pop();
        }
        _ => {}
    }
    let mut bytes = join(&fields);
    if dice.once_in(2) {
        let tag = dice.pick(&[CURVE, CLAIM, END, 0]);
        let [high, low] = ((length - bytes.len() - 3) as u16).to_be_bytes();
        bytes.extend([tag, high, low]);
    }
    let more = length - bytes.len();
    bytes.extend(dice.bytes(more));
    bytes
}
