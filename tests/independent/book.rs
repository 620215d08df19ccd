//! Document 01, "The book" and "Refusal numbers": the layout, read and written. With document 02's
//! request A2 a curve may not fall at the seam either.
//!
//! Curve, Claim, Book   what a sound book holds, with document 01's letters
//! Refusal              number, place, and which of the number's reasons it was
//! REASONS              every reason a reader can give, with its number
//! read                 a book from its bytes, or its refusal
//! Field                tag, length and content; the length may lie, for spoiled books
//! fields, join         a book as its fields; fields as bytes

pub const MOST_BYTES: usize = 32_768;
pub const MOST_CURVES: usize = 16;
pub const MOST_CLAIMS: usize = 256;
pub const MOST_LISTED: i64 = 256;
pub const MOST_UNITS: i64 = 1_000_000;
pub const MOST_X: i64 = 1_000_000_000;

pub const VERSION: u8 = 0x10;
pub const CURVE: u8 = 0x01;
pub const CLAIM: u8 = 0x02;
pub const END: u8 = 0x7F;

/// Rank `t` (T), period `d`, increment `c`, and the listed values f(0) to f(T+d-1).
#[derive(Clone, Debug, PartialEq, Eq)]
pub struct Curve {
    pub t: i64,
    pub d: i64,
    pub c: i64,
    pub values: Vec<i64>,
}

/// `third` is the number of h for kinds 1 to 3 and X for kinds 4 to 7.
#[derive(Clone, Copy, Debug, PartialEq, Eq)]
pub struct Claim {
    pub kind: u8,
    pub left: u8,
    pub right: u8,
    pub third: i64,
}

#[derive(Clone, Debug, Default, PartialEq, Eq)]
pub struct Book {
    pub curves: Vec<Curve>,
    pub claims: Vec<Claim>,
}

#[derive(Clone, Copy, Debug, PartialEq, Eq)]
pub struct Refusal {
    pub number: u8,
    pub place: usize,
    pub why: &'static str,
}

/// A refusal number with its reason; the place is known one level up.
type Fault = (u8, &'static str);

const FEW: Fault = (1, "fewer than 3 bytes are left");
const PAST: Fault = (1, "content runs past the book");
const TAG: Fault = (2, "unknown tag");
const EARLY: Fault = (3, "a field before the version");
const AGAIN: Fault = (3, "a second version");
const LATE: Fault = (3, "a curve after a claim");
const CURVES: Fault = (4, "a 17th curve");
const CLAIMS: Fault = (4, "a 257th claim");
const VERSION_LENGTH: Fault = (5, "the version's length");
const VERSION_NUMBER: Fault = (5, "the version's number");
const CURVE_SHORT: Fault = (6, "a curve under 8 bytes");
const NO_PERIOD: Fault = (7, "d = 0");
const LONG_LIST: Fault = (7, "T+d > 256");
const CURVE_LENGTH: Fault = (6, "a curve's length isn't 8+4*(T+d)");
const BIG_C: Fault = (8, "c over 1,000,000");
const BIG_VALUE: Fault = (8, "a value over 1,000,000");
const FALLS: Fault = (9, "values fall");
pub const SEAM: Fault = (9, "the curve falls at the seam");
const EMPTY: Fault = (10, "an empty claim");
const KIND: Fault = (10, "unknown kind");
const CLAIM_LENGTH: Fault = (10, "a claim's length");
const LEFT: Fault = (11, "left names no curve");
const RIGHT: Fault = (11, "right names no curve");
const RESULT: Fault = (11, "h names no curve");
const BIG_X: Fault = (12, "X too large");
const END_LENGTH: Fault = (13, "the end's length");
const FOLLOWS: Fault = (13, "a byte follows the end");
pub const ROOM: Fault = (14, "the buffer has too little room");
const BYTES: Fault = (15, "over 32,768 bytes");

pub const REASONS: [Fault; 29] = [
    FEW,
    PAST,
    TAG,
    EARLY,
    AGAIN,
    LATE,
    CURVES,
    CLAIMS,
    VERSION_LENGTH,
    VERSION_NUMBER,
    CURVE_SHORT,
    CURVE_LENGTH,
    NO_PERIOD,
    LONG_LIST,
    BIG_C,
    BIG_VALUE,
    FALLS,
    SEAM,
    EMPTY,
    KIND,
    CLAIM_LENGTH,
    LEFT,
    RIGHT,
    RESULT,
    BIG_X,
    END_LENGTH,
    FOLLOWS,
    ROOM,
    BYTES,
];

/// Where in "version, curves, claims, end" the last taken field stands.
#[derive(Clone, Copy, PartialEq, Eq, PartialOrd)]
enum Part {
    Nothing,
    Version,
    Curves,
    Claims,
    End,
}

/// First 15, then field by field. Refusal 14 needs the lent buffer and is not given here.
pub fn read(bytes: &[u8]) -> Result<Book, Refusal> {
    let at = |place| move |(number, why): Fault| Refusal { number, place, why };
    if bytes.len() > MOST_BYTES {
        return Err(at(0)(BYTES));
    }
    let mut book = Book::default();
    let mut seen = Part::Nothing;
    let mut place = 0;
    while seen != Part::End {
        let (part, used) = field(&bytes[place..], seen, &mut book).map_err(at(place))?;
        seen = part;
        place += used;
    }
    Ok(book)
}

/// The field at the start of `rest`: its part of the book and its bytes in all.
fn field(rest: &[u8], seen: Part, book: &mut Book) -> Result<(Part, usize), Fault> {
    let [tag, high, low, after @ ..] = rest else {
        return Err(FEW);
    };
    let part = part_of(*tag)?;
    in_order(seen, part)?;
    if part == Part::Curves && book.curves.len() == MOST_CURVES {
        return Err(CURVES);
    }
    if part == Part::Claims && book.claims.len() == MOST_CLAIMS {
        return Err(CLAIMS);
    }
    let length = number(&[*high, *low]) as usize;
    let content = after.get(..length).ok_or(PAST)?;
    match part {
        Part::Version => version(content)?,
        Part::Curves => book.curves.push(curve(content)?),
        Part::Claims => book.claims.push(claim(content, book.curves.len())?),
        _ => end(content, &after[length..])?,
    }
    Ok((part, 3 + length))
}

fn part_of(tag: u8) -> Result<Part, Fault> {
    match tag {
        VERSION => Ok(Part::Version),
        CURVE => Ok(Part::Curves),
        CLAIM => Ok(Part::Claims),
        END => Ok(Part::End),
        _ => Err(TAG),
    }
}

fn in_order(seen: Part, part: Part) -> Result<(), Fault> {
    match (seen, part) {
        (Part::Nothing, Part::Version) => Ok(()),
        (Part::Nothing, _) => Err(EARLY),
        (_, Part::Version) => Err(AGAIN),
        (Part::Claims, Part::Curves) => Err(LATE),
        _ => Ok(()),
    }
}

fn version(content: &[u8]) -> Result<(), Fault> {
    match content {
        [1] => Ok(()),
        [_] => Err(VERSION_NUMBER),
        _ => Err(VERSION_LENGTH),
    }
}

fn curve(content: &[u8]) -> Result<Curve, Fault> {
    if content.len() < 8 {
        return Err(CURVE_SHORT);
    }
    let t = number(&content[0..2]);
    let d = number(&content[2..4]);
    let c = number(&content[4..8]);
    if d == 0 {
        return Err(NO_PERIOD);
    }
    if t + d > MOST_LISTED {
        return Err(LONG_LIST);
    }
    if content.len() as i64 != 8 + 4 * (t + d) {
        return Err(CURVE_LENGTH);
    }
    let values: Vec<i64> = content[8..].chunks(4).map(number).collect();
    if c > MOST_UNITS {
        return Err(BIG_C);
    }
    if values.iter().any(|v| *v > MOST_UNITS) {
        return Err(BIG_VALUE);
    }
    if values.windows(2).any(|w| w[1] < w[0]) {
        return Err(FALLS);
    }
    // f(T+d), the first value of the next period, is f(T)+c.
    if values[t as usize] + c < values[(t + d - 1) as usize] {
        return Err(SEAM);
    }
    Ok(Curve { t, d, c, values })
}

fn claim(content: &[u8], curves: usize) -> Result<Claim, Fault> {
    let kind = *content.first().ok_or(EMPTY)?;
    let due = match kind {
        1..=3 => 4,
        4..=7 => 7,
        _ => return Err(KIND),
    };
    if content.len() != due {
        return Err(CLAIM_LENGTH);
    }
    let (left, right) = (content[1], content[2]);
    let third = number(&content[3..]);
    if left as usize >= curves {
        return Err(LEFT);
    }
    if right as usize >= curves {
        return Err(RIGHT);
    }
    if kind <= 3 && third >= curves as i64 {
        return Err(RESULT);
    }
    if kind >= 4 && third > MOST_X {
        return Err(BIG_X);
    }
    Ok(Claim {
        kind,
        left,
        right,
        third,
    })
}

fn end(content: &[u8], follows: &[u8]) -> Result<(), Fault> {
    if !content.is_empty() {
        return Err(END_LENGTH);
    }
    if !follows.is_empty() {
        return Err(FOLLOWS);
    }
    Ok(())
}

/// High byte first.
pub fn number(bytes: &[u8]) -> i64 {
    bytes.iter().fold(0, |n, b| n * 256 + i64::from(*b))
}

#[derive(Clone, Debug)]
pub struct Field {
    pub tag: u8,
    pub length: u16,
    pub content: Vec<u8>,
}

impl Field {
    pub fn new(tag: u8, content: Vec<u8>) -> Field {
        Field {
            tag,
            length: content.len() as u16,
            content,
        }
    }

    /// Makes the length true again after a change of the content.
    pub fn settle(&mut self) {
        self.length = self.content.len() as u16;
    }
}

impl Curve {
    pub fn field(&self) -> Field {
        let mut content = Vec::new();
        content.extend((self.t as u16).to_be_bytes());
        content.extend((self.d as u16).to_be_bytes());
        content.extend((self.c as u32).to_be_bytes());
        for v in &self.values {
            content.extend((*v as u32).to_be_bytes());
        }
        Field::new(CURVE, content)
    }
}

impl Claim {
    pub fn field(&self) -> Field {
        let mut content = vec![self.kind, self.left, self.right];
        match self.kind {
            1..=3 => content.push(self.third as u8),
            _ => content.extend((self.third as u32).to_be_bytes()),
        }
        Field::new(CLAIM, content)
    }
}

impl Book {
    pub fn fields(&self) -> Vec<Field> {
        let mut fields = vec![Field::new(VERSION, vec![1])];
        fields.extend(self.curves.iter().map(Curve::field));
        fields.extend(self.claims.iter().map(Claim::field));
        fields.push(Field::new(END, vec![]));
        fields
    }

    pub fn bytes(&self) -> Vec<u8> {
        join(&self.fields())
    }

    /// Adds a curve and gives its number.
    pub fn add(&mut self, curve: Curve) -> u8 {
        self.curves.push(curve);
        (self.curves.len() - 1) as u8
    }

    pub fn claim(&mut self, kind: u8, left: u8, right: u8, third: i64) {
        self.claims.push(Claim {
            kind,
            left,
            right,
            third,
        });
    }
}

pub fn join(fields: &[Field]) -> Vec<u8> {
    let mut bytes = Vec::new();
    for f in fields {
        bytes.push(f.tag);
        bytes.extend(f.length.to_be_bytes());
        bytes.extend(&f.content);
    }
    bytes
}
