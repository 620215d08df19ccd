//! The books of books/ with the lines due for each. For W1 to W12, for the two zero sums
//! and for the empty input the lines are document 01's own, written out here; the judge
//! of this program has to give the same. So are those of `ranks`, `slower_ranks`,
//! `before_the_rank` and `shared_divisors`, worked out by hand, and of the refused books,
//! of which `seam` has the curve of document 02; those of `mixed` and `full` are this program's.

use crate::book::{Book, Curve, MOST_CLAIMS};
use crate::law::{horizon, value};
use crate::make::line;
use crate::text::lines;
use std::fs;
use std::io;
use std::path::Path;

pub struct Example {
    pub name: &'static str,
    pub book: Vec<u8>,
    pub text: String,
}

fn curve(t: i64, d: i64, c: i64, values: &[i64]) -> Curve {
    let values = values.to_vec();
    Curve { t, d, c, values }
}

fn a() -> Curve {
    curve(1, 1, 1, &[0, 4])
}

fn b() -> Curve {
    curve(2, 1, 2, &[0, 0, 0])
}

fn s() -> Curve {
    curve(0, 3, 2, &[2, 2, 2])
}

fn sum() -> Curve {
    curve(2, 1, 3, &[0, 4, 5])
}

fn minimum() -> Curve {
    curve(7, 1, 1, &[0, 0, 0, 2, 4, 6, 8, 10])
}

fn convolution() -> Curve {
    curve(5, 1, 1, &[0, 0, 0, 2, 4, 6])
}

fn wrong_convolution() -> Curve {
    curve(5, 1, 2, &[0, 0, 0, 2, 4, 6])
}

/// A and B, a third curve if there is one, and claims (kind, left, right, h or X).
fn book(curves: Vec<Curve>, claims: &[(u8, u8, u8, i64)]) -> Book {
    let mut book = Book {
        curves,
        claims: vec![],
    };
    for (kind, left, right, third) in claims {
        book.claim(*kind, *left, *right, *third);
    }
    book
}

/// One claim line, with the total and the certificate that follow from it.
fn single(claim: &str, accepted: u8, refuted: u8, unjudged: u8) -> String {
    let certified = if accepted == 1 { "yes" } else { "no" };
    format!(
        "claim 0 {claim}\n\
         total 1 accepted {accepted} refuted {refuted} unjudged {unjudged}\n\
         certified {certified}\n"
    )
}

fn accepted() -> String {
    single("accepted", 1, 0, 0)
}

fn refuted(how: &str) -> String {
    single(&format!("refuted {how}"), 0, 1, 0)
}

/// W1 to W12 with the lines that document 01 states.
fn stated() -> Vec<(&'static str, Book, String)> {
    let ab = || vec![a(), b()];
    let abh = |h| vec![a(), b(), h];
    let w1 = "total 0 accepted 0 refuted 0 unjudged 0\ncertified no\n";
    let w11 = "claim 0 refuted at 2 left 5 right 4\nclaim 1 accepted\n\
               total 2 accepted 1 refuted 1 unjudged 0\ncertified no\n";
    let s_conv_s = |h| book(vec![s(), h], &[(3, 0, 0, 1)]);
    vec![
        ("w1", book(ab(), &[]), w1.into()),
        ("w2", book(abh(sum()), &[(1, 0, 1, 2)]), accepted()),
        ("w3", book(abh(minimum()), &[(2, 0, 1, 2)]), accepted()),
        ("w4", book(abh(convolution()), &[(3, 0, 1, 2)]), accepted()),
        (
            "w5",
            book(abh(wrong_convolution()), &[(3, 0, 1, 2)]),
            refuted("at 6 left 7 right 8"),
        ),
        ("w6", s_conv_s(curve(2, 3, 2, &[4; 5])), accepted()),
        (
            "w7",
            s_conv_s(curve(0, 3, 2, &[4; 3])),
            refuted("at 3 left 4 right 6"),
        ),
        ("w8", book(ab(), &[(5, 0, 1, 3)]), accepted()),
        (
            "w9",
            book(ab(), &[(4, 0, 1, 2)]),
            refuted("at 1 left 4 right 2"),
        ),
        ("w10", book(ab(), &[(5, 0, 1, 4)]), refuted("not least")),
        ("w11", book(ab(), &[(6, 0, 1, 4), (7, 0, 1, 5)]), w11.into()),
        ("w12", book(ab(), &[(4, 1, 0, 0)]), refuted("by rate")),
    ]
}

/// Zero with periods 61 and 67, claimed zero with period 1 and this rank.
fn zero_sum(rank: i64) -> Book {
    let curves = vec![line(0, 61, 0, 0), line(0, 67, 0, 0), line(rank, 1, 0, 0)];
    book(curves, &[(1, 0, 1, 2)])
}

/// Both ranks are 9 and D is 4,087: the horizon is 4,096 with the greater of the ranks, and above
/// the limit with their sum.
fn ranks() -> Book {
    let curves = vec![line(9, 61, 0, 0), line(9, 67, 0, 0), line(0, 1, 0, 0)];
    book(curves, &[(1, 0, 1, 2), (2, 0, 1, 2)])
}

/// The same where one curve is slower, on either side: the minimum of zero and a faster line goes
/// by the greater rank, their convolution by T+T'+D, here 20+34+43*47 with a P of 43*47.
fn slower_ranks() -> Book {
    let curves = vec![
        line(9, 61, 0, 0),
        line(9, 67, 1, 0),
        line(20, 43, 0, 0),
        line(34, 47, 1, 0),
        line(0, 1, 0, 0),
    ];
    let claims = [(2, 0, 1, 4), (2, 1, 0, 4), (3, 2, 3, 4), (3, 3, 2, 4)];
    book(curves, &claims)
}

/// f is 12,276 times n/3 rounded down, with rank 2, and g is 4,093*n. A is 0, the least over
/// 0 <= t < T is -4,093 and c'*d - c*d' is 3: N is 4,093 and the horizon 4,096. With f(T) in the
/// least it would be -8,186, and N 8,186.
fn before_the_rank() -> Book {
    let f = curve(2, 3, 12_276, &[0, 0, 0, 12_276, 12_276]);
    let curves = vec![f, line(0, 1, 4_093, 0), line(0, 1, 0, 0)];
    book(curves, &[(3, 0, 1, 2)])
}

/// A flat 10 on the vendor's curve of document 02, which reads 0, 10, 1, 11 and so falls at its seam.
/// By kind 5 alone 19 would be the exact delay, as g(18) = 9 and no later value is below 10; but no
/// tick waits longer than 1.
fn seam() -> Book {
    let curves = vec![line(0, 1, 0, 10), curve(0, 2, 1, &[0, 10])];
    book(curves, &[(5, 0, 1, 19)])
}

const ACCEPTED: &str = "accepted";
const NOT_JUDGED: &str = "not judged";
const AT_1: &str = "refuted at 1 left 1 right 0";

/// A claim, its horizon and its verdict.
type Row = ((u8, u8, u8, i64), i64, &'static str);

/// Periods 64 and 128 have D = 128, 124 and 128 have D = 3,968. With h's period, P is 128 for 1,
/// 3,968 for 62 and 3,712 for 58. The ranks of f and g are 0, or 128 on both sides, or 128 and 129;
/// h's is below R.
fn shared_divisors() -> (Book, Vec<Row>) {
    let curves = vec![
        line(0, 64, 0, 0),
        line(0, 128, 1, 0),
        line(0, 1, 0, 0),
        line(0, 1, 1, 0),
        line(128, 128, 0, 0),
        line(128, 64, 0, 0),
        line(129, 64, 0, 0),
        line(128, 64, 1, 0),
        line(129, 64, 1, 0),
        line(100, 62, 0, 0),
        line(100, 62, 1, 0),
        line(190, 58, 0, 0),
        line(128, 124, 0, 0),
        line(129, 124, 0, 0),
        line(128, 124, 1, 0),
        line(129, 124, 1, 0),
    ];
    let mut rows = vec![
        // The product of the periods, 8,192, would be above the limit by itself.
        ((3, 0, 1, 2), 256, ACCEPTED),
        ((3, 1, 0, 2), 256, ACCEPTED),
        ((2, 0, 1, 2), 128, ACCEPTED),
        ((2, 1, 0, 2), 128, ACCEPTED),
        ((1, 0, 1, 3), 128, ACCEPTED),
        // The sum, with equal rates and with the right one faster and slower: max(T,T')+P.
        ((1, 4, 5, 9), 4_096, ACCEPTED),
        ((1, 4, 6, 9), 4_097, NOT_JUDGED),
        ((1, 4, 7, 10), 4_096, ACCEPTED),
        ((1, 4, 8, 10), 4_097, NOT_JUDGED),
        ((1, 7, 4, 10), 4_096, ACCEPTED),
        ((1, 8, 4, 10), 4_097, NOT_JUDGED),
        // The minimum, in the same order.
        ((2, 4, 5, 9), 4_096, ACCEPTED),
        ((2, 4, 6, 9), 4_097, NOT_JUDGED),
        ((2, 4, 7, 9), 4_096, ACCEPTED),
        ((2, 4, 8, 9), 4_097, NOT_JUDGED),
        ((2, 7, 4, 9), 4_096, ACCEPTED),
        ((2, 8, 4, 9), 4_097, NOT_JUDGED),
        // The convolution: T+T'+D+P; N is T+T'-1.
        ((3, 4, 5, 11), 4_096, ACCEPTED),
        ((3, 4, 6, 11), 4_097, NOT_JUDGED),
        ((3, 4, 7, 11), 4_096, ACCEPTED),
        ((3, 4, 8, 11), 4_097, NOT_JUDGED),
        ((3, 7, 4, 11), 4_096, ACCEPTED),
        ((3, 8, 4, 11), 4_097, NOT_JUDGED),
    ];
    // Kinds 4 to 7: max(T,T')+D.
    for kind in 4..=7 {
        rows.extend([
            ((kind, 0, 1, 0), 128, ACCEPTED),
            ((kind, 4, 12, 0), 4_096, ACCEPTED),
            ((kind, 4, 13, 0), 4_097, NOT_JUDGED),
            ((kind, 4, 14, 0), 4_096, ACCEPTED),
            ((kind, 4, 15, 0), 4_097, NOT_JUDGED),
            ((kind, 14, 4, 0), 4_096, AT_1),
            ((kind, 15, 4, 0), 4_097, NOT_JUDGED),
        ]);
    }
    let claims: Vec<_> = rows.iter().map(|(claim, ..)| *claim).collect();
    (book(curves, &claims), rows)
}

/// The lines of the rows.
fn rows_text(rows: &[Row]) -> String {
    let mut text = String::new();
    for (k, (.., verdict)) in rows.iter().enumerate() {
        text += &format!("claim {k} {verdict}\n");
    }
    let count = |wanted| rows.iter().filter(|(.., v)| *v == wanted).count();
    let (all, accepted, unjudged) = (rows.len(), count(ACCEPTED), count(NOT_JUDGED));
    let refuted = all - accepted - unjudged;
    text += &format!("total {all} accepted {accepted} refuted {refuted} unjudged {unjudged}\n");
    text + "certified no\n"
}

/// Every code that each kind can have. Curve 6 with curve 7 has a horizon of 4,097.
fn mixed() -> Book {
    let curves = vec![
        a(),
        b(),
        sum(),
        minimum(),
        convolution(),
        wrong_convolution(),
        line(10, 61, 0, 0),
        line(0, 67, 0, 0),
    ];
    let mut claims = vec![];
    for (kind, h) in [(1, 2), (2, 3), (3, 4)] {
        claims.extend([(kind, 0, 1, h), (kind, 0, 1, 5), (kind, 6, 7, 6)]);
    }
    for (kind, least) in [(4, 3), (5, 3), (6, 5), (7, 5)] {
        claims.extend([(kind, 0, 1, least), (kind, 0, 1, least - 1)]);
        claims.push((kind, 1, 0, 0));
        claims.push((kind, 0, 1, least + 1));
        claims.push((kind, 6, 7, 0));
    }
    book(curves, &claims)
}

/// 256 claims: backlog bounds 0 to 255 of A on B; those below 5 are refuted.
fn full() -> Book {
    let claims: Vec<_> = (0..MOST_CLAIMS as i64).map(|x| (6, 0, 1, x)).collect();
    book(vec![a(), b()], &claims)
}

const W8: [u8; 59] = [
    0x10, 0, 1, 1, // version
    0x01, 0, 0x10, 0, 1, 0, 1, 0, 0, 0, 1, 0, 0, 0, 0, 0, 0, 0, 4, // A
    0x01, 0, 0x14, 0, 2, 0, 1, 0, 0, 0, 2, 0, 0, 0, 0, 0, 0, 0, 0, 0, 0, 0, 0, // B
    0x02, 0, 7, 5, 0, 1, 0, 0, 0, 3, // exact delay 3
    0x7F, 0, 0, // end
];

/// All examples; an error names what document 01 states and this program does not give.
pub fn examples() -> Result<Vec<Example>, String> {
    let mut all = Vec::new();
    for (name, book, text) in stated() {
        all.push((name, book.bytes(), text));
    }
    let unjudged = single("not judged", 0, 0, 1);
    all.push(("zero_rank_9", zero_sum(9).bytes(), accepted()));
    all.push(("zero_rank_10", zero_sum(10).bytes(), unjudged));
    let both = "claim 0 accepted\nclaim 1 accepted\n\
                total 2 accepted 2 refuted 0 unjudged 0\ncertified yes\n";
    all.push(("ranks", ranks().bytes(), both.into()));
    let four = "claim 0 accepted\nclaim 1 accepted\nclaim 2 accepted\nclaim 3 accepted\n\
                total 4 accepted 4 refuted 0 unjudged 0\ncertified yes\n";
    all.push(("slower_ranks", slower_ranks().bytes(), four.into()));
    let at_3 = refuted("at 3 left 4093 right 0");
    all.push(("before_the_rank", before_the_rank().bytes(), at_3));
    let (shared, rows) = shared_divisors();
    all.push(("shared_divisors", shared.bytes(), rows_text(&rows)));
    all.push(("empty", vec![], "refused 1 at 0\n".into()));
    // The claim of W8 stands at byte 46: 4 of the version, 19 of A and 23 of B before it.
    all.push(("torn", W8[..50].to_vec(), "refused 1 at 46\n".into()));
    let falls = book(vec![a(), curve(1, 1, 1, &[4, 0])], &[]);
    all.push(("falls", falls.bytes(), "refused 9 at 23\n".into()));
    // The vendor's curve stands at byte 19: 4 of the version and 15 of the flat one before it.
    all.push(("seam", seam().bytes(), "refused 9 at 19\n".into()));
    all.push(("long", vec![0x10; 32_769], "refused 15 at 0\n".into()));
    for (name, book) in [("mixed", mixed()), ("full", full())] {
        let bytes = book.bytes();
        let text = lines(&bytes);
        all.push((name, bytes, text));
    }
    stated_facts()?;
    all.into_iter().map(agreed).collect()
}

fn agreed((name, book, text): (&'static str, Vec<u8>, String)) -> Result<Example, String> {
    let got = lines(&book);
    if got != text {
        return Err(format!(
            "{name}: document 01 has\n{text}and judged was\n{got}"
        ));
    }
    Ok(Example { name, book, text })
}

/// What the table states besides the verdicts: values, horizons, and W8's bytes.
fn stated_facts() -> Result<(), String> {
    let stated = stated();
    let of = |k: usize| {
        let book = &stated[k - 1].1;
        horizon(book, &book.claims[0])
    };
    let facts = [
        ("A(5) = 8", value(&a(), 5) == 8),
        ("B(5) = 6", value(&b(), 5) == 6),
        ("W3's horizon is 8", of(3) == 8),
        ("W4's horizon is 6", of(4) == 6),
        ("W6's horizon is 6", of(6) == 6),
        ("W8 in full", stated[7].1.bytes() == W8),
        ("the horizons of shared_divisors", horizons_are_stated()),
        ("the horizon of before_the_rank is 4,096", {
            let book = before_the_rank();
            horizon(&book, &book.claims[0]) == 4_096
        }),
    ];
    match facts.iter().find(|(_, holds)| !holds) {
        Some((fact, _)) => Err(format!("not so: {fact}")),
        None => Ok(()),
    }
}

fn horizons_are_stated() -> bool {
    let (book, rows) = shared_divisors();
    let mut both = book.claims.iter().zip(&rows);
    both.all(|(claim, (_, stated, _))| horizon(&book, claim) == *stated)
}

pub fn write_examples(examples: &[Example], folder: &Path) -> io::Result<()> {
    fs::create_dir_all(folder)?;
    for example in examples {
        let path = folder.join(example.name);
        fs::write(path.with_extension("book"), &example.book)?;
        fs::write(path.with_extension("txt"), &example.text)?;
    }
    Ok(())
}
