//! The independent program: document 01, with what document 02 has changed in it, once more, naively,
//! beside the judge it tests.
//!
//! book.rs      the layout, read and written        law.rs       values, horizons, verdicts
//! judge.rs     the entries' answers                text.rs      the program's lines
//! make.rs      sound books                         spoil.rs     spoiled ones
//! shared.rs    periods that share divisors         seam.rs      curves at their seam
//! itself.rs    convolutions of a curve with itself tried.rs     counts of ticks tried
//! cases.rs     the cases and their form            check.rs     answers compared
//! writer.rs    the writer's answers and state      calls.rs     sequences of its calls
//! calls_check.rs   their answers compared, and every byte
//! beyond.rs    the rule against the definitions    examples.rs  the books of books/
//! bench.rs     books to measure with               header.rs    what the header for C says
//! dice.rs      the fixed generator

mod bench;
mod beyond;
mod book;
mod calls;
mod calls_check;
mod cases;
mod check;
mod dice;
mod examples;
mod header;
mod itself;
mod judge;
mod law;
mod make;
mod seam;
mod shared;
mod spoil;
mod text;
mod tried;
mod writer;

use std::env;
use std::io::{self, BufReader, BufWriter, Read, Write};
use std::path::Path;
use std::process::ExitCode;

const USAGE: &str = "\
independent cases SEED COUNT     writes cases
independent check SEED COUNT     reads their answers and compares
independent calls SEED COUNT     writes sequences of the writer's calls
independent check_calls SEED COUNT   reads their answers and compares
independent header SEED COUNT    writes calls of the header's functions
independent check_header SEED COUNT  reads what they say, and the constants, and compares
independent names                prints every name that the header may have
independent beyond SEED COUNT    tries COUNT claims of each kind far beyond the horizon
independent examples DIR         writes the example books and their lines
independent lines < BOOK         prints the lines due for a book
independent shown < BOOK         prints the lines of the header's own example for a book
independent bench NAME           writes a book to measure with: worst, splits, itself, growth_256
                                 and so on, full_sum, full_delay, largest, sum, minimum,
                                 convolution, delay, exact_delay, backlog, or exact_backlog
";

fn main() -> ExitCode {
    let words: Vec<String> = env::args().skip(1).collect();
    let words: Vec<&str> = words.iter().map(String::as_str).collect();
    let done = match words.as_slice() {
        ["cases", seed, count] => cases(seed, count),
        ["check", seed, count] => check(seed, count),
        ["calls", seed, count] => calls(seed, count),
        ["check_calls", seed, count] => check_calls(seed, count),
        ["header", seed, count] => header(seed, count),
        ["check_header", seed, count] => check_header(seed, count),
        ["names"] => names(),
        ["beyond", seed, count] => beyond(seed, count),
        ["examples", folder] => examples(folder),
        ["lines"] => lines(),
        ["shown"] => shown(),
        ["bench", name] => bench(name),
        _ => {
            eprint!("{USAGE}");
            return ExitCode::from(2);
        }
    };
    match done {
        Ok(()) => ExitCode::SUCCESS,
        Err(report) => {
            eprintln!("{report}");
            ExitCode::FAILURE
        }
    }
}

fn number(word: &str) -> Result<u64, String> {
    word.parse().map_err(|_| format!("not a number: {word}"))
}

fn failed(error: io::Error) -> String {
    error.to_string()
}

fn input() -> Result<Vec<u8>, String> {
    let mut bytes = Vec::new();
    io::stdin().read_to_end(&mut bytes).map_err(failed)?;
    Ok(bytes)
}

fn cases(seed: &str, count: &str) -> Result<(), String> {
    let (seed, count) = (number(seed)?, number(count)?);
    let mut out = BufWriter::new(io::stdout().lock());
    for index in 0..count {
        cases::write(&cases::case(seed, index), &mut out).map_err(failed)?;
    }
    out.flush().map_err(failed)
}

fn check(seed: &str, count: &str) -> Result<(), String> {
    let mut answers = BufReader::new(io::stdin().lock());
    let summary = check::check(number(seed)?, number(count)?, &mut answers)?;
    print!("{summary}");
    Ok(())
}

fn calls(seed: &str, count: &str) -> Result<(), String> {
    let (seed, count) = (number(seed)?, number(count)?);
    let mut out = BufWriter::new(io::stdout().lock());
    for index in 0..count {
        for sequence in calls::sequences(seed, index) {
            calls::write(&sequence, &mut out).map_err(failed)?;
        }
    }
    out.flush().map_err(failed)
}

fn check_calls(seed: &str, count: &str) -> Result<(), String> {
    let mut answers = BufReader::new(io::stdin().lock());
    let summary = calls_check::check(number(seed)?, number(count)?, &mut answers)?;
    print!("{summary}");
    Ok(())
}

fn header(seed: &str, count: &str) -> Result<(), String> {
    let mut out = BufWriter::new(io::stdout().lock());
    header::write(number(seed)?, number(count)?, &mut out).map_err(failed)?;
    out.flush().map_err(failed)
}

fn check_header(seed: &str, count: &str) -> Result<(), String> {
    let mut answers = BufReader::new(io::stdin().lock());
    print!(
        "{}",
        header::check(number(seed)?, number(count)?, &mut answers)?
    );
    Ok(())
}

fn names() -> Result<(), String> {
    print!("{}", header::names());
    Ok(())
}

fn beyond(seed: &str, count: &str) -> Result<(), String> {
    print!("{}", beyond::beyond(number(seed)?, number(count)?)?);
    Ok(())
}

fn examples(folder: &str) -> Result<(), String> {
    let examples = examples::examples()?;
    examples::write_examples(&examples, Path::new(folder)).map_err(failed)
}

fn lines() -> Result<(), String> {
    print!("{}", text::lines(&input()?));
    Ok(())
}

fn shown() -> Result<(), String> {
    print!("{}", text::shown(&input()?));
    Ok(())
}

fn bench(name: &str) -> Result<(), String> {
    let book = bench::bench(name).ok_or(format!("no such book: {name}"))?;
    io::stdout().write_all(&book).map_err(failed)
}
