//! The functions of a crate as `rt fmt` lays them out, and the text of a file with some of them changed.

use crate::list::Wrong;
use std::collections::HashMap;
use std::fs;
use std::ops::Range;
use std::path::{Path, PathBuf};

pub struct Function {
    /// As the prover names it, without its crate: `values::fill`, `Curve::new`.
    pub path: String,
    pub public: bool,
    /// It has an `ensures`. Of a function without one any safe code is right.
    pub promised: bool,
    pub file: PathBuf,
    /// Where its body stands in the file, without the braces. Contracts are not in it.
    pub body: Range<usize>,
    /// Its lines in the file, from 1 on, signature and contract among them.
    pub lines: Range<usize>,
}

/// `fn NAME` behind its visibility: whether it is public, and NAME.
fn named(line: &str) -> Option<(bool, &str)> {
    let (public, rest) = if let Some(rest) = line.strip_prefix("pub(crate) ") {
        (false, rest)
    } else if let Some(rest) = line.strip_prefix("pub ") {
        (true, rest)
    } else {
        (false, line)
    };
    let rest = rest.strip_prefix("extern \"C\" ").unwrap_or(rest).strip_prefix("fn ")?;
    Some((public, rest.split(['(', '<']).next()?))
}

/// A word with its first letter large, as the prover joins the parts of an `impl`'s name.
fn large(word: &str) -> String {
    let mut letters = word.chars();
    letters.next().map_or(String::new(), |first| first.to_uppercase().chain(letters).collect())
}

/// What the prover calls an `impl`: its type, or of a trait's `Type`, `Trait` and what stands in its brackets, in one
/// word: `TagTryFromU8`. The second says which of the two.
fn type_of(line: &str) -> Option<(String, bool)> {
    let rest = line.strip_prefix("impl")?;
    let rest = if rest.starts_with('<') { &rest[rest.find('>')? + 1..] } else { rest };
    let words = |text: &str| text.split(|c: char| !c.is_alphanumeric()).map(large).collect::<String>();
    let first = |text: &str| text.trim_start().split(|c: char| !c.is_alphanumeric()).next().map(String::from);
    match rest.split_once(" for ") {
        Some((of, ty)) => Some((first(ty)? + &words(of), true)),
        None => Some((first(rest)?, false)),
    }
}

fn module_of(file: &Path) -> String {
    match file.file_stem().and_then(|s| s.to_str()) {
        Some("lib" | "main") | None => String::new(),
        Some(stem) => format!("{stem}::"),
    }
}

/// The struct or enum that a line begins.
fn declared(line: &str) -> Option<&str> {
    let line = line.strip_prefix("pub(crate) ").or(line.strip_prefix("pub ")).unwrap_or(line);
    let rest = line.strip_prefix("struct ").or(line.strip_prefix("enum "))?;
    rest.split(|c: char| !c.is_alphanumeric()).next()
}

/// `homes` has the modules in which the crate's types are declared: the prover names a type's function there, wherever
/// its `impl` stands.
fn in_file(file: &Path, text: &str, homes: &HashMap<String, String>, found: &mut Vec<Function>) -> Result<(), String> {
    let module = module_of(file);
    let mut of_type = String::new();
    let mut of_trait = false;
    // a trait's function is promised by the ghost members above it, as `ghost from_gives = { .. }`
    let mut given = false;
    let mut at = 0;
    let mut lines = Vec::new();
    for line in text.split_inclusive('\n') {
        lines.push((at, line.trim_end_matches('\n')));
        at += line.len();
    }
    for (k, (_, line)) in lines.iter().enumerate() {
        if let Some((name, one_of_trait)) = type_of(line) {
            let home = if one_of_trait { None } else { homes.get(&name) };
            of_type = format!("{}{name}::", home.unwrap_or(&module));
            (of_trait, given) = (one_of_trait, false);
        } else if *line == "}" {
            of_type.clear();
            of_trait = false;
        }
        given |= of_trait && line.trim_start().starts_with("ghost ") && !line.trim_start().starts_with("ghost use ");
        let indent = &line[..line.len() - line.trim_start().len()];
        let Some((public, name)) = named(line.trim_start()) else { continue };
        let path = if of_type.is_empty() { format!("{module}{name}") } else { format!("{of_type}{name}") };
        let lost = || format!("{path}: no body in the layout of rt fmt");
        let alone = format!("{indent}{{");
        let opens = |&(_, l): &&(usize, &str)| *l == alone || (l.ends_with(" {") && (*l == *line || l.starts_with(&format!("{indent})"))));
        let open = k + lines[k..].iter().position(|l| opens(&l)).ok_or_else(lost)?;
        let close = open + 1 + lines[open + 1..].iter().position(|(_, l)| *l == format!("{indent}}}")).ok_or_else(lost)?;
        let public = public || of_trait;
        let promised = lines[k..=open].iter().any(|(_, l)| l.trim_start().starts_with("ensures")) || (of_trait && given);
        found.push(Function { path, public, promised, file: file.to_path_buf(), body: lines[open + 1].0..lines[close].0, lines: k + 1..close + 2 });
    }
    Ok(())
}

/// The one that has this line of the file SRC/NAME, where `place` is src/NAME.
pub fn at<'a>(functions: &'a [Function], place: &str, line: usize) -> Option<&'a Function> {
    functions.iter().find(|f| f.file.ends_with(place) && f.lines.contains(&line))
}

pub fn functions(dir: &Path) -> Result<Vec<Function>, String> {
    let said = |e: std::io::Error| format!("its source can't be read: {e}");
    let mut files = Vec::new();
    for entry in fs::read_dir(dir.join("src")).map_err(said)? {
        let file = entry.map_err(said)?.path();
        let text = fs::read_to_string(&file).map_err(said)?;
        files.push((file, text));
    }
    let mut homes = HashMap::new();
    for (file, text) in &files {
        homes.extend(text.lines().filter_map(declared).map(|name| (name.to_string(), module_of(file))));
    }
    let mut found = Vec::new();
    for (file, text) in &files {
        in_file(file, text, &homes, &mut found)?;
    }
    Ok(found)
}

/// The places of a file's text that a wrong program changes, with what comes there; or why there are none.
pub fn edits(text: &str, body: &Range<usize>, wrong: &Wrong) -> Result<Vec<(Range<usize>, String)>, String> {
    let mut made: Vec<(Range<usize>, String)> = Vec::new();
    for change in &wrong.changes {
        let mut places = text[body.clone()].match_indices(&change.old);
        let (Some((first, _)), None) = (places.next(), places.next()) else {
            let times = text[body.clone()].matches(&change.old).count();
            return Err(format!("its text stands {times} times in the function, and not once: {}", change.old));
        };
        let start = body.start + first;
        let range = start..start + change.old.len();
        if made.iter().any(|(r, _)| r.start < range.end && range.start < r.end) {
            return Err(format!("two of its texts overlap: {}", change.old));
        }
        made.push((range, change.new.clone()));
    }
    Ok(made)
}

/// The text with the edits made.
pub fn changed(text: &str, mut edits: Vec<(Range<usize>, String)>) -> String {
    edits.sort_by_key(|(range, _)| range.start);
    let mut result = String::new();
    let mut at = 0;
    for (range, new) in edits {
        result.push_str(&text[at..range.start]);
        result.push_str(&new);
        at = range.end;
    }
    result.push_str(&text[at..]);
    result
}
