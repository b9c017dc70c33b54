// Plain texts (document 02, item 4): which bytes are a text, and what it says. Whole texts alone are judged, line by
// line and an expression from its end; how far bytes begin a text is found by completing them and judging what comes
// out.

use crate::limits::{HIGH, LONGEST_NAME, LOW};
use std::collections::HashMap;

/// A word of the grammar: the kind it stands for, and how many operands stand behind it.
pub struct Row {
    pub word: &'static str,
    pub kind: u8,
    pub takes: usize,
}

const fn row(word: &'static str, kind: u8, takes: usize) -> Row {
    Row { word, kind, takes }
}

pub const ROWS: [Row; 15] = [
    row("true", 1, 0),
    row("false", 2, 0),
    row("not", 3, 1),
    row("and", 4, 2),
    row("or", 5, 2),
    row("implies", 6, 2),
    row("iff", 7, 2),
    row("eq", 8, 2),
    row("lt", 9, 2),
    row("le", 10, 2),
    row("neg", 18, 1),
    row("add", 19, 2),
    row("sub", 20, 2),
    row("mul", 21, 2),
    row("if", 22, 3),
];

pub fn row_of(word: &[u8]) -> Option<&'static Row> {
    ROWS.iter().find(|row| row.word.as_bytes() == word)
}

pub struct Declared<'b> {
    pub name: &'b [u8],
    pub least: i64,
    pub greatest: i64,
}

#[derive(Clone, Copy)]
pub enum Meaning {
    Word(&'static Row),
    Number(i64),
    /// Of the first variable with that name.
    Variable(usize),
}

impl Meaning {
    pub fn takes(self) -> usize {
        match self {
            Meaning::Word(row) => row.takes,
            _ => 0,
        }
    }
}

/// What a text says: its lines' variables, and the words behind 'goal'.
pub struct Text<'b> {
    pub variables: Vec<Declared<'b>>,
    pub goal: Vec<Meaning>,
}

fn lines(bytes: &[u8]) -> impl DoubleEndedIterator<Item = &[u8]> {
    bytes.split(|&byte| byte == b'\n')
}

fn words(line: &[u8]) -> impl Iterator<Item = &[u8]> {
    line.split(|&byte| byte == b' ')
}

/// The text that these bytes are, if they are one.
pub fn whole(bytes: &[u8]) -> Option<Text<'_>> {
    let mut lines = lines(bytes.strip_suffix(b"\n")?);
    let goal = lines.next_back()?.strip_prefix(b"goal ")?;
    let variables = lines.map(declared).collect::<Option<Vec<Declared>>>()?;
    let mut numbers = HashMap::new();
    for (number, variable) in variables.iter().enumerate() {
        numbers.entry(variable.name).or_insert(number);
    }
    let meaning = |word: &[u8]| {
        let variable = || numbers.get(word).map(|&number| Meaning::Variable(number));
        row_of(word).map(Meaning::Word).or_else(|| number(word).map(Meaning::Number)).or_else(variable)
    };
    let goal = words(goal).map(meaning).collect::<Option<Vec<Meaning>>>()?;
    is_expression(&goal).then_some(Text { variables, goal })
}

fn declared(line: &[u8]) -> Option<Declared<'_>> {
    match words(line).collect::<Vec<&[u8]>>()[..] {
        [b"var", name, least, greatest] if is_name(name) && row_of(name).is_none() => {
            Some(Declared { name, least: number(least)?, greatest: number(greatest)? })
        }
        _ => None,
    }
}

fn is_name(word: &[u8]) -> bool {
    let later = |byte: &u8| byte.is_ascii_alphanumeric() || *byte == b'_';
    word.first().is_some_and(u8::is_ascii_alphabetic) && word.iter().all(later) && word.len() <= LONGEST_NAME
}

/// A number is written in one way alone.
fn number(word: &[u8]) -> Option<i64> {
    let value: i64 = std::str::from_utf8(word).ok()?.parse().ok()?;
    ((LOW..=HIGH).contains(&value) && value.to_string().as_bytes() == word).then_some(value)
}

/// From the end on, each word takes its operands from the expressions behind it; one is left.
fn is_expression(goal: &[Meaning]) -> bool {
    let behind =
        goal.iter().rev().try_fold(0usize, |behind, word| Some(behind.checked_sub(word.takes())? + 1));
    behind == Some(1)
}

/// The most bytes at the front with which some text begins. Where so many begin one, so do fewer.
pub fn begun(bytes: &[u8]) -> usize {
    let (mut some, mut none) = (0, bytes.len() + 1);
    while none - some > 1 {
        let middle = some + (none - some) / 2;
        if begins(&bytes[..middle]) {
            some = middle;
        } else {
            none = middle;
        }
    }
    some
}

fn begins(bytes: &[u8]) -> bool {
    let is_text = |rest: String| whole(&[bytes, rest.as_bytes()].concat()).is_some();
    whole(bytes).is_some() || completions(bytes).into_iter().any(is_text)
}

/// What may be missing: the rest of the last word, of its line, and the lines behind it. At most one byte more makes a
/// name of a word, and a number of a minus or of nothing.
fn completions(bytes: &[u8]) -> Vec<String> {
    let line = lines(bytes).next_back().unwrap_or(&[]);
    let mut words: Vec<&[u8]> = words(line).collect();
    let last = words.pop().unwrap_or(&[]);
    let with = |rests: &[&str], behind: &str| rests.iter().map(|rest| rest.to_string() + behind).collect();
    match words[..] {
        [] => rests(last, ["var a 0 0\ngoal true\n", "goal true\n"]),
        [b"var"] => with(&["", "a"], " 0 0\ngoal true\n"),
        [b"var", _] => with(&["", "0", "1"], " 0\ngoal true\n"),
        [b"var", _, _] => with(&["", "0", "1"], "\ngoal true\n"),
        [b"goal", ref goal @ ..] => rests_of_operand(bytes, last)
            .into_iter()
            .map(|rest| rest.clone() + &operands_behind(goal, &[last, rest.as_bytes()].concat()))
            .collect(),
        _ => Vec::new(),
    }
}

/// Wherever an operand fits, a number does.
fn rests_of_operand(bytes: &[u8], last: &[u8]) -> Vec<String> {
    let names = lines(bytes).filter_map(|line| words(line).nth(1));
    let names = names.filter_map(|name| std::str::from_utf8(name).ok());
    match last {
        b"" => vec!["0".to_string()],
        b"-" => vec!["1".to_string()],
        _ => [vec![String::new()], rests(last, ROWS.iter().map(|row| row.word).chain(names))].concat(),
    }
}

/// What is missing of the texts that begin so.
fn rests<'t>(begun: &[u8], texts: impl IntoIterator<Item = &'t str>) -> Vec<String> {
    let begun = std::str::from_utf8(begun).unwrap_or("\0");
    texts.into_iter().filter_map(|text| text.strip_prefix(begun)).map(str::to_string).collect()
}

/// As many operands as are missing behind these words, and the end of the line.
fn operands_behind(goal: &[&[u8]], last: &[u8]) -> String {
    let takes = |word: &&[u8]| row_of(word).map_or(0, |row| row.takes);
    let wanted: usize = 1 + goal.iter().chain([&last]).map(takes).sum::<usize>();
    " true".repeat(wanted.saturating_sub(goal.len() + 1)) + "\n"
}
