// An ordinary maker of sheets from plain texts, and an ordinary printer, as one would write them in Rust: words split at
// spaces, operands by recursion. Both go by document 02, item 4; what is made is read by the ordinary reader.

use crate::layout::*;
use crate::limits::*;
use crate::reader;

/// The words, with their kinds and how many operands stand behind them.
const WORDS: [(&str, u8, usize); 15] = [
    ("true", 1, 0),
    ("false", 2, 0),
    ("not", 3, 1),
    ("and", 4, 2),
    ("or", 5, 2),
    ("implies", 6, 2),
    ("iff", 7, 2),
    ("eq", 8, 2),
    ("lt", 9, 2),
    ("le", 10, 2),
    ("neg", 18, 1),
    ("add", 19, 2),
    ("sub", 20, 2),
    ("mul", 21, 2),
    ("if", 22, 3),
];

const CONSTANT: u8 = 16;
const VARIABLE: u8 = 17;

/// The sheet of a text, where it is accepted. Of a refusal neither number nor place is told.
pub fn make(text: &str) -> Option<Vec<u8>> {
    let mut lines = text.strip_suffix('\n')?.split('\n');
    let mut names = Vec::new();
    let mut variables = Vec::new();
    let goal = loop {
        let line = lines.next()?;
        if let Some(goal) = line.strip_prefix("goal ") {
            break goal;
        }
        let mut words = line.strip_prefix("var ")?.split(' ');
        let (name, least, greatest) = (words.next()?, number(words.next()?)?, number(words.next()?)?);
        if words.next().is_some() || !is_name(name) || kind(name).is_some() {
            return None;
        }
        names.push(name);
        variables.push(variable_record(least.into(), greatest.into(), name.as_bytes()));
    };
    let (mut words, mut nodes) = (goal.split(' '), Vec::new());
    push(&mut words, &names, &mut nodes)?;
    if lines.next().is_some() || words.next().is_some() {
        return None;
    }
    if variables.len() > MOST_VARIABLES || nodes.len() > MOST_NODES {
        return None;
    }
    let sheet = laid_out(&variables, &nodes);
    reader::read(&sheet).ok()?;
    Some(sheet)
}

/// The sheet of these records; each check is a sum in 32 bits, reduced once.
fn laid_out(variables: &[VariableRecord], nodes: &[NodeRecord]) -> Vec<u8> {
    let mut sheet = vec![0; BLOCK * blocks_for(nodes.len())];
    sheet[0] = 1;
    put(&mut sheet, NODE_COUNT, nodes.len() as u16);
    sheet[VARIABLE_COUNT] = variables.len() as u8;
    for (place, record) in sheet[variable_at(0)..].chunks_exact_mut(VARIABLE_BYTES).zip(variables) {
        place.copy_from_slice(record);
    }
    let blocks = sheet[BLOCK..].chunks_exact_mut(BLOCK);
    for (block, records) in blocks.zip(nodes.chunks(NODES_IN_BLOCK)) {
        for (place, record) in block.chunks_exact_mut(NODE_BYTES).zip(records) {
            place.copy_from_slice(record);
        }
    }
    for (k, block) in sheet.chunks_exact_mut(BLOCK).enumerate() {
        let mut sum = k as u32 + 1;
        for (i, &byte) in block[..CONTENT].iter().enumerate() {
            sum += (i as u32 + 1) * u32::from(byte);
        }
        put(block, CONTENT, (sum % MODULUS) as u16);
    }
    sheet
}

fn is_name(word: &str) -> bool {
    (1..=LONGEST_NAME).contains(&word.len())
        && word.as_bytes()[0].is_ascii_alphabetic()
        && word.bytes().all(|byte| byte.is_ascii_alphanumeric() || byte == b'_')
}

fn kind(word: &str) -> Option<(u8, usize)> {
    WORDS.iter().find(|known| known.0 == word).map(|known| (known.1, known.2))
}

/// A number of 16 bits, spelled in its one way.
fn number(word: &str) -> Option<i16> {
    let digits = word.strip_prefix('-').unwrap_or(word);
    let spare = digits.starts_with('0') && word != "0";
    word.parse().ok().filter(|_| !spare && !word.starts_with('+'))
}

/// An expression's records, operands first; the number of the last.
fn push<'a>(
    words: &mut impl Iterator<Item = &'a str>,
    names: &[&str],
    nodes: &mut Vec<NodeRecord>,
) -> Option<u16> {
    let word = words.next()?;
    let record = if let Some((kind, count)) = kind(word) {
        let mut operands = [0; 3];
        for operand in &mut operands[..count] {
            *operand = push(words, names, nodes)?;
        }
        node_record(kind, &operands[..count], 0)
    } else if let Some(value) = number(word) {
        node_record(CONSTANT, &[], value as u16)
    } else {
        let variable = names.iter().position(|&name| name == word)?;
        node_record(VARIABLE, &[variable as u16], 0)
    };
    nodes.push(record);
    Some(nodes.len() as u16 - 1)
}

/// The text of an accepted sheet.
pub fn print(sheet: &[u8], text: &mut Vec<u8>) {
    for variable in 0..usize::from(sheet[VARIABLE_COUNT]) {
        let record = &sheet[variable_at(variable)..][..VARIABLE_BYTES];
        text.extend_from_slice(b"var ");
        text.extend_from_slice(name(sheet, variable));
        for end in [LEAST, GREATEST] {
            text.push(b' ');
            decimal(number_at(record, end) as i16, text);
        }
        text.push(b'\n');
    }
    text.extend_from_slice(b"goal ");
    words(sheet, node_count(sheet) - 1, text);
    text.push(b'\n');
}

fn name(sheet: &[u8], variable: usize) -> &[u8] {
    let record = &sheet[variable_at(variable)..][..VARIABLE_BYTES];
    &record[NAME..NAME + usize::from(record[LENGTH])]
}

fn decimal(value: i16, text: &mut Vec<u8>) {
    let (mut digits, mut first, mut rest) = ([0; 5], 5, value.unsigned_abs());
    while rest > 0 || first == 5 {
        first -= 1;
        digits[first] = b'0' + (rest % 10) as u8;
        rest /= 10;
    }
    if value < 0 {
        text.push(b'-');
    }
    text.extend_from_slice(&digits[first..]);
}

fn words(sheet: &[u8], node: usize, text: &mut Vec<u8>) {
    let record = &sheet[node_at(node)..][..NODE_BYTES];
    match record[0] {
        CONSTANT => decimal(number_at(record, VALUE) as i16, text),
        VARIABLE => text.extend_from_slice(name(sheet, number_at(record, FIELDS).into())),
        kind => {
            let (word, _, count) = WORDS.iter().find(|known| known.1 == kind).expect("a known kind");
            text.extend_from_slice(word.as_bytes());
            for i in 0..*count {
                text.push(b' ');
                words(sheet, number_at(record, FIELDS + 2 * i).into(), text);
            }
        }
    }
}
