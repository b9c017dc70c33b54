// The sheet that a plain text says, and the text of an accepted sheet (document 02, item 4). Whether the sheet is right
// is left to the reading of sheets.

use crate::blocks;
use crate::limits::{CONTENT, MOST_NODES, MOST_VARIABLES, NODES_IN_BLOCK};
use crate::reading::{self, refuse, variable_offset, Refusal, Rule};
use crate::texts::{self, row_of, Meaning, Text, ROWS};
use crate::trees::Tree;
use crate::variables::{self, Variable};

/// The whole sheet, or why there is none.
pub fn make(bytes: &[u8]) -> Result<Vec<u8>, Refusal> {
    let Some(text) = texts::whole(bytes) else {
        return refuse(18, texts::begun(bytes));
    };
    if text.variables.len() > MOST_VARIABLES || text.goal.len() > MOST_NODES {
        return refuse(4, 0);
    }
    let sheet = sheet(&text);
    reading::read(&sheet).map(|_| sheet)
}

/// Where in the bytes a refusal by `make` points, if it points anywhere: at the byte, at a variable's name, or at a
/// node's word.
pub fn pointed_at(bytes: &[u8], refusal: Refusal) -> Option<usize> {
    let place = refusal.place as usize;
    match refusal.number {
        18 => Some(place),
        5 => Some(start_of_line(bytes, place) + "var ".len()),
        7 | 8 => {
            let text = texts::whole(bytes)?;
            let goal = start_of_line(bytes, text.variables.len());
            let blanks = bytes[goal..].iter().enumerate().filter(|(_, &byte)| byte == b' ');
            let mut starts = blanks.map(|(blank, _)| goal + blank + 1);
            starts.nth(nodes_in_order(&text.goal)[place].word)
        }
        _ => None,
    }
}

fn start_of_line(bytes: &[u8], line: usize) -> usize {
    bytes.split_inclusive(|&byte| byte == b'\n').take(line).map(<[u8]>::len).sum()
}

/// The line and the column of a byte, both from 1.
pub fn line_and_column(bytes: &[u8], place: usize) -> (usize, usize) {
    let before = &bytes[..place];
    let line = before.iter().filter(|&&byte| byte == b'\n').count();
    (line + 1, place - start_of_line(before, line) + 1)
}

/// The printed form of an accepted sheet.
pub fn text(rule: &Rule) -> Result<String, Refusal> {
    if let Some(variable) = rule.variables.iter().position(|of| row_of(of.name.as_bytes()).is_some()) {
        return refuse(19, variable);
    }
    let line = |of: &Variable| format!("var {} {} {}\n", of.name, of.least, of.greatest);
    let mut text: String = rule.variables.iter().map(line).collect();
    text.push_str("goal");
    add_words(rule, &rule.goal, &mut text);
    text.push('\n');
    Ok(text)
}

fn add_words(rule: &Rule, tree: &Tree, text: &mut String) {
    text.push(' ');
    match ROWS.iter().find(|row| row.kind == tree.kind) {
        Some(row) => text.push_str(row.word),
        None if tree.kind == 17 => text.push_str(&rule.variables[tree.leaf as usize].name),
        None => text.push_str(&tree.leaf.to_string()),
    }
    tree.operands.iter().for_each(|operand| add_words(rule, operand, text));
}

fn sheet(text: &Text) -> Vec<u8> {
    let records = records(&text.goal, &nodes_in_order(&text.goal));
    let mut first = vec![0; CONTENT];
    first[0] = 1;
    first[2..4].copy_from_slice(&(records.len() as u16).to_le_bytes());
    first[4] = text.variables.len() as u8;
    for (number, of) in text.variables.iter().enumerate() {
        let name = String::from_utf8_lossy(of.name).to_string();
        let variable = Variable { least: of.least, greatest: of.greatest, name, name_offset: 0 };
        first[variable_offset(number)..][..24].copy_from_slice(&variables::written(&variable));
    }
    let mut contents = vec![first];
    for records in records.chunks(NODES_IN_BLOCK) {
        let mut content = records.concat();
        content.resize(CONTENT, 0);
        contents.push(content);
    }
    contents.iter().zip(0..).flat_map(|(content, k)| blocks::with_check(content, k)).collect()
}

/// A node, by the number of its word, and its operands, by the numbers of theirs.
struct Node {
    word: usize,
    operands: Vec<usize>,
}

/// Operands first, as document 01 orders them.
fn nodes_in_order(goal: &[Meaning]) -> Vec<Node> {
    let mut operands: Vec<Vec<usize>> = vec![Vec::new(); goal.len()];
    let mut behind: Vec<usize> = Vec::new();
    for (word, meaning) in goal.iter().enumerate().rev() {
        // The expression right behind the word is its first operand.
        operands[word] = (0..meaning.takes()).filter_map(|_| behind.pop()).collect();
        behind.push(word);
    }
    let mut nodes = Vec::new();
    add_operands_first(&operands, 0, &mut nodes);
    nodes
}

fn add_operands_first(operands: &[Vec<usize>], word: usize, nodes: &mut Vec<Node>) {
    operands[word].iter().for_each(|&operand| add_operands_first(operands, operand, nodes));
    nodes.push(Node { word, operands: operands[word].clone() });
}

fn records(goal: &[Meaning], nodes: &[Node]) -> Vec<[u8; 16]> {
    let mut number_of = vec![0; goal.len()];
    nodes.iter().zip(0u16..).for_each(|(node, number)| number_of[node.word] = number);
    let record = |node: &Node| {
        let mut record = [0; 16];
        let (kind, leaf) = match goal[node.word] {
            Meaning::Word(row) => (row.kind, None),
            Meaning::Number(value) => (16, Some((8, value as i16 as u16))),
            Meaning::Variable(number) => (17, Some((2, number as u16))),
        };
        record[0] = kind;
        let operands = node.operands.iter().zip([2, 4, 6]).map(|(&word, at)| (at, number_of[word]));
        for (at, number) in operands.chain(leaf) {
            record[at..at + 2].copy_from_slice(&number.to_le_bytes());
        }
        record
    };
    nodes.iter().map(record).collect()
}
