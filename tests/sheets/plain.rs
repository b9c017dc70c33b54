// Plain texts as document 02, item 4, has them: the words, a rule's printed form, and rules with their text and sheet.

use crate::grower::{Grower, Variable};
use crate::trees::*;

pub const WORDS: [(u8, &str); 15] = [
    (1, "true"),
    (2, "false"),
    (3, "not"),
    (4, "and"),
    (5, "or"),
    (6, "implies"),
    (7, "iff"),
    (8, "eq"),
    (9, "lt"),
    (10, "le"),
    (MINUS, "neg"),
    (SUM, "add"),
    (DIFFERENCE, "sub"),
    (PRODUCT, "mul"),
    (CHOICE, "if"),
];

pub fn is_word(name: &[u8]) -> bool {
    WORDS.iter().any(|(_, word)| word.as_bytes() == name)
}

/// A rule, as its text and as its sheet.
pub struct Written {
    pub text: Vec<u8>,
    pub sheet: Vec<u8>,
    /// The numbers of the goal's marked nodes.
    pub marked: Vec<usize>,
}

pub fn written(grower: &Grower, goal: &Tree) -> Written {
    let table = Table::of(goal);
    let text = printed(&grower.variables, goal);
    Written { text, sheet: grower.sheet(&table), marked: table.marked }
}

/// The printed form; of a goal whose types are wrong too.
pub fn printed(variables: &[Variable], goal: &Tree) -> Vec<u8> {
    let mut text: Vec<u8> = variables.iter().flat_map(line).collect();
    text.extend(b"goal");
    put_words(&mut text, variables, goal);
    text.push(b'\n');
    text
}

fn line(variable: &Variable) -> Vec<u8> {
    let (least, greatest) = variable.domain;
    [b"var ", &variable.name[..], format!(" {} {}\n", least, greatest).as_bytes()].concat()
}

fn put_words(text: &mut Vec<u8>, variables: &[Variable], tree: &Tree) {
    text.push(b' ');
    match tree.kind {
        CONSTANT => text.extend((tree.leaf as i16).to_string().bytes()),
        VARIABLE => text.extend(&variables[usize::from(tree.leaf)].name),
        kind => text.extend(WORDS.iter().filter(|row| row.0 == kind).flat_map(|row| row.1.bytes())),
    }
    tree.operands.iter().for_each(|operand| put_words(text, variables, operand));
}
