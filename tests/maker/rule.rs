// What a rule says: its variables with their domains, and the goal's tree.

#[derive(Clone, Copy, PartialEq)]
pub enum Sort {
    Truth,
    Number,
}

use Sort::{Number, Truth};

/// A row of document 01's table of kinds, with the word that a rule's text has for it.
pub struct Kind {
    pub number: u8,
    pub word: &'static str,
    pub gives: Sort,
    pub takes: &'static [Sort],
}

const fn row(number: u8, word: &'static str, gives: Sort, takes: &'static [Sort]) -> Kind {
    Kind { number, word, gives, takes }
}

/// Constants and variables have no word.
pub static CONSTANT: Kind = row(16, "", Number, &[]);
pub static VARIABLE: Kind = row(17, "", Number, &[]);

pub static WORDS: [Kind; 15] = [
    row(1, "true", Truth, &[]),
    row(2, "false", Truth, &[]),
    row(3, "not", Truth, &[Truth]),
    row(4, "and", Truth, &[Truth, Truth]),
    row(5, "or", Truth, &[Truth, Truth]),
    row(6, "implies", Truth, &[Truth, Truth]),
    row(7, "iff", Truth, &[Truth, Truth]),
    row(8, "eq", Truth, &[Number, Number]),
    row(9, "lt", Truth, &[Number, Number]),
    row(10, "le", Truth, &[Number, Number]),
    row(18, "neg", Number, &[Number]),
    row(19, "add", Number, &[Number, Number]),
    row(20, "sub", Number, &[Number, Number]),
    row(21, "mul", Number, &[Number, Number]),
    row(22, "if", Number, &[Truth, Number, Number]),
];

pub struct Variable {
    pub name: String,
    pub least: i64,
    pub greatest: i64,
}

pub struct Tree {
    pub kind: &'static Kind,
    /// A constant's value or a variable's number.
    pub leaf: i64,
    pub operands: Vec<Tree>,
}

impl Tree {
    pub fn reads(&self, variable: usize) -> bool {
        let itself = self.kind.number == VARIABLE.number && self.leaf == variable as i64;
        itself || self.operands.iter().any(|operand| operand.reads(variable))
    }
}

pub struct Rule {
    pub variables: Vec<Variable>,
    pub goal: Tree,
}

pub fn kind_numbered(number: u8) -> Option<&'static Kind> {
    WORDS.iter().chain([&CONSTANT, &VARIABLE]).find(|kind| kind.number == number)
}
