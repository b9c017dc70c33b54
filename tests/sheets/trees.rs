// Trees of nodes with their ranges, and their records in the order that document 01 asks for.

use crate::layout::{node_record, NodeRecord};
pub use crate::limits::{HIGH, LOW};

pub const KINDS: [u8; 17] = [1, 2, 3, 4, 5, 6, 7, 8, 9, 10, 16, 17, 18, 19, 20, 21, 22];
pub const CONSTANT: u8 = 16;
pub const VARIABLE: u8 = 17;
pub const MINUS: u8 = 18;
pub const SUM: u8 = 19;
pub const DIFFERENCE: u8 = 20;
pub const PRODUCT: u8 = 21;
pub const CHOICE: u8 = 22;

#[derive(Clone, Copy, PartialEq)]
pub enum Sort {
    Truth,
    Integer,
}

pub use Sort::{Integer, Truth};

/// The least and the greatest value of an integer.
pub type Range = (i64, i64);

#[derive(Clone)]
pub struct Tree {
    pub kind: u8,
    /// A constant's value (as stored) or a variable's number.
    pub leaf: u16,
    pub operands: Vec<Tree>,
    pub range: Range,
    /// Whether its last node is one to be found again in the table.
    pub marked: bool,
}

pub fn operand_sorts(kind: u8) -> &'static [Sort] {
    match kind {
        3 => &[Truth],
        4..=7 => &[Truth, Truth],
        8..=10 | SUM | DIFFERENCE | PRODUCT => &[Integer, Integer],
        MINUS => &[Integer],
        CHOICE => &[Truth, Integer, Integer],
        _ => &[],
    }
}

pub fn gives(kind: u8) -> Sort {
    if kind < CONSTANT {
        Truth
    } else {
        Integer
    }
}

pub fn fits(range: Range) -> bool {
    LOW <= range.0 && range.1 <= HIGH
}

pub fn constant(value: i64) -> Tree {
    Tree {
        kind: CONSTANT,
        leaf: value as i16 as u16,
        operands: Vec::new(),
        range: (value, value),
        marked: false,
    }
}

pub fn variable(number: usize, domain: Range) -> Tree {
    Tree { kind: VARIABLE, leaf: number as u16, operands: Vec::new(), range: domain, marked: false }
}

/// A node over operands of the right sorts, whether its range fits or not.
pub fn node(kind: u8, operands: Vec<Tree>) -> Tree {
    let range = range_of(kind, &operands);
    Tree { kind, leaf: 0, operands, range, marked: false }
}

/// A node whose operands may be of any sort: its range means nothing.
pub fn misused(kind: u8, operands: Vec<Tree>) -> Tree {
    Tree { kind, leaf: 0, operands, range: (0, 0), marked: false }
}

pub fn range_of(kind: u8, operands: &[Tree]) -> Range {
    let end = |i: usize| operands[i].range;
    match kind {
        MINUS => (-end(0).1, -end(0).0),
        SUM => (end(0).0 + end(1).0, end(0).1 + end(1).1),
        DIFFERENCE => (end(0).0 - end(1).1, end(0).1 - end(1).0),
        PRODUCT => product(end(0), end(1)),
        CHOICE => (end(1).0.min(end(2).0), end(1).1.max(end(2).1)),
        _ => (0, 0),
    }
}

/// A factor scales the other range; a negative one turns it round.
fn product(a: Range, b: Range) -> Range {
    let scaled =
        |factor: i64| if factor < 0 { (factor * b.1, factor * b.0) } else { (factor * b.0, factor * b.1) };
    let (by_least, by_greatest) = (scaled(a.0), scaled(a.1));
    (by_least.0.min(by_greatest.0), by_least.1.max(by_greatest.1))
}

impl Tree {
    pub fn sort(&self) -> Sort {
        gives(self.kind)
    }

    pub fn size(&self) -> usize {
        1 + self.operands.iter().map(Tree::size).sum::<usize>()
    }

    pub fn marked(mut self) -> Tree {
        self.marked = true;
        self
    }
}

/// Node records in order, and the numbers of the marked ones.
#[derive(Default)]
pub struct Table {
    pub records: Vec<NodeRecord>,
    pub marked: Vec<usize>,
}

impl Table {
    pub fn of(goal: &Tree) -> Table {
        let mut table = Table::default();
        table.push(goal);
        table
    }

    /// Writes a tree's nodes after those that are there, and gives the number of its last node.
    pub fn push(&mut self, tree: &Tree) -> usize {
        let operands: Vec<u16> = tree.operands.iter().map(|operand| self.push(operand) as u16).collect();
        let number = self.records.len();
        self.records.push(record(tree, &operands));
        if tree.marked {
            self.marked.push(number);
        }
        number
    }
}

fn record(tree: &Tree, operands: &[u16]) -> NodeRecord {
    let (value, fields) = match tree.kind {
        CONSTANT => (tree.leaf, Vec::new()),
        VARIABLE => (0, vec![tree.leaf]),
        _ => (0, operands.to_vec()),
    };
    node_record(tree.kind, &fields, value)
}
