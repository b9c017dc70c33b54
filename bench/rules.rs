// Rules that hold in every case, so that all cases are tried, as sheets; of them those that are as flat as can be, with
// all kinds but false.

use crate::layout::*;

pub const VARIABLES: usize = 6;
const LOWEST: i16 = -4;
const HIGHEST: i16 = 5;

/// A node's kind, a constant's value or a variable's number, and its operands.
pub struct Tree {
    kind: u8,
    leaf: i16,
    operands: Vec<Tree>,
}

pub fn node(kind: u8, operands: Vec<Tree>) -> Tree {
    Tree { kind, leaf: 0, operands }
}

pub fn constant(value: i16) -> Tree {
    Tree { kind: 16, leaf: value, operands: Vec::new() }
}

pub fn variable(number: usize) -> Tree {
    Tree { kind: 17, leaf: (number % VARIABLES) as i16, operands: Vec::new() }
}

/// A rule of 7 nodes that holds, one of eight.
fn piece(which: usize) -> Tree {
    let x = || variable(which);
    let y = || variable(which + 1 + which / VARIABLES % 4);
    let two = |kind: u8, a: Tree, b: Tree| node(kind, vec![a, b]);
    match which % 8 {
        0 => two(8, two(19, x(), y()), two(19, y(), x())),
        1 => two(8, two(21, x(), y()), two(21, y(), x())),
        2 => two(10, two(20, x(), y()), two(20, x(), constant(LOWEST))),
        3 => two(10, two(19, x(), constant(LOWEST)), two(19, x(), y())),
        4 => two(6, two(9, x(), constant(LOWEST)), two(8, x(), y())),
        5 => two(5, two(10, x(), constant(HIGHEST)), two(9, y(), x())),
        6 => two(10, node(22, vec![node(1, vec![]), x(), y()]), node(18, vec![constant(-HIGHEST)])),
        _ => two(7, two(9, x(), y()), two(9, x(), y())),
    }
}

/// A rule of 8 nodes that holds.
fn longer_piece() -> Tree {
    let sum = |other: Tree| node(19, vec![variable(0), other]);
    node(3, vec![node(9, vec![sum(variable(1)), sum(constant(LOWEST))])])
}

/// All of the pieces from one number to another.
fn all_of(from: usize, to: usize) -> Tree {
    match to - from {
        1 => piece(from),
        count => node(4, vec![all_of(from, from + count / 2), all_of(from + count / 2, to)]),
    }
}

/// A rule of this many nodes: 3, or a multiple of 8 or one less.
pub fn flat(nodes: usize) -> Tree {
    let pieces = (nodes + 1) / 8;
    match nodes % 8 {
        3 => node(10, vec![variable(0), constant(HIGHEST)]),
        0 => node(4, vec![all_of(0, pieces - 1), longer_piece()]),
        _ => all_of(0, pieces),
    }
}

/// The sheet of a rule with this many cases: 1, 2 or 5 times a power of ten, 1,000,000 at most.
pub fn sheet(rule: &Tree, mut cases: usize) -> Vec<u8> {
    let variables: Vec<VariableRecord> = (b'a'..)
        .take(VARIABLES)
        .map(|name| {
            let values = cases.min(10);
            cases /= values;
            variable_record(LOWEST.into(), i64::from(LOWEST) + values as i64 - 1, &[name])
        })
        .collect();
    let mut nodes = Vec::new();
    push(rule, &mut nodes);
    lay_out(&variables, &nodes)
}

/// Writes a tree's records, operands first, and gives the number of the last.
fn push(tree: &Tree, nodes: &mut Vec<NodeRecord>) -> u16 {
    let operands: Vec<u16> = tree.operands.iter().map(|operand| push(operand, nodes)).collect();
    nodes.push(match tree.kind {
        16 => node_record(16, &[], tree.leaf as u16),
        17 => node_record(17, &[tree.leaf as u16], 0),
        kind => node_record(kind, &operands, 0),
    });
    nodes.len() as u16 - 1
}
