// A rule's sheet: laid out from the rule, and read back where it is known to be accepted.

use crate::layout::*;
use crate::rule::{kind_numbered, Rule, Tree, Variable, CONSTANT, VARIABLE};

fn signed(sheet: &[u8], place: usize) -> i64 {
    i64::from(number_at(sheet, place) as i16)
}

/// The rule's sheet, whether a reader accepts it or not.
pub fn made(rule: &Rule) -> Vec<u8> {
    let record =
        |variable: &Variable| variable_record(variable.least, variable.greatest, variable.name.as_bytes());
    let mut nodes = Vec::new();
    put_tree(&mut nodes, &rule.goal);
    lay_out(&rule.variables.iter().map(record).collect::<Vec<_>>(), &nodes)
}

/// Puts a tree's nodes, operands first, and gives the number of its last.
fn put_tree(nodes: &mut Vec<NodeRecord>, tree: &Tree) -> u16 {
    let numbers: Vec<u16> = tree.operands.iter().map(|operand| put_tree(nodes, operand)).collect();
    nodes.push(match tree.kind.number {
        kind if kind == CONSTANT.number => node_record(kind, &[], tree.leaf as u16),
        kind if kind == VARIABLE.number => node_record(kind, &[tree.leaf as u16], 0),
        kind => node_record(kind, &numbers, 0),
    });
    nodes.len() as u16 - 1
}

/// The rule of an accepted sheet; of another it may be anything.
pub fn read_back(sheet: &[u8]) -> Rule {
    let variables =
        (0..sheet[VARIABLE_COUNT].into()).map(|number| variable(sheet, variable_at(number))).collect();
    Rule { variables, goal: tree(sheet, node_count(sheet) - 1) }
}

fn variable(sheet: &[u8], place: usize) -> Variable {
    let name = &sheet[place + NAME..][..sheet[place + LENGTH].into()];
    Variable {
        name: String::from_utf8_lossy(name).to_string(),
        least: signed(sheet, place + LEAST),
        greatest: signed(sheet, place + GREATEST),
    }
}

fn tree(sheet: &[u8], node: usize) -> Tree {
    let place = node_at(node);
    let kind = kind_numbered(sheet[place]).expect("an accepted sheet has known kinds");
    let leaf = match kind.number {
        number if number == VARIABLE.number => number_at(sheet, place + FIELDS).into(),
        _ => signed(sheet, place + VALUE),
    };
    let operand = |field: usize| tree(sheet, number_at(sheet, place + FIELDS + 2 * field).into());
    Tree { kind, leaf, operands: (0..kind.takes.len()).map(operand).collect() }
}
