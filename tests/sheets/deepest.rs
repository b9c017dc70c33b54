// The sheets whose trees are as deep as a sheet's can be: chains of as many nodes as there are, of each kind and
// through each of its operands, down to each leaf, and a chain of all these by turns. They take the most stack.

use crate::layout::{lay_out, variable_record, VariableRecord};
use crate::limits::{MOST_NODES, MOST_VARIABLES};
use crate::shapes::{linked, links, Link};
use crate::trees::*;
use std::fs;
use std::io;

const LAST: usize = MOST_VARIABLES - 1;

/// Writes each to a file of its own, named by the kind, the operand and the leaf's kind.
pub fn write(folder: &str) -> io::Result<()> {
    for (kind, operand) in links() {
        for leaf in leaves(operand_sorts(kind)[operand]) {
            let name = format!("{}/{}-{}-{}", folder, kind, operand, leaf.kind);
            fs::write(name, sheet(&goal(leaf, &[(kind, operand)])))?;
        }
    }
    fs::write(format!("{}/by-turns", folder), sheet(&goal(constant(0), &links())))
}

/// So small that no range of a chain leaves 16 bits.
fn domain(number: usize) -> Range {
    (0, (number == LAST).into())
}

fn leaves(sort: Sort) -> [Tree; 2] {
    match sort {
        Truth => [node(1, Vec::new()), node(2, Vec::new())],
        Integer => [constant(0), variable(LAST, domain(LAST))],
    }
}

/// The chain over a leaf, these links by turns.
fn goal(leaf: Tree, links: &[Link]) -> Tree {
    linked(leaf, links.iter().copied().cycle(), MOST_NODES, |sort| leaves(sort)[0].clone())
}

/// With all variables, and two cases.
fn sheet(goal: &Tree) -> Vec<u8> {
    let record = |number: usize| {
        let (least, greatest) = domain(number);
        variable_record(least, greatest, format!("v{}", number).as_bytes())
    };
    let variables: Vec<VariableRecord> = (0..MOST_VARIABLES).map(record).collect();
    lay_out(&variables, &Table::of(goal).records)
}
