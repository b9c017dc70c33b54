// Node records spoilt in each way (refusal 6), and operands of the wrong type (refusal 7).

use crate::grower::Grower;
use crate::layout::*;
use crate::limits::MOST_VARIABLES;
use crate::random::Random;
use crate::trees::*;
use crate::trial::{Output, Refused};

const NAMED: [(&str, usize); 4] = [("a", 2), ("b", 4), ("c", 6), ("value", 8)];
const OPERANDS: [&str; 3] = ["a", "b", "c"];

// ---- refusal 6

pub fn refusal_6(random: &mut Random, out: &mut Output) {
    for _ in 0..3 {
        unknown_kinds(random, out);
        for kind in KINDS {
            unused_fields(random, out, kind);
            zero_bytes(random, out, kind);
        }
    }
    for _ in 0..10 {
        for kind in KINDS {
            misplaced_operands(random, out, kind);
            missing_operands(random, out, kind);
        }
        wrong_variables(random, out);
        goal_subtrees(random, out);
    }
}

/// An accepted sheet with a node of this kind somewhere, and that node's number.
fn with_kind(random: &mut Random, kind: u8) -> (Vec<u8>, usize) {
    let variables = 1 + random.below(MOST_VARIABLES);
    let size = 4 + random.below(12);
    let mut grower = Grower::new(random, variables);
    let tree = grower.of_kind(kind, size).marked();
    let goal = grower.goal_with(tree);
    let table = Table::of(&goal);
    (grower.sheet(&table), table.marked[0])
}

/// Puts a sheet with a node of this kind whose record `spoil` has changed.
fn put_6(
    random: &mut Random,
    out: &mut Output,
    label: &str,
    kind: u8,
    spoil: impl FnOnce(&mut Random, &mut [u8]),
) {
    let (mut sheet, node) = with_kind(random, kind);
    let at = node_at(node);
    spoil(random, &mut sheet[at..at + NODE_BYTES]);
    seal(&mut sheet);
    out.put(random, label, &sheet, Refused(6, node));
}

fn unknown_kinds(random: &mut Random, out: &mut Output) {
    for unknown in (0..=255u8).filter(|byte| !KINDS.contains(byte)) {
        let kind = random.pick(&KINDS);
        put_6(random, out, &format!("6: unknown kind {}", unknown), kind, |_, record| record[0] = unknown);
    }
}

fn uses(kind: u8, field: &str) -> bool {
    let operands = operand_sorts(kind).len();
    match field {
        "a" => operands >= 1 || kind == VARIABLE,
        "b" => operands >= 2,
        "c" => operands >= 3,
        _ => kind == CONSTANT,
    }
}

fn unused_fields(random: &mut Random, out: &mut Output, kind: u8) {
    for (field, at) in NAMED.iter().filter(|(field, _)| !uses(kind, field)) {
        for (which, byte) in [("low", *at), ("high", at + 1)] {
            let label = format!("6: unused {} of kind {}, {} byte", field, kind, which);
            put_6(random, out, &label, kind, |random, record| record[byte] = random.nonzero());
        }
    }
}

fn zero_bytes(random: &mut Random, out: &mut Output, kind: u8) {
    for byte in [1, 10, 11, 12, 13, 14, 15] {
        let label = format!("6: byte {} of kind {}", byte, kind);
        put_6(random, out, &label, kind, |random, record| record[byte] = random.nonzero());
    }
}

/// The names of this kind's operands, with their positions.
pub fn operand_names(kind: u8) -> impl Iterator<Item = (usize, &'static str)> {
    OPERANDS.iter().copied().enumerate().take(operand_sorts(kind).len())
}

fn misplaced_operands(random: &mut Random, out: &mut Output, kind: u8) {
    for (position, name) in operand_names(kind) {
        let elsewhere = 1 + random.below(65_535) as u16;
        let ways = [("one too low", 65_535), ("one too high", 1), ("256 off", 256), ("elsewhere", elsewhere)];
        for (way, off) in ways {
            let label = format!("6: operand {} of kind {} {}", name, kind, way);
            put_6(random, out, &label, kind, |_, record| shift_field(record, FIELDS + 2 * position, off));
        }
    }
}

fn shift_field(record: &mut [u8], at: usize, off: u16) {
    let right = number_at(record, at);
    put(record, at, right.wrapping_add(off));
}

/// The order has no node for an operand where the table does not begin early enough.
fn missing_operands(random: &mut Random, out: &mut Output, kind: u8) {
    let sorts = operand_sorts(kind);
    for (missing, name) in operand_names(kind) {
        let mut grower = Grower::any(random);
        let mut table = Table::default();
        let mut numbers = Vec::new();
        for &sort in &sorts[missing + 1..] {
            let size = 1 + grower.random.below(5);
            let tree = grower.of_sort(sort, size);
            numbers.push(table.push(&tree) as u16);
        }
        let node = table.records.len();
        for _ in 0..=missing {
            let made_up = grower.random.pick(&[0, node as u16, (node as u16).wrapping_sub(1), 65_535, 7]);
            numbers.insert(0, made_up);
        }
        table.records.push(node_record(kind, &numbers, 0));
        for _ in 0..grower.random.below(5) {
            table.records.push(node_record(1, &[], 0));
        }
        let sheet = grower.sheet(&table);
        let label = format!("6: operand {} of kind {} missing", name, kind);
        out.put(random, &label, &sheet, Refused(6, node));
    }
}

fn wrong_variables(random: &mut Random, out: &mut Output) {
    let labels = ["V", "V + 1", "the most", "65,535", "256 more than a right one"];
    for label in labels {
        let (mut sheet, node) = with_kind(random, VARIABLE);
        let count = u16::from(sheet[VARIABLE_COUNT]);
        let number = match label {
            "V" => count,
            "V + 1" => count + 1,
            "the most" => MOST_VARIABLES as u16,
            "65,535" => 65_535,
            _ => 256 + random.below(count.into()) as u16,
        };
        put(&mut sheet, node_at(node) + FIELDS, number);
        seal(&mut sheet);
        out.put(random, &format!("6: variable {}", label), &sheet, Refused(6, node));
    }
    // Without variables there is no right number at all.
    let mut grower = Grower::new(random, 0);
    let goal = grower.goal_with(variable(0, (0, 0)).marked());
    let table = Table::of(&goal);
    let sheet = grower.sheet(&table);
    out.put(random, "6: variable 0 of none", &sheet, Refused(6, table.marked[0]));
}

fn goal_subtrees(random: &mut Random, out: &mut Output) {
    for (label, sort) in [("a truth value", Truth), ("an integer", Integer)] {
        let mut grower = Grower::any(random);
        let mut table = Table::default();
        for _ in 0..1 + grower.random.below(3) {
            let (other, size) = (grower.random.pick(&[Truth, Integer]), 1 + grower.random.below(30));
            let tree = grower.of_sort(other, size);
            table.push(&tree);
        }
        let size = 1 + grower.random.below(30);
        let goal = grower.of_sort(sort, size);
        let last = table.push(&goal);
        let sheet = grower.sheet(&table);
        let label = format!("6: goal subtree not the whole table, goal {}", label);
        out.put(random, &label, &sheet, Refused(6, last));
    }
}

// ---- refusal 7

pub fn refusal_7(random: &mut Random, out: &mut Output) {
    for _ in 0..40 {
        for kind in KINDS {
            wrong_operands(random, out, kind);
            if gives(kind) == Integer {
                integer_goal(random, out, kind);
            }
        }
    }
}

fn other(sort: Sort) -> Sort {
    if sort == Truth {
        Integer
    } else {
        Truth
    }
}

/// A node of this kind that has operands of the wrong type at these positions.
pub fn mistyped(grower: &mut Grower, kind: u8, wrong: impl Fn(usize) -> bool) -> Tree {
    let operands = operand_sorts(kind).iter().enumerate().map(|(position, &sort)| {
        let size = 1 + grower.random.below(8);
        grower.of_sort(if wrong(position) { other(sort) } else { sort }, size)
    });
    let operands = operands.collect();
    misused(kind, operands)
}

fn wrong_operands(random: &mut Random, out: &mut Output, kind: u8) {
    for (position, name) in operand_names(kind) {
        let label = format!("7: operand {} of kind {}", name, kind);
        put_7(random, out, &label, kind, |i| i == position);
    }
    if operand_sorts(kind).len() > 1 {
        put_7(random, out, &format!("7: every operand of kind {}", kind), kind, |_| true);
    }
}

fn put_7(random: &mut Random, out: &mut Output, label: &str, kind: u8, wrong: impl Fn(usize) -> bool) {
    let mut grower = Grower::any(random);
    let tree = mistyped(&mut grower, kind, wrong).marked();
    // Half of the time nothing stands over it, so that the faulty node is the last.
    let goal = if tree.sort() == Truth && grower.random.one_in(2) { tree } else { grower.goal_with(tree) };
    let table = Table::of(&goal);
    let sheet = grower.sheet(&table);
    out.put(random, label, &sheet, Refused(7, table.marked[0]));
}

fn integer_goal(random: &mut Random, out: &mut Output, kind: u8) {
    let (variables, size) = (1 + random.below(MOST_VARIABLES), 4 + random.below(60));
    let mut grower = Grower::new(random, variables);
    let goal = grower.of_kind(kind, size);
    let table = Table::of(&goal);
    let sheet = grower.sheet(&table);
    out.put(random, &format!("7: goal of kind {}", kind), &sheet, Refused(7, table.records.len() - 1));
}
