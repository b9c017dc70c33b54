// Several faults in one sheet: the order of the refusals decides which is the answer.

use crate::grower::Grower;
use crate::layout::*;
use crate::limits::*;
use crate::nodes::mistyped;
use crate::random::Random;
use crate::trees::*;
use crate::trial::{Expected, Output, Refused};

pub fn make(random: &mut Random, out: &mut Output) {
    for _ in 0..40 {
        for (first, second) in pairs_over_the_sheet() {
            let (sheet, expected) = with_faults(random, &[first, second]);
            out.put(random, &format!("{}: and fault {}", first, second), &sheet, expected);
        }
        for (first, second) in pairs_of_nodes() {
            let (sheet, expected) = with_faults(random, &[first, second]);
            out.put(random, &format!("{}: before fault {} at a later node", first, second), &sheet, expected);
        }
        at_one_node(random, out);
        beside_the_goal(random, out);
    }
    for _ in 0..2 {
        in_each_block(random, out);
    }
    for _ in 0..2_500 {
        let mut faults: Vec<u64> = (0..2 + random.below(5)).map(|_| 1 + random.below(8) as u64).collect();
        faults.dedup();
        let (sheet, expected) = with_faults(random, &faults);
        out.put(random, "any: several faults", &sheet, expected);
    }
}

/// Faults 1 to 5 are answered by number, before any fault of a node.
fn pairs_over_the_sheet() -> Vec<(u64, u64)> {
    (1..=5).flat_map(|first| (first + 1..=8).map(move |second| (first, second))).collect()
}

/// Faults of nodes are answered by node.
fn pairs_of_nodes() -> Vec<(u64, u64)> {
    (6..=8).flat_map(|first| (6..=8).map(move |second| (first, second))).collect()
}

/// A sheet with these faults, those of nodes at rising nodes in this order, and its answer.
fn with_faults(random: &mut Random, faults: &[u64]) -> (Vec<u8>, Expected) {
    let variables = 1 + random.below(MOST_VARIABLES);
    let mut grower = Grower::new(random, variables);
    let of_nodes: Vec<u64> = faults.iter().copied().filter(|&fault| fault > 5).collect();
    let goal = goal_with_faults(&mut grower, &of_nodes);
    let mut table = Table::of(&goal);
    for (&fault, &node) in of_nodes.iter().zip(&table.marked) {
        if fault == 6 {
            spoil_record(grower.random, &mut table.records[node]);
        }
    }
    let mut sheet = grower.sheet(&table);
    let mut answer = of_nodes.first().map(|&fault| Refused(fault, table.marked[0]));
    // From the last to be looked at to the first, so that each is the answer until an earlier one comes.
    for fault in [5, 4, 3, 2, 1] {
        if faults.contains(&fault) {
            let place = spoil_sheet(random, &mut sheet, fault, variables);
            answer = Some(Refused(fault, place));
        }
        if fault == 3 {
            seal(&mut sheet);
        }
    }
    (sheet, answer.expect("there is a fault"))
}

/// A goal that has these faults at marked nodes, the first in the lowest.
fn goal_with_faults(grower: &mut Grower, faults: &[u64]) -> Tree {
    let size = 1 + grower.random.below(10);
    let mut goal = grower.truth(size);
    for &fault in faults {
        let tree = faulty(grower, fault).marked();
        // Six faults of at most 37 nodes and the first 10 stay below the most.
        let most = tree.size() + 2 + grower.random.below(10);
        let next = grower.around(tree, most);
        let kind = grower.random.pick(&[4, 5, 6, 7]);
        goal = node(kind, vec![goal, next]);
    }
    goal
}

/// A small tree with this fault at its last node (6 is made in the table).
pub fn faulty(grower: &mut Grower, fault: u64) -> Tree {
    match fault {
        7 => {
            let kind =
                grower.random.pick(&[3, 4, 5, 6, 7, 8, 9, 10, MINUS, SUM, DIFFERENCE, PRODUCT, CHOICE]);
            mistyped(grower, kind, |position| position == 0)
        }
        8 => leaving(grower),
        _ => {
            let kind = grower.random.pick(&KINDS);
            grower.of_kind(kind, 4)
        }
    }
}

fn leaving(grower: &mut Grower) -> Tree {
    let more = constant(grower.random.between(1, 300));
    match grower.random.below(4) {
        0 => node(MINUS, vec![constant(LOW)]),
        1 => node(SUM, vec![constant(HIGH), more]),
        2 => node(DIFFERENCE, vec![constant(LOW), more]),
        _ => node(PRODUCT, vec![constant(LOW), constant(-more.range.0)]),
    }
}

pub fn spoil_record(random: &mut Random, record: &mut NodeRecord) {
    match random.below(3) {
        0 => record[0] = random.pick(&[0, 11, 15, 23, 255]),
        1 => record[1] = random.nonzero(),
        _ => record[10 + random.below(6)] = random.nonzero(),
    }
}

/// Makes a fault of the whole sheet or of a variable, and gives its place.
fn spoil_sheet(random: &mut Random, sheet: &mut Vec<u8>, fault: u64, variables: usize) -> usize {
    match fault {
        1 => spoil_length(random, sheet),
        2 => {
            let k = random.below(sheet.len() / BLOCK);
            let check = check(sheet, k);
            store_check(sheet, k, check ^ (1 + random.below(65_535) as u16));
            return k;
        }
        3 => sheet[0] = random.other_byte(1),
        4 => spoil_layout(random, sheet),
        _ => {
            let variable = random.below(variables);
            let byte = random.pick(&[5, 22, 23]);
            sheet[variable_at(variable) + byte] = random.nonzero();
            return variable;
        }
    }
    0
}

fn spoil_length(random: &mut Random, sheet: &mut Vec<u8>) {
    let length = match random.below(4) {
        0 => 0,
        1 => sheet.len() - 1 - random.below(BLOCK - 1),
        2 => sheet.len() + 1 + random.below(BLOCK - 1),
        _ => MOST_BYTES + BLOCK,
    };
    sheet.resize(length, 0);
}

fn spoil_layout(random: &mut Random, sheet: &mut [u8]) {
    let over = MOST_VARIABLES + 1;
    match random.below(4) {
        0 => sheet[VARIABLE_COUNT] = (over + random.below(256 - over)) as u8,
        1 => sheet[NODE_COUNT + 1] = random.other_byte(sheet[NODE_COUNT + 1]),
        2 => sheet[5 + random.below(3)] = random.nonzero(),
        _ => sheet[BLOCK + AFTER_NODES + random.below(CONTENT - AFTER_NODES)] = random.nonzero(),
    }
}

/// A fault of a node in each node block, with nothing but right nodes in the blocks before.
fn in_each_block(random: &mut Random, out: &mut Output) {
    for block in 1..MOST_BLOCKS {
        for fault in [6, 7, 8] {
            let mut grower = Grower::any(random);
            let tree = faulty(&mut grower, fault).marked();
            // At most 27 nodes, so that they stay in the block.
            let most = tree.size() + 2;
            let mut goal = grower.around(tree, most);
            if block > 1 {
                let before = NODES_IN_BLOCK * (block - 1) + grower.random.below(4);
                goal = node(4, vec![grower.truth(before), goal]);
            }
            let (sheet, place) = sealed_with_fault(grower, Table::of(&goal), fault);
            out.put(random, &format!("{}: in block {}", fault, block), &sheet, Refused(fault, place));
        }
    }
}

/// At one node 6 comes before 7 and before 8.
fn at_one_node(random: &mut Random, out: &mut Output) {
    for second in [7, 8] {
        let mut grower = Grower::any(random);
        let tree = faulty(&mut grower, second).marked();
        let goal = grower.goal_with(tree);
        let mut table = Table::of(&goal);
        let node = table.marked[0];
        table.records[node][10 + grower.random.below(6)] = grower.random.nonzero();
        let sheet = grower.sheet(&table);
        out.put(random, &format!("6: and fault {} at the same node", second), &sheet, Refused(6, node));
    }
}

/// The rows about the goal come after all nodes, the goal's own node too.
fn beside_the_goal(random: &mut Random, out: &mut Output) {
    for fault in [7, 8] {
        let mut grower = Grower::any(random);
        let mut table = Table::default();
        let apart = grower.truth(3);
        table.push(&apart);
        let goal = faulty(&mut grower, fault);
        let last = table.push(&goal);
        let sheet = grower.sheet(&table);
        out.put(
            random,
            &format!("{}: at a goal that is not the whole table", fault),
            &sheet,
            Refused(fault, last),
        );
    }
    for fault in [6, 7, 8] {
        let (sheet, node) = fault_and_two_trees(random, fault);
        out.put(
            random,
            &format!("{}: and the goal is not the whole table", fault),
            &sheet,
            Refused(fault, node),
        );
        let (sheet, node) = fault_and_integer_goal(random, fault);
        out.put(random, &format!("{}: and the goal is an integer", fault), &sheet, Refused(fault, node));
    }
}

fn fault_and_two_trees(random: &mut Random, fault: u64) -> (Vec<u8>, usize) {
    let mut grower = Grower::any(random);
    let mut table = Table::of(&goal_with_faults(&mut grower, &[fault]));
    let goal = grower.truth(3);
    table.push(&goal);
    sealed_with_fault(grower, table, fault)
}

fn fault_and_integer_goal(random: &mut Random, fault: u64) -> (Vec<u8>, usize) {
    let mut grower = Grower::any(random);
    let condition = goal_with_faults(&mut grower, &[fault]);
    let table = Table::of(&node(CHOICE, vec![condition, constant(1), constant(0)]));
    sealed_with_fault(grower, table, fault)
}

fn sealed_with_fault(grower: Grower, mut table: Table, fault: u64) -> (Vec<u8>, usize) {
    let node = table.marked[0];
    if fault == 6 {
        spoil_record(grower.random, &mut table.records[node]);
    }
    (grower.sheet(&table), node)
}
