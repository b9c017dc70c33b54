// Refusals 6, 7 and 8 at the nodes where a number that is cut to a byte, or a sheet's last node, would show: at exact
// places, at operands that are right but for their second byte, and at goals of exactly so many nodes.

use crate::at_once::{faulty, spoil_record};
use crate::grower::Grower;
use crate::layout::*;
use crate::limits::*;
use crate::nodes::operand_names;
use crate::random::Random;
use crate::trees::*;
use crate::trial::{Output, Refused};

/// Nodes about the most that fit eight blocks, the edges of a byte, and the last ones.
const PLACES: [usize; 22] = [
    247,
    248,
    249,
    252,
    254,
    255,
    256,
    257,
    258,
    511,
    512,
    513,
    768,
    1_023,
    1_024,
    1_025,
    1_280,
    1_536,
    1_792,
    MOST_NODES - 3,
    MOST_NODES - 2,
    MOST_NODES - 1,
];

pub fn make(random: &mut Random, out: &mut Output) {
    for _ in 0..2 {
        for place in PLACES {
            for fault in [6, 7, 8] {
                at_place(random, out, fault, place);
            }
            goals(random, out, place + 1);
        }
    }
    for kind in KINDS {
        for (position, name) in operand_names(kind) {
            for way in ["cut off", "one too high", "one too low"] {
                let label = format!("6: second byte of operand {} of kind {} {}", name, kind, way);
                second_byte(random, out, &label, kind, position, way);
            }
        }
    }
    for before in [256, 512, 1_024, 1_792] {
        goal_from(random, out, before);
    }
}

// ---- a fault at one node

/// With right nodes before it and, where there is room, after it.
fn at_place(random: &mut Random, out: &mut Output, fault: u64, place: usize) {
    let mut grower = Grower::any(random);
    let tree = faulty(&mut grower, fault).marked();
    let before = grower.of_sort(tree.sort(), place + 1 - tree.size());
    let mut table = if place + 1 < MOST_NODES {
        let kind = grower.random.pick(if tree.sort() == Truth { &[4, 5, 6, 7][..] } else { &[8, 9, 10] });
        Table::of(&under_more(&mut grower, node(kind, vec![before, tree]), place + 2))
    } else {
        // Nothing can join the two, but a fault of a node comes before one of the goal.
        let mut table = Table::of(&before);
        table.push(&tree);
        table
    };
    assert!(table.marked == [place], "the fault is at node {}", place);
    if fault == 6 {
        spoil_record(grower.random, &mut table.records[place]);
    }
    let sheet = grower.sheet(&table);
    out.put(random, &format!("{}: at node {}", fault, place), &sheet, Refused(fault, place));
}

/// A truth value of so many nodes as the first operand of another, if there is room, or alone.
fn under_more(grower: &mut Grower, tree: Tree, size: usize) -> Tree {
    let spare = MOST_NODES - size;
    if spare < 2 || grower.random.one_in(3) {
        return tree;
    }
    let other = 1 + grower.random.below(spare - 1);
    let kind = grower.random.pick(&[4, 5, 6, 7]);
    node(kind, vec![tree, grower.truth(other)])
}

// ---- operands

/// A sheet that would be accepted but for the second byte of one operand's number. What stands before the operand
/// takes over 256 nodes, so that the byte isn't zero.
fn second_byte(random: &mut Random, out: &mut Output, label: &str, kind: u8, position: usize, way: &str) {
    let mut grower = Grower::any(random);
    let sorts = operand_sorts(kind);
    let long = grower.random.below(position + 1);
    let size = 257 + grower.random.below(MOST_NODES - 257 - 30);
    let operands = sorts.iter().enumerate().map(|(i, &sort)| {
        let size = if i == long { size } else { 1 + grower.random.below(8) };
        grower.of_sort(sort, size)
    });
    let operands = operands.collect();
    let tree = grower.fitted(kind, operands).marked();
    let size = tree.size();
    let goal = match tree.sort() {
        Truth => under_more(&mut grower, tree, size),
        Integer => under_more(&mut grower, node(10, vec![tree, constant(0)]), size + 2),
    };
    let mut table = Table::of(&goal);
    let node = table.marked[0];
    let high = &mut table.records[node][FIELDS + 2 * position + 1];
    *high = match way {
        "cut off" => 0,
        "one too high" => *high + 1,
        _ => *high - 1,
    };
    let sheet = grower.sheet(&table);
    out.put(random, label, &sheet, Refused(6, node));
}

// ---- goals

/// Of exactly so many nodes: one that is an integer, and one whose subtree isn't the whole table.
fn goals(random: &mut Random, out: &mut Output, nodes: usize) {
    let mut grower = Grower::any(random);
    let sheet = grower.integer(nodes);
    let sheet = grower.sheet(&Table::of(&sheet));
    out.put(random, &format!("7: an integer for a goal, N = {}", nodes), &sheet, Refused(7, nodes - 1));

    let before = 1 + random.below(nodes - 1);
    let sheet = two_trees(random, before, nodes);
    let label = format!("6: goal subtree not the whole table, N = {}", nodes);
    out.put(random, &label, &sheet, Refused(6, nodes - 1));
}

/// A goal whose subtree begins where the second byte of a number alone says that it doesn't begin at 0.
fn goal_from(random: &mut Random, out: &mut Output, before: usize) {
    let nodes = before + 1 + random.below(MOST_NODES - before);
    let sheet = two_trees(random, before, nodes);
    let label = format!("6: goal subtree from node {} on", before);
    out.put(random, &label, &sheet, Refused(6, nodes - 1));
}

/// A tree, and a goal that is another.
fn two_trees(random: &mut Random, before: usize, nodes: usize) -> Vec<u8> {
    let mut grower = Grower::any(random);
    let sort = grower.random.pick(&[Truth, Integer]);
    let mut table = Table::of(&grower.of_sort(sort, before));
    table.push(&grower.truth(nodes - before));
    grower.sheet(&table)
}
