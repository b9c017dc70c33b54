// Accepted sheets: every count at its edges, every kind, the ends of numbers and of names.

use crate::grower::{accepted, any_accepted, any_size, Grower, Variable};
use crate::limits::*;
use crate::random::Random;
use crate::trees::*;
use crate::trial::{Accepted, Output};

pub fn make(random: &mut Random, out: &mut Output) {
    for _ in 0..2 {
        counts(random, out);
    }
    for _ in 0..10 {
        kinds(random, out);
        names(random, out);
        numbers(random, out);
    }
    for _ in 0..6_000 {
        let sheet = any_accepted(random);
        out.put(random, "accepted: any", &sheet, Accepted);
    }
}

/// Node counts that fill their last block, and those before and after.
fn edge_counts() -> Vec<usize> {
    let full = (1..=MOST_NODES / NODES_IN_BLOCK).map(|blocks| blocks * NODES_IN_BLOCK);
    let around = full.flat_map(|nodes| vec![nodes - 1, nodes, nodes + 1]);
    [1, 2, 3].iter().copied().chain(around).filter(|&nodes| nodes <= MOST_NODES).collect()
}

fn counts(random: &mut Random, out: &mut Output) {
    for nodes in edge_counts() {
        let variables = random.below(MOST_VARIABLES + 1);
        let sheet = accepted(random, nodes, variables);
        out.put(random, &format!("accepted: N = {}", nodes), &sheet, Accepted);
    }
    for variables in 0..=MOST_VARIABLES {
        let nodes = any_size(random);
        let sheet = accepted(random, nodes, variables);
        out.put(random, &format!("accepted: V = {}", variables), &sheet, Accepted);
    }
    let largest = accepted(random, MOST_NODES, MOST_VARIABLES);
    out.put(random, "accepted: N and V at their most", &largest, Accepted);
}

fn kinds(random: &mut Random, out: &mut Output) {
    for kind in KINDS {
        let variables = 1 + random.below(MOST_VARIABLES);
        let size = 4 + random.below(30);
        let mut grower = Grower::new(random, variables);
        let tree = grower.of_kind(kind, size);
        let sort = tree.sort();
        let goal = grower.goal_with(tree.clone());
        let sheet = grower.sheet(&Table::of(&goal));
        let alone = grower.sheet(&Table::of(&tree));
        out.put(random, &format!("accepted: a node of kind {}", kind), &sheet, Accepted);
        if sort == Truth {
            out.put(random, &format!("accepted: goal of kind {}", kind), &alone, Accepted);
        }
    }
}

fn names(random: &mut Random, out: &mut Output) {
    for length in [1, LONGEST_NAME] {
        let mut grower = Grower::new(random, 0);
        for _ in 0..MOST_VARIABLES {
            let domain = (grower.value().min(0), 0);
            let name = grower.fresh_name(length);
            grower.variables.push(Variable { domain, name });
        }
        let size = any_size(grower.random);
        let goal = grower.truth(size);
        let sheet = grower.sheet(&Table::of(&goal));
        out.put(random, &format!("accepted: names of length {}", length), &sheet, Accepted);
    }
}

fn numbers(random: &mut Random, out: &mut Output) {
    for value in [LOW, -1, 0, HIGH] {
        let mut grower = Grower::any(random);
        let goal = grower.goal_with(constant(value));
        let sheet = grower.sheet(&Table::of(&goal));
        out.put(random, &format!("accepted: constant {}", value), &sheet, Accepted);
    }
    for domain in [(LOW, HIGH), (LOW, LOW), (HIGH, HIGH), (-1, 0)] {
        let mut grower = Grower::new(random, 0);
        let number = grower.add_variable(domain);
        let goal = grower.goal_with(variable(number, domain));
        let sheet = grower.sheet(&Table::of(&goal));
        out.put(random, &format!("accepted: domain {}..{}", domain.0, domain.1), &sheet, Accepted);
    }
}
