// Accepted sheets with few cases, whose rules hold here and fail there: every kind of node, and trees at
// random. The oracle alone knows the outcome.

use crate::case_questions::{every_room, with_outcome};
use crate::grower::{any_size, Grower};
use crate::limits::MOST_VARIABLES;
use crate::random::Random;
use crate::trees::*;
use crate::trial::Output;

pub fn make(random: &mut Random, out: &mut Output) {
    for _ in 0..150 {
        for kind in KINDS {
            let variables = 1 + random.below(MOST_VARIABLES);
            put(random, out, &format!("accepted: cases, a node of kind {}", kind), variables, |grower| {
                let size = 4 + grower.random.below(12);
                let tree = of_kind(grower, kind, size);
                grower.goal_with(tree)
            });
        }
    }
    for _ in 0..450 {
        for variables in 0..=MOST_VARIABLES {
            put(random, out, "accepted: cases, any", variables, |grower| {
                let size = any_size(grower.random);
                telling(grower, size)
            });
        }
    }
}

fn put(
    random: &mut Random,
    out: &mut Output,
    label: &str,
    variables: usize,
    grow: impl FnOnce(&mut Grower) -> Tree,
) {
    let most = random.pick(&[1, 8, 30, 100, 400]);
    let domains = domains(random, variables, most);
    let mut grower = Grower::with_domains(random, &domains);
    let goal = grow(&mut grower);
    let sheet = grower.sheet(&Table::of(&goal));
    let questions = every_room(random, variables);
    out.ask_all(label, &sheet, &with_outcome(questions, variables, None));
}

/// Domains whose sizes have a product of at most `most`.
pub fn domains(random: &mut Random, variables: usize, most: usize) -> Vec<Range> {
    let mut sizes = vec![1; variables];
    let mut left = most;
    for _ in 0..variables {
        let variable = random.below(variables);
        let usual = random.pick(&[2, 3, 5, 11, 40]);
        let size = 1 + random.below(left.min(usual));
        if sizes[variable] == 1 {
            sizes[variable] = size;
            left /= size;
        }
    }
    sizes.into_iter().map(|size| domain(random, size)).collect()
}

/// A domain of this size: about zero, negative, positive, at an end of the numbers, or anywhere.
pub fn domain(random: &mut Random, size: usize) -> Range {
    let size = size as i64;
    let most = HIGH - size + 1;
    let least = match random.below(8) {
        0 => LOW,
        1 => most,
        2 => random.between(LOW, most),
        3 => 0,
        4 => -size,
        _ => random.between(-size, 1),
    };
    let least = least.clamp(LOW, most);
    (least, least + size - 1)
}

/// A tree with a node of this kind on which the goal depends: a comparison with a value in its range, or a
/// truth value over comparisons.
fn of_kind(grower: &mut Grower, kind: u8, size: usize) -> Tree {
    match gives(kind) {
        Integer => {
            let tree = match kind {
                VARIABLE => some_variable(grower),
                _ => grower.of_kind(kind, size),
            };
            compared(grower, tree)
        }
        Truth if kind < 4 || kind > 7 => grower.of_kind(kind, size),
        Truth => node(kind, vec![telling(grower, size), telling(grower, size)]),
    }
}

fn some_variable(grower: &mut Grower) -> Tree {
    let number = grower.random.below(grower.variables.len());
    variable(number, grower.variables[number].domain)
}

/// A truth value of exactly this many nodes, made of comparisons that often hold and often fail.
pub fn telling(grower: &mut Grower, size: usize) -> Tree {
    match size {
        1 | 2 => grower.truth(size),
        3..=5 => comparison(grower, size),
        _ => match grower.random.below(8) {
            0 => node(3, vec![telling(grower, size - 1)]),
            1 | 2 => comparison(grower, size),
            _ => {
                let sizes = grower.random.split(size - 1, 2);
                let kind = grower.random.pick(&[4, 5, 6, 7]);
                node(kind, vec![telling(grower, sizes[0]), telling(grower, sizes[1])])
            }
        },
    }
}

/// A comparison of exactly this many nodes.
fn comparison(grower: &mut Grower, size: usize) -> Tree {
    let leaf = size == 3 && !grower.variables.is_empty() && !grower.random.one_in(4);
    let tree = if leaf { some_variable(grower) } else { grower.integer(size - 2) };
    compared(grower, tree)
}

/// An integer compared with a constant of its range.
fn compared(grower: &mut Grower, tree: Tree) -> Tree {
    let (least, greatest) = tree.range;
    let value = match grower.random.below(5) {
        0 => least,
        1 => greatest,
        _ => grower.random.between(least, greatest),
    };
    let kind = grower.random.pick(&[8, 9, 10]);
    let constant = constant(value);
    node(kind, if grower.random.one_in(2) { vec![tree, constant] } else { vec![constant, tree] })
}
