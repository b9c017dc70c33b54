// Sheets with small rules, and with long ones of every shape, and not too many cases, whose scripts are put to solvers.

use crate::few_cases::{domains, telling};
use crate::grower::Grower;
use crate::limits::{ENOUGH_ROOM, MOST_NODES, MOST_VARIABLES};
use crate::question::Question;
use crate::random::Random;
use crate::script_questions::{every_room, script_length};
use crate::trees::*;
use crate::trial::{Asked, Output};

pub fn make(random: &mut Random, out: &mut Output) {
    for _ in 0..150 {
        let variables = random.below(6);
        let domains = domains(random, variables, 2_000);
        let mut grower = Grower::with_domains(random, &domains);
        let size = 3 + grower.random.below(20);
        let goal = telling(&mut grower, size);
        put(random, out, &domains, "any", &goal);
        // What implies itself holds, and few others do.
        let goal = node(random.pick(&[6, 7]), vec![goal.clone(), goal]);
        put(random, out, &domains, "holds", &goal);
    }
    for _ in 0..20 {
        about_zero(random, out);
        one_not_read(random, out);
    }
    long(random, out);
}

/// Rules about a domain with zero in it: to an unsigned comparison -1 is past its upper end. Some hold only
/// because of the range line.
fn about_zero(random: &mut Random, out: &mut Output) {
    let (least, greatest) = (random.between(-20, -1), random.between(1, 20));
    let domain = (least, greatest);
    let x = || variable(0, domain);
    for (kind, bound) in [(9, greatest), (10, greatest), (9, greatest + 1), (10, -1), (9, 0), (10, 0)] {
        let goal = node(kind, vec![x(), constant(bound)]);
        put(random, out, &[domain], "about zero", &goal);
    }
}

/// A rule that fails in few cases and reads all its variables but one.
fn one_not_read(random: &mut Random, out: &mut Output) {
    let mut domains = domains(random, 3, 60);
    domains.push((random.between(-3, 0), random.between(0, 3)));
    let unread = random.below(domains.len());
    let read: Vec<usize> = (0..domains.len()).filter(|&number| number != unread).collect();
    // It fails where all that are read have their greatest value.
    let below = |number: usize| {
        let domain = domains[number];
        node(9, vec![variable(number, domain), constant(domain.1)])
    };
    let goal =
        read.into_iter().map(below).reduce(|one, other| node(5, vec![one, other])).expect("three are read");
    put(random, out, &domains, "a variable not read", &goal);
}

// ---- long rules

/// Nodes of a long rule.
const SIZES: [usize; 3] = [500, 1_000, MOST_NODES];

/// Ways to grow a truth value of exactly so many nodes.
const SHAPES: [fn(&mut Grower, usize) -> Tree; 8] = [
    nots,
    nots_of_a_comparison,
    minuses,
    |grower, size| comb(grower, size, 0),
    |grower, size| comb(grower, size, 1),
    choices,
    sums,
    balanced,
];

fn long(random: &mut Random, out: &mut Output) {
    for size in SIZES {
        for shape in SHAPES {
            for variables in [3, MOST_VARIABLES] {
                let domains = near_zero(random, variables);
                let mut grower = Grower::with_domains(random, &domains);
                let any = shape(&mut grower, size);
                let holding = holding(&mut grower, size, shape);
                put(random, out, &domains, "any", &any);
                put(random, out, &domains, "holds", &holding);
            }
        }
    }
}

/// Domains so near zero that any sum fits, and few of more than one value.
fn near_zero(random: &mut Random, variables: usize) -> Vec<Range> {
    let mut domain = |number: usize| match number {
        0..=2 => (random.between(-2, 0), random.between(0, 2)),
        _ => (number as i64 % 5 - 2, number as i64 % 5 - 2),
    };
    (0..variables).map(|number| domain(number)).collect()
}

/// What implies itself or another thing.
fn holding(grower: &mut Grower, size: usize, shape: fn(&mut Grower, usize) -> Tree) -> Tree {
    let tree = shape(grower, (size - 4) / 2);
    let other = telling(grower, 2 + size % 2);
    node(6, vec![tree.clone(), node(5, vec![other, tree])])
}

fn over(kind: u8, count: usize, tree: Tree) -> Tree {
    (0..count).fold(tree, |tree, _| node(kind, vec![tree]))
}

/// As deep as a tree can be.
fn nots(grower: &mut Grower, size: usize) -> Tree {
    let leaf = grower.truth(1);
    over(3, size - 1, leaf)
}

fn nots_of_a_comparison(grower: &mut Grower, size: usize) -> Tree {
    let comparison = telling(grower, 3);
    over(3, size - 3, comparison)
}

fn some_variable(grower: &mut Grower) -> Tree {
    let number = grower.random.below(grower.variables.len());
    variable(number, grower.variables[number].domain)
}

fn minuses(grower: &mut Grower, size: usize) -> Tree {
    let tree = over(MINUS, size - 3, some_variable(grower));
    compared(grower, tree)
}

/// An integer compared with one of its values, or the other way round.
fn compared(grower: &mut Grower, tree: Tree) -> Tree {
    let value = constant(grower.random.between(tree.range.0, tree.range.1));
    let kind = grower.random.pick(&[8, 9, 10]);
    node(kind, if grower.random.one_in(2) { vec![tree, value] } else { vec![value, tree] })
}

/// Comparisons in a row, deeper and deeper in this operand.
fn comb(grower: &mut Grower, size: usize, operand: usize) -> Tree {
    let (rows, rest) = ((size - 3) / 4, (size - 3) % 4);
    let first = telling(grower, 3 + rest);
    (0..rows).fold(first, |tree, _| {
        let mut operands = vec![telling(grower, 3)];
        operands.insert(operand, tree);
        node(grower.random.pick(&[4, 5, 6, 7]), operands)
    })
}

/// Each choice's second number is the next choice.
fn choices(grower: &mut Grower, size: usize) -> Tree {
    let (rows, rest) = ((size - 3) / 5, (size - 3) % 5);
    let last = over(MINUS, rest, some_variable(grower));
    let tree = (0..rows).fold(last, |tree, _| {
        let (truth, number) = (telling(grower, 3), some_variable(grower));
        node(CHOICE, vec![truth, number, tree])
    });
    compared(grower, tree)
}

fn sums(grower: &mut Grower, size: usize) -> Tree {
    let (rows, rest) = ((size - 3) / 2, (size - 3) % 2);
    let first = over(MINUS, rest, some_variable(grower));
    let tree = (0..rows).fold(first, |tree, _| {
        let number = some_variable(grower);
        node(grower.random.pick(&[SUM, DIFFERENCE]), vec![tree, number])
    });
    compared(grower, tree)
}

fn balanced(grower: &mut Grower, size: usize) -> Tree {
    if size < 7 {
        return telling(grower, size);
    }
    let half = (size - 1) / 2;
    let operands = vec![balanced(grower, half), balanced(grower, size - 1 - half)];
    node(grower.random.pick(&[4, 5, 6, 7]), operands)
}

fn put(random: &mut Random, out: &mut Output, domains: &[Range], label: &str, goal: &Tree) {
    let sheet = Grower::with_domains(random, domains).sheet(&Table::of(goal));
    let form = out.form();
    let questions = every_room(random, form, script_length(form, goal, domains.len()));
    let enough = |asked: &Asked| match asked.0 {
        Question::Script(room) | Question::Ask(room) => room.length == ENOUGH_ROOM,
        _ => true,
    };
    let questions: Vec<Asked> = questions.into_iter().filter(enough).collect();
    out.ask_all(&format!("accepted: {} for solvers, {}", form.call(), label), &sheet, &questions);
}
