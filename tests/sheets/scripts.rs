// Accepted sheets for the script's writer: every kind, every digit of a number, long scripts, more cases than
// can be checked, and trees at random. The oracle alone knows the bytes.

use crate::case_limits;
use crate::grower::{any_size, Grower};
use crate::limits::{MOST_NODES, MOST_VARIABLES};
use crate::random::Random;
use crate::script_questions::{every_room, script_length, some_rooms, ROOM_OF_01};
use crate::shapes::{chain, Link};
use crate::trees::*;
use crate::trial::Output;

pub fn any(random: &mut Random, out: &mut Output) {
    for _ in 0..480 {
        for variables in 0..=MOST_VARIABLES {
            put(random, out, "any", variables, |grower| {
                let size = any_size(grower.random);
                grower.truth(size)
            });
        }
    }
}

pub fn kinds(random: &mut Random, out: &mut Output) {
    for _ in 0..150 {
        for kind in KINDS {
            let variables = 1 + random.below(MOST_VARIABLES);
            put(random, out, &format!("a node of kind {}", kind), variables, |grower| {
                let size = 4 + grower.random.below(12);
                let tree = grower.of_kind(kind, size);
                grower.goal_with(tree)
            });
        }
    }
}

fn put(
    random: &mut Random,
    out: &mut Output,
    label: &str,
    variables: usize,
    grow: impl FnOnce(&mut Grower) -> Tree,
) {
    let mut grower = Grower::new(random, variables);
    let goal = grow(&mut grower);
    let sheet = grower.sheet(&Table::of(&goal));
    ask(random, out, label, &sheet, &goal, variables);
}

/// Asks for the script in some rooms, or in every room where it is long, as few are.
fn ask(random: &mut Random, out: &mut Output, label: &str, sheet: &[u8], goal: &Tree, variables: usize) {
    let form = out.form();
    let length = script_length(form, goal, variables);
    let rooms = if length > ROOM_OF_01 { every_room } else { some_rooms };
    let questions = rooms(random, form, length);
    out.ask_all(&format!("accepted: {}, {}", form.call(), label), sheet, &questions);
}

// ---- numbers

/// Every digit at every place of a constant and of the ends of a domain, and each variable's symbol.
pub fn numbers(random: &mut Random, out: &mut Output) {
    for place in 0..4 {
        for digit in 0..16u16 {
            for _ in 0..70 {
                let rest = random.next() as u16 & !(15 << (4 * place));
                one_number(random, out, i64::from((rest | digit << (4 * place)) as i16));
            }
        }
    }
    for value in [LOW, LOW + 1, -256, -255, -1, 0, 1, 15, 16, 255, 256, HIGH - 1, HIGH] {
        for _ in 0..20 {
            one_number(random, out, value);
        }
    }
}

fn one_number(random: &mut Random, out: &mut Output, value: i64) {
    let variables = random.pick(&[1, 2, 11, MOST_VARIABLES]);
    let mut grower = Grower::new(random, variables);
    let number = grower.random.below(variables);
    let other = grower.random.between(LOW, HIGH);
    let domain = (value.min(other), value.max(other));
    grower.variables[number].domain = domain;
    let goal = node(10, vec![variable(number, domain), constant(value)]);
    let sheet = grower.sheet(&Table::of(&goal));
    ask(random, out, "a number", &sheet, &goal, variables);
}

// ---- long scripts

pub fn long(random: &mut Random, out: &mut Output) {
    for _ in 0..10 {
        put(random, out, "the longest", MOST_VARIABLES, longest);
        put(random, out, "long, of constants", MOST_VARIABLES, |grower| {
            chain(&mut Grower::new(grower.random, 0), &LONG_WORDED, MOST_NODES)
        });
    }
    for _ in 0..100 {
        put(random, out, "long", MOST_VARIABLES, |grower| {
            let usual = grower.random.pick(&[40, MOST_NODES - MOST_NODES / 8]);
            let size = MOST_NODES - grower.random.below(usual);
            grower.truth(size)
        });
    }
}

/// Of the kinds with two operands and more, those with the longest words.
const LONG_WORDED: [Link; 5] = [(SUM, 0), (DIFFERENCE, 1), (PRODUCT, 0), (PRODUCT, 1), (CHOICE, 1)];

/// The goal of a longest script. No node's text is longer than a comparison's and no leaf's than a constant's;
/// of the others, minus takes the most for each node.
pub fn longest(grower: &mut Grower) -> Tree {
    let minuses = MOST_NODES - 3;
    let first = grower.random.below(minuses + 1);
    let chain =
        |length: usize, value: i64| (0..length).fold(constant(value), |tree, _| node(MINUS, vec![tree]));
    let (x, y) = (grower.random.between(-HIGH, HIGH), grower.random.between(-HIGH, HIGH));
    let kind = grower.random.pick(&[9, 10]);
    node(kind, vec![chain(first, x), chain(minuses - first, y)])
}

// ---- many cases

/// More cases than can be checked are no hindrance to a script.
pub fn many_cases(random: &mut Random, out: &mut Output) {
    for _ in 0..500 {
        for sizes in
            [case_limits::just_over(random), case_limits::wrapped(random), case_limits::far_over(random)]
        {
            let mut grower = case_limits::grower(random, &sizes);
            let size = 3 + grower.random.below(20);
            let goal = grower.truth(size);
            let sheet = grower.sheet(&Table::of(&goal));
            ask(random, out, "too many cases to check", &sheet, &goal, sizes.len());
        }
    }
}
