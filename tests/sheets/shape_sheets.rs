// Accepted sheets of every shape and of sizes up to the most, put to the calls of each part.

use crate::case_questions::{self, with_outcome};
use crate::grower::Grower;
use crate::layout::blocks_for;
use crate::limits::*;
use crate::plain::written;
use crate::random::Random;
use crate::reply_questions::{self, Replied};
use crate::reply_text;
use crate::script_questions::{self, script_length};
use crate::shapes::{balanced, chain, links, DOMAINS};
use crate::text_questions;
use crate::trees::*;
use crate::trial::{Accepted, Output, Part};

/// Sizes about full blocks, the most nodes of eight of them, the edges of a byte, and the most nodes of all.
const SIZES: [usize; 20] = [
    30,
    31,
    32,
    62,
    247,
    248,
    249,
    255,
    256,
    257,
    279,
    280,
    511,
    512,
    1_024,
    1_025,
    MOST_NODES - NODES_IN_BLOCK,
    MOST_NODES - NODES_IN_BLOCK + 1,
    MOST_NODES - 1,
    MOST_NODES,
];

/// Kinds with more than one operand.
const BROAD: [u8; 11] = [4, 5, 6, 7, 8, 9, 10, SUM, DIFFERENCE, PRODUCT, CHOICE];
const OPERANDS: [&str; 3] = ["a", "b", "c"];
/// The fewest nodes for which every shape can be told from the others.
const LEAST: usize = 12;

pub fn make(random: &mut Random, out: &mut Output) {
    for link in links() {
        let shape = format!("a chain through operand {} of kind {}", OPERANDS[link.1], link.0);
        of_sizes(random, out, &shape, |grower, nodes| chain(grower, &[link], nodes));
    }
    for kind in BROAD {
        let shape = format!("a balanced tree of kind {}", kind);
        of_sizes(random, out, &shape, |grower, nodes| balanced(grower, kind, nodes));
    }
    for nodes in SIZES {
        any_chain(random, out, &format!("a mixed chain, N = {}", nodes), nodes);
        any_balanced(random, out, &format!("a balanced tree, N = {}", nodes), nodes);
    }
    for blocks in 2..=MOST_BLOCKS {
        let first = NODES_IN_BLOCK * (blocks - 2);
        let nodes = LEAST.max(first + 1 + random.below(NODES_IN_BLOCK));
        assert!(blocks_for(nodes) == blocks, "{} nodes take {} blocks", nodes, blocks);
        if random.one_in(2) {
            any_chain(random, out, &format!("any shape of {} blocks", blocks), nodes);
        } else {
            any_balanced(random, out, &format!("any shape of {} blocks", blocks), nodes);
        }
    }
}

/// The most nodes, some about an edge, and any number.
fn of_sizes(random: &mut Random, out: &mut Output, shape: &str, grow: impl Fn(&mut Grower, usize) -> Tree) {
    put(random, out, &format!("{}, the most nodes", shape), |grower| grow(grower, MOST_NODES));
    let any = LEAST + random.below(MOST_NODES - LEAST + 1);
    for nodes in [random.pick(&SIZES), random.pick(&SIZES), any] {
        put(random, out, &format!("{}, other sizes", shape), |grower| grow(grower, nodes));
    }
}

fn any_chain(random: &mut Random, out: &mut Output, label: &str, nodes: usize) {
    put(random, out, label, |grower| chain(grower, &links(), nodes));
}

fn any_balanced(random: &mut Random, out: &mut Output, label: &str, nodes: usize) {
    let kind = random.pick(&BROAD);
    put(random, out, label, |grower| balanced(grower, kind, nodes));
}

/// With at most three variables, so that there are few cases.
fn put(random: &mut Random, out: &mut Output, label: &str, grow: impl FnOnce(&mut Grower) -> Tree) {
    let variables = random.below(4);
    let domains: Vec<Range> = (0..variables).map(|_| random.pick(&DOMAINS)).collect();
    let mut grower = Grower::with_domains(random, &domains);
    let goal = grow(&mut grower);
    let rule = written(&grower, &goal);
    let sheet = rule.sheet.clone();
    match out.part() {
        Part::Reading => out.put(random, &format!("accepted: {}", label), &sheet, Accepted),
        Part::Cases => {
            let questions = case_questions::every_room(random, variables);
            let label = format!("accepted: cases, {}", label);
            out.ask_all(&label, &sheet, &with_outcome(questions, variables, None));
        }
        Part::Script | Part::Ask => {
            let form = out.form();
            let length = script_length(form, &goal, variables);
            let questions = script_questions::every_room(random, form, length);
            out.ask_all(&format!("accepted: {}, {}", form.call(), label), &sheet, &questions);
        }
        Part::Replies => {
            let case: Vec<i64> = domains.iter().map(|domain| random.between(domain.0, domain.1)).collect();
            let reply = reply_text::any(random, &case).bytes;
            let questions = reply_questions::all(variables, &Replied::Unknown);
            out.ask_about(&format!("any: reply, {}", label), &sheet, &reply, &questions);
        }
        Part::Text => {
            let questions = text_questions::printed(random, &rule);
            out.ask_all(&format!("accepted: print, {}", label), &sheet, &questions);
        }
        Part::Make => unreachable!("sheets are no texts"),
    }
}
