// Sheets for the printer: rules at random, the longest text, and names that are words.

use crate::asked::spoil;
use crate::grower::{any_size, Grower, Variable};
use crate::layout::seal;
use crate::limits::*;
use crate::plain::{is_word, written, Written, WORDS};
use crate::question::{Known, Question};
use crate::random::Random;
use crate::text_questions::{any_sheet, printed, printed_in_every_room};
use crate::trees::*;
use crate::trial::{Accepted, Output, Refused};

pub fn any(random: &mut Random, out: &mut Output) {
    for _ in 0..40 {
        for variables in 0..=MOST_VARIABLES {
            let mut grower = Grower::new(random, variables);
            let size = any_size(grower.random);
            let goal = grower.truth(size);
            let rule = written(&grower, &goal);
            put(random, out, "any", &rule);
        }
    }
    for _ in 0..12 {
        for kind in KINDS {
            let variables = 1 + random.below(MOST_VARIABLES);
            let mut grower = Grower::new(random, variables);
            let size = 4 + grower.random.below(12);
            let tree = grower.of_kind(kind, size);
            let goal = grower.goal_with(tree);
            let rule = written(&grower, &goal);
            put(random, out, &format!("a node of kind {}", kind), &rule);
        }
    }
    longest(random, out);
}

fn put(random: &mut Random, out: &mut Output, label: &str, rule: &Written) {
    out.ask_all(&format!("accepted: print, {}", label), &rule.sheet, &printed(random, rule));
}

/// Names, numbers and words as long as they can be: of each four nodes one is 'implies', one compares, and two are
/// names.
fn longest(random: &mut Random, out: &mut Output) {
    let mut grower = Grower::new(random, 0);
    for _ in 0..MOST_VARIABLES {
        let name = grower.fresh_name(LONGEST_NAME);
        grower.variables.push(Variable { domain: (LOW, LOW), name });
    }
    let compared = |i: usize| {
        let read = |i: usize| variable(i % MOST_VARIABLES, (LOW, LOW));
        node(8, vec![read(i), read(i + 1)])
    };
    let goal = (1..MOST_NODES / 4).fold(compared(0), |goal, i| node(6, vec![compared(i), goal]));
    let goal = node(3, vec![goal]);
    assert_eq!(goal.size(), MOST_NODES, "the most nodes");
    let rule = written(&grower, &goal);
    out.ask_all("accepted: print, the longest", &rule.sheet, &printed_in_every_room(random, &rule));
}

// ---- names that are words

pub fn word_names(random: &mut Random, out: &mut Output) {
    for (_, word) in WORDS {
        for place in 0..MOST_VARIABLES {
            one_word(random, out, word, place);
        }
        near_words(random, out, word);
    }
    for _ in 0..200 {
        several_words(random, out);
        refused_before(random, out);
    }
}

/// A rule with these names at these places.
fn named<'r>(random: &'r mut Random, names: &[(&str, usize)]) -> (Grower<'r>, Tree) {
    let least = names.iter().map(|name| name.1 + 1).max().unwrap_or(0);
    let variables = least + random.below(MOST_VARIABLES + 1 - least);
    let mut grower = Grower::new(random, variables);
    for (name, place) in names {
        // No other variable may have it.
        if let Some(other) = grower.variables.iter().position(|of| of.name == name.as_bytes()) {
            grower.variables[other].name = grower.fresh_name(LONGEST_NAME);
        }
        grower.variables[*place].name = name.as_bytes().to_vec();
    }
    let size = 1 + grower.random.below(20);
    let goal = grower.truth(size);
    (grower, goal)
}

/// The sheet is accepted, and its text refused.
fn put_19(random: &mut Random, out: &mut Output, label: &str, sheet: &[u8], place: usize) {
    let mut questions = any_sheet(random, Refused(19, place));
    questions[0] = (Question::Read, Some(Known::said(0)));
    out.ask_all(label, sheet, &questions);
}

fn one_word(random: &mut Random, out: &mut Output, word: &str, place: usize) {
    let (grower, goal) = named(random, &[(word, place)]);
    let sheet = written(&grower, &goal).sheet;
    put_19(random, out, "accepted: print, a name that is a word", &sheet, place);
}

fn several_words(random: &mut Random, out: &mut Output) {
    let mut names: Vec<(&str, usize)> = Vec::new();
    for place in 0..MOST_VARIABLES {
        let word = random.pick(&WORDS).1;
        if random.one_in(4) && names.iter().all(|name| name.0 != word) {
            names.push((word, place));
        }
    }
    if names.len() > 1 {
        let lowest = names[0].1;
        let (grower, goal) = named(random, &names);
        let sheet = written(&grower, &goal).sheet;
        put_19(random, out, "accepted: print, several names that are words", &sheet, lowest);
    }
}

/// Names that are no words, though they begin or end as one.
fn near_words(random: &mut Random, out: &mut Output, word: &str) {
    let near = [
        word[..word.len() - 1].to_string(),
        word[1..].to_string(),
        word.to_string() + "_",
        word.to_string() + "0",
        word.to_uppercase(),
        word[..1].to_uppercase() + &word[1..],
    ];
    for name in near.iter().filter(|name| !is_word(name.as_bytes())) {
        let place = random.below(MOST_VARIABLES);
        let (grower, goal) = named(random, &[(name, place)]);
        let rule = written(&grower, &goal);
        put(random, out, "a name near a word", &rule);
    }
}

/// What is wrong with the sheet is told first.
fn refused_before(random: &mut Random, out: &mut Output) {
    let word = random.pick(&WORDS).1;
    let (grower, goal) = named(random, &[(word, 0)]);
    let mut sheet = written(&grower, &goal).sheet;
    let number = 1 + random.below(8) as u64;
    let place = spoil(&mut sheet, number);
    out.put(random, &format!("{}: print, and a name that is a word", number), &sheet, Refused(number, place));
    // The check alone is wrong, and made right it is accepted.
    if number == 2 {
        seal(&mut sheet);
        out.put(random, "accepted: print, a check made right", &sheet, Accepted);
    }
}
