// Sheets with a number of cases about the most and far over (refusal 10), with rooms long and short.

use crate::case_questions::{every_room, room, with_outcome, Outcome};
use crate::few_cases::domain;
use crate::grower::Grower;
use crate::layout::VARIABLE_COUNT;
use crate::limits::{MOST_CASES, MOST_VARIABLES};
use crate::question::{Known, Question};
use crate::random::Random;
use crate::trees::*;
use crate::trial::Output;

const WIDEST: usize = 65_536;

pub fn make(random: &mut Random, out: &mut Output) {
    let share = |sizes: &[usize]| sizes.iter().map(|&size| size as f64).product::<f64>() / MOST_CASES as f64;
    assert!(AT_MOST.iter().all(|sizes| (0.98..=1.0).contains(&share(sizes))), "these are the most cases");
    assert!(OVER.iter().all(|sizes| share(sizes) > 1.0), "these are too many cases");
    gone_through(random, out, "accepted: the most cases", AT_MOST[0]);
    let sizes = random.pick(&AT_MOST);
    gone_through(random, out, "accepted: about the most cases, no more", sizes);
    for sizes in AT_MOST {
        begun(random, out, "accepted: about the most cases, the first fails", sizes);
    }
    for _ in 0..300 {
        let sizes = just_under(random);
        begun(random, out, "accepted: just under the most cases, the first fails", &sizes);
        let sizes = just_over(random);
        too_many(random, out, "just over the most cases", &sizes);
        let sizes = wrapped(random);
        too_many(random, out, "a number of cases that wraps round in 32 bits", &sizes);
        let sizes = far_over(random);
        too_many(random, out, "far more than the most cases", &sizes);
    }
    for sizes in OVER {
        for _ in 0..10 {
            too_many(random, out, "over the most cases", sizes);
        }
    }
}

/// Products of the most cases and little less.
const AT_MOST: [&[usize]; 9] = [
    &[1_000, 1_000],
    &[10, 10, 10, 10, 10, 10],
    &[2, 5, 2, 5, 2, 5, 2, 5, 2, 5, 2, 5, 1, 1, 1, 1],
    &[1, 20, 50_000],
    &[50_000, 1, 20],
    &[999, 1_001],
    &[1_001, 999],
    &[15, 65_536],
    &[65_536, 15],
];

/// Products of 1,000,001, 1,000,004, 1,048,576, and those that 32 or 64 bits make 0.
const OVER: [&[usize]; 9] = [
    &[101, 9_901],
    &[9_901, 101],
    &[52, 19_231],
    &[16, 65_536],
    &[2, 2, 2, 2, 2, 2, 2, 2, 2, 2, 2, 2, 2, 2, 2, 32],
    &[65_536, 65_536],
    &[65_536, 65_536, 65_536, 65_536],
    &[65_536, 65_536, 1, 65_536, 3, 65_536],
    &[65_536; 16],
];

/// In any order, with variables of one value put in between.
fn mixed(random: &mut Random, mut sizes: Vec<usize>) -> Vec<usize> {
    let more = random.below(4);
    sizes.extend(vec![1; more]);
    for last in (1..sizes.len()).rev() {
        sizes.swap(last, random.below(last + 1));
    }
    sizes
}

fn just_under(random: &mut Random) -> Vec<usize> {
    let one = 16 + random.below(30_000);
    mixed(random, vec![one, MOST_CASES as usize / one])
}

pub fn just_over(random: &mut Random) -> Vec<usize> {
    let one = 16 + random.below(30_000);
    mixed(random, vec![one, MOST_CASES as usize / one + 1])
}

/// A product just over 2^32.
pub fn wrapped(random: &mut Random) -> Vec<usize> {
    let (one, other) = (260 + random.below(700), 260 + random.below(700));
    let product = one * other;
    mixed(random, vec![one, other, (1usize << 32) / product + 1])
}

pub fn far_over(random: &mut Random) -> Vec<usize> {
    let variables = 4 + random.below(MOST_VARIABLES - 6);
    let sizes = (0..variables).map(|_| 100 + random.below(WIDEST - 99)).collect();
    mixed(random, sizes)
}

pub fn grower<'r>(random: &'r mut Random, sizes: &[usize]) -> Grower<'r> {
    let domains: Vec<Range> = sizes.iter().map(|&size| domain(random, size)).collect();
    Grower::with_domains(random, &domains)
}

/// The rule is that the last variable with two values is below its highest; all cases are tallied.
fn gone_through(random: &mut Random, out: &mut Output, label: &str, sizes: &[usize]) {
    let grower = grower(random, sizes);
    let domains: Vec<Range> = grower.variables.iter().map(|variable| variable.domain).collect();
    let x = |number: usize| variable(number, domains[number]);
    let moving = sizes.iter().rposition(|&size| size > 1).expect("some variable has two values");
    let count = sizes.iter().product::<usize>() as u64;

    let goal = node(10, vec![x(moving), constant(domains[moving].1)]);
    let outcome = Outcome { first_failure: None, held: count, failed: 0 };
    put_once(grower.random, out, &format!("{}, all hold", label), &grower.sheet(&Table::of(&goal)), &outcome);

    let highest = |number: usize| node(8, vec![x(number), constant(domains[number].1)]);
    let all = (0..sizes.len()).map(highest).reduce(|all, one| node(4, vec![all, one])).expect("variables");
    let goal = node(3, vec![all]);
    let case = domains.iter().map(|domain| domain.1).collect();
    let outcome = Outcome { first_failure: Some(case), held: count - 1, failed: 1 };
    put_once(
        grower.random,
        out,
        &format!("{}, the last fails", label),
        &grower.sheet(&Table::of(&goal)),
        &outcome,
    );
}

/// One check and one tally, since each takes long.
fn put_once(random: &mut Random, out: &mut Output, label: &str, sheet: &[u8], outcome: &Outcome) {
    let variables = usize::from(sheet[VARIABLE_COUNT]);
    let questions = vec![
        Question::Read,
        Question::Check(room(random, variables - 1)),
        Question::Check(room(random, variables)),
        Question::Tally,
    ];
    out.ask_all(label, sheet, &with_outcome(questions, variables, Some(outcome)));
}

/// A sheet that is checked, but not tallied: its first case fails, so that it takes no time.
fn begun(random: &mut Random, out: &mut Output, label: &str, sizes: &[usize]) {
    let grower = grower(random, sizes);
    let domain = grower.variables[0].domain;
    let goal = node(9, vec![constant(domain.0), variable(0, domain)]);
    let sheet = grower.sheet(&Table::of(&goal));
    let first = grower.variables.iter().map(|variable| variable.domain.0).collect();
    let outcome = Outcome { first_failure: Some(first), held: 0, failed: 0 };
    let mut questions = every_room(random, sizes.len());
    questions.pop();
    out.ask_all(label, &sheet, &with_outcome(questions, sizes.len(), Some(&outcome)));
}

/// Refused with 10, whatever room is lent, though the sheet is accepted.
fn too_many(random: &mut Random, out: &mut Output, label: &str, sizes: &[usize]) {
    let mut grower = grower(random, sizes);
    let size = 3 + grower.random.below(20);
    let goal = grower.truth(size);
    let sheet = grower.sheet(&Table::of(&goal));
    let answer = |question| match question {
        Question::Read => (question, Some(Known::said(0))),
        _ => (question, Some(Known::refused(10, 0))),
    };
    let asked: Vec<_> = every_room(random, sizes.len()).into_iter().map(answer).collect();
    out.ask_all(&format!("accepted: {}", label), &sheet, &asked);
}
