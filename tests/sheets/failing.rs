// Rules that are known to fail in certain cases and in no others: the first, the last or one of all cases,
// where one variable is above its lowest, at its highest or has one value, everywhere, and nowhere.

use crate::case_questions::{every_room, with_outcome, Outcome};
use crate::few_cases::{domain, domains};
use crate::grower::Grower;
use crate::limits::MOST_VARIABLES;
use crate::random::Random;
use crate::shapes::{deep, DEEP};
use crate::trees::*;
use crate::trial::Output;

pub fn make(random: &mut Random, out: &mut Output) {
    for _ in 0..25 {
        for variables in 1..=MOST_VARIABLES {
            for which in ["the first case", "the last case", "one case"] {
                one_case(random, out, variables, which);
            }
            for which in ["variable 0", "the last variable", "a variable"] {
                one_variable(random, out, variables, which);
            }
            everywhere_or_nowhere(random, out, variables);
        }
    }
    for _ in 0..4 {
        for nodes in DEEP {
            deep_rule(random, out, nodes);
        }
    }
}

/// The product of the domain sizes.
fn cases(domains: &[Range]) -> u64 {
    domains.iter().map(|domain| (domain.1 - domain.0 + 1) as u64).product()
}

fn first(domains: &[Range]) -> Vec<i64> {
    domains.iter().map(|domain| domain.0).collect()
}

fn last(domains: &[Range]) -> Vec<i64> {
    domains.iter().map(|domain| domain.1).collect()
}

/// The case after the first: the last variable that has two values moves.
fn second(domains: &[Range]) -> Option<Vec<i64>> {
    let moving = domains.iter().rposition(|domain| domain.0 < domain.1)?;
    let mut case = first(domains);
    case[moving] += 1;
    Some(case)
}

fn put(random: &mut Random, out: &mut Output, label: &str, domains: &[Range], goal: &Tree, outcome: Outcome) {
    let sheet = Grower::with_domains(random, domains).sheet(&Table::of(goal));
    let questions = every_room(random, domains.len());
    out.ask_all(
        &format!("accepted: {}", label),
        &sheet,
        &with_outcome(questions, domains.len(), Some(&outcome)),
    );
}

// ---- one case

fn one_case(random: &mut Random, out: &mut Output, variables: usize, which: &str) {
    let most = random.pick(&[1, 6, 60, 600]);
    let domains = domains(random, variables, most);
    let case = match which {
        "the first case" => first(&domains),
        "the last case" => last(&domains),
        _ => domains.iter().map(|domain| random.between(domain.0, domain.1)).collect(),
    };
    let there = at(random, &domains, &case);
    let fails_there = node(3, vec![there.clone()]);
    let outcome = fails_alone(&domains, &case);
    put(random, out, &format!("fails in {} alone", which), &domains, &fails_there, outcome);
    let outcome = holds_alone(&domains, &case);
    put(random, out, &format!("holds in {} alone", which), &domains, &there, outcome);
}

/// The outcome of a rule that fails in this case and in no other.
fn fails_alone(domains: &[Range], case: &[i64]) -> Outcome {
    Outcome { first_failure: Some(case.to_vec()), held: cases(domains) - 1, failed: 1 }
}

fn holds_alone(domains: &[Range], case: &[i64]) -> Outcome {
    let failure = if case == first(domains) { second(domains) } else { Some(first(domains)) };
    Outcome { first_failure: failure, held: 1, failed: cases(domains) - 1 }
}

/// A rule of exactly so many nodes of which the deepest alone decide.
fn deep_rule(random: &mut Random, out: &mut Output, nodes: usize) {
    let variables = 1 + random.below(4);
    let domains = domains(random, variables, 12);
    let case: Vec<i64> = domains.iter().map(|domain| random.between(domain.0, domain.1)).collect();
    let there = at(random, &domains, &case);
    let (goal, opposite) = deep(random, there, nodes);
    let outcome = if opposite { fails_alone(&domains, &case) } else { holds_alone(&domains, &case) };
    put(random, out, &format!("cases, a deep rule, N = {}", nodes), &domains, &goal, outcome);
}

/// True in this case and in no other.
pub fn at(random: &mut Random, domains: &[Range], case: &[i64]) -> Tree {
    let each = domains.iter().zip(case).enumerate();
    let each: Vec<Tree> = each.map(|(number, (&domain, &value))| is(random, number, domain, value)).collect();
    all_of(random, each)
}

/// True where the variable has this value, said in one way or another.
fn is(random: &mut Random, number: usize, domain: Range, value: i64) -> Tree {
    let x = || variable(number, domain);
    let value = || constant(value);
    match random.below(6) {
        0 => node(8, vec![x(), value()]),
        1 => node(8, vec![value(), x()]),
        2 => node(4, vec![node(10, vec![x(), value()]), node(10, vec![value(), x()])]),
        3 => node(3, vec![node(5, vec![node(9, vec![x(), value()]), node(9, vec![value(), x()])])]),
        4 => node(8, vec![node(DIFFERENCE, vec![x(), value()]), constant(0)]),
        _ => node(
            8,
            vec![node(CHOICE, vec![node(8, vec![x(), value()]), constant(1), constant(0)]), constant(1)],
        ),
    }
}

/// All of these, joined in any shape.
fn all_of(random: &mut Random, mut trees: Vec<Tree>) -> Tree {
    if trees.len() == 1 {
        return trees.remove(0);
    }
    let later = trees.split_off(1 + random.below(trees.len() - 1));
    let (a, b) = (all_of(random, trees), all_of(random, later));
    let not = |tree: Tree| node(3, vec![tree]);
    match random.below(4) {
        0 => not(node(5, vec![not(a), not(b)])),
        1 => not(node(6, vec![a, not(b)])),
        _ => node(4, vec![a, b]),
    }
}

// ---- one variable

fn one_variable(random: &mut Random, out: &mut Output, variables: usize, which: &str) {
    for how in ["is above its lowest", "is at its highest", "has one value"] {
        let moving = match which {
            "variable 0" => 0,
            "the last variable" => variables - 1,
            _ => random.below(variables),
        };
        let domains = with_moving(random, variables, moving);
        let (least, greatest) = domains[moving];
        let x = variable(moving, domains[moving]);
        let (goal, failing) = match how {
            "is above its lowest" => (node(10, vec![x, constant(least)]), least + 1),
            "is at its highest" => (node(9, vec![x, constant(greatest)]), greatest),
            _ => {
                let value = random.between(least, greatest);
                (node(3, vec![is(random, moving, domains[moving], value)]), value)
            }
        };
        let mut case = first(&domains);
        case[moving] = failing;
        let count = cases(&domains);
        let share = count / (greatest - least + 1) as u64;
        let failed = if how == "is above its lowest" { count - share } else { share };
        let outcome = Outcome { first_failure: Some(case), held: count - failed, failed };
        put(random, out, &format!("fails where {} {}", which, how), &domains, &goal, outcome);
    }
}

/// Domains of which this variable's has two values or more.
fn with_moving(random: &mut Random, variables: usize, moving: usize) -> Vec<Range> {
    let most = random.pick(&[1, 6, 60]);
    let mut domains = domains(random, variables, most);
    let size = 2 + random.below(5);
    domains[moving] = domain(random, size);
    domains
}

// ---- all cases

fn everywhere_or_nowhere(random: &mut Random, out: &mut Output, variables: usize) {
    let most = random.pick(&[1, 6, 60, 600]);
    let domains = domains(random, variables, most);
    let count = cases(&domains);
    let within = |(number, &domain): (usize, &Range)| {
        let x = || variable(number, domain);
        node(4, vec![node(10, vec![constant(domain.0), x()]), node(10, vec![x(), constant(domain.1)])])
    };
    let each = domains.iter().enumerate().map(within).collect();
    let always = all_of(random, each);
    let never = node(3, vec![always.clone()]);

    let outcome = Outcome { first_failure: None, held: count, failed: 0 };
    put(random, out, "fails nowhere", &domains, &always, outcome);
    let outcome = Outcome { first_failure: Some(first(&domains)), held: 0, failed: count };
    put(random, out, "fails everywhere", &domains, &never, outcome);
}
