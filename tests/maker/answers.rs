// The answers that a rule's sheet must get, found from its text: the sheet's bytes are not looked at.

use crate::cases::{self, Case};
use crate::limits::MOST_CASES;
use crate::ranges;
use crate::rule::Rule;

/// Where the answers to 'read', 'check' and 'tally' are not the same refusal.
#[derive(PartialEq)]
pub struct Answers {
    pub read: String,
    pub check: String,
    pub tally: String,
}

pub const CALLS: [&str; 3] = ["read", "check", "tally"];

impl Answers {
    pub fn lines(&self) -> [&str; 3] {
        [&self.read, &self.check, &self.tally]
    }
}

pub fn refused(number: u64, place: u64) -> String {
    format!("refused {} at {}", number, place)
}

pub fn failing(rule: &Rule, case: &[i64]) -> String {
    let named = rule.variables.iter().zip(case);
    named.fold("fails".to_string(), |said, (variable, value)| format!("{} {}={}", said, variable.name, value))
}

pub fn tallied(held: u64, failed: u64) -> String {
    format!("held {} failed {}", held, failed)
}

pub fn of(rule: &Rule) -> Answers {
    if let Some(node) = ranges::first_leaving(rule) {
        let said = refused(8, node as u64);
        return Answers { read: said.clone(), check: said.clone(), tally: said };
    }
    let read = "accepted".to_string();
    let count = cases::count(rule);
    if count > MOST_CASES {
        return Answers { read, check: refused(10, 0), tally: refused(10, 0) };
    }
    let outcome = cases::outcome(rule, 1);
    let check = outcome.failing.first().map_or("holds".to_string(), |case: &Case| failing(rule, case));
    Answers { read, check, tally: tallied(count - outcome.failed, outcome.failed) }
}
