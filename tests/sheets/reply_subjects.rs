// Sheets to which replies are put, with what is known of their cases.

use crate::failing::at;
use crate::few_cases::domains;
use crate::grower::Grower;
use crate::limits::{HIGH, LOW};
use crate::random::Random;
use crate::shapes::deep;
use crate::trees::*;

/// A sheet whose rule fails in one case alone, or in all but one.
pub struct Subject {
    pub sheet: Vec<u8>,
    pub domains: Vec<Range>,
    pub case: Vec<i64>,
}

impl Subject {
    pub fn fails_once(random: &mut Random, variables: usize) -> Subject {
        Subject::made(random, variables, |_, there| node(3, vec![there]))
    }

    pub fn holds_once(random: &mut Random, variables: usize) -> Subject {
        Subject::made(random, variables, |_, there| there)
    }

    /// One with exactly so many nodes of which the deepest alone decide; and whether it fails once.
    pub fn deep(random: &mut Random, variables: usize, nodes: usize) -> (Subject, bool) {
        let mut fails_once = false;
        let subject = Subject::made(random, variables, |random, there| {
            let (goal, opposite) = deep(random, there, nodes);
            fails_once = opposite;
            goal
        });
        (subject, fails_once)
    }

    fn made(random: &mut Random, variables: usize, goal: impl FnOnce(&mut Random, Tree) -> Tree) -> Subject {
        let most = random.pick(&[1, 6, 60, 600, 1_000_000]);
        let domains = domains(random, variables, most);
        let case: Vec<i64> = domains.iter().map(|domain| random.between(domain.0, domain.1)).collect();
        let there = if variables == 0 { node(1, Vec::new()) } else { at(random, &domains, &case) };
        let goal = goal(random, there);
        let sheet = Grower::with_domains(random, &domains).sheet(&Table::of(&goal));
        Subject { sheet, domains, case }
    }

    /// The case with this variable, and perhaps later ones, outside their domains.
    pub fn leaving(&self, random: &mut Random, variable: usize) -> Option<Vec<i64>> {
        let mut case = self.case.clone();
        case[variable] = outside(random, self.domains[variable])?;
        for later in variable + 1..case.len() {
            if random.one_in(2) {
                case[later] = random.between(LOW, HIGH);
            }
        }
        Some(case)
    }

    /// Another case of the domains, if there is one.
    pub fn other_case(&self, random: &mut Random) -> Option<Vec<i64>> {
        let moving = self.domains.iter().rposition(|domain| domain.0 < domain.1)?;
        let mut case: Vec<i64> = self.domains.iter().map(|x| random.between(x.0, x.1)).collect();
        if case == self.case {
            case[moving] =
                if case[moving] < self.domains[moving].1 { case[moving] + 1 } else { case[moving] - 1 };
        }
        Some(case)
    }
}

/// A number just below the domain, just above it, or anywhere else outside.
fn outside(random: &mut Random, (least, greatest): Range) -> Option<i64> {
    let any = random.between(LOW, HIGH);
    let chosen = [[least - 1, greatest + 1, any], [greatest + 1, least - 1, any]][random.below(2)];
    let chosen = if random.one_in(4) { [any, chosen[0], chosen[1]] } else { chosen };
    chosen.into_iter().find(|value| (LOW..=HIGH).contains(value) && !(least..=greatest).contains(value))
}
