// An ordinary evaluator, as one would write it in Rust: the sheet decoded to a tree, the tree evaluated by
// recursion in one case after the other. It takes the sheet to be right.

use crate::layout::*;

enum Formula {
    True,
    False,
    Not(Box<Formula>),
    And(Box<Formula>, Box<Formula>),
    Or(Box<Formula>, Box<Formula>),
    Implies(Box<Formula>, Box<Formula>),
    Iff(Box<Formula>, Box<Formula>),
    Equal(Box<Term>, Box<Term>),
    Less(Box<Term>, Box<Term>),
    AtMost(Box<Term>, Box<Term>),
}

enum Term {
    Constant(i32),
    Variable(usize),
    Minus(Box<Term>),
    Sum(Box<Term>, Box<Term>),
    Difference(Box<Term>, Box<Term>),
    Product(Box<Term>, Box<Term>),
    Choice(Box<Formula>, Box<Term>, Box<Term>),
}

impl Formula {
    fn holds(&self, case: &[i32]) -> bool {
        match self {
            Formula::True => true,
            Formula::False => false,
            Formula::Not(a) => !a.holds(case),
            Formula::And(a, b) => a.holds(case) && b.holds(case),
            Formula::Or(a, b) => a.holds(case) || b.holds(case),
            Formula::Implies(a, b) => !a.holds(case) || b.holds(case),
            Formula::Iff(a, b) => a.holds(case) == b.holds(case),
            Formula::Equal(a, b) => a.value(case) == b.value(case),
            Formula::Less(a, b) => a.value(case) < b.value(case),
            Formula::AtMost(a, b) => a.value(case) <= b.value(case),
        }
    }
}

impl Term {
    fn value(&self, case: &[i32]) -> i32 {
        match self {
            Term::Constant(value) => *value,
            Term::Variable(number) => case[*number],
            Term::Minus(a) => -a.value(case),
            Term::Sum(a, b) => a.value(case) + b.value(case),
            Term::Difference(a, b) => a.value(case) - b.value(case),
            Term::Product(a, b) => a.value(case) * b.value(case),
            Term::Choice(a, b, c) => {
                if a.holds(case) {
                    b.value(case)
                } else {
                    c.value(case)
                }
            }
        }
    }
}

fn i16_at(sheet: &[u8], at: usize) -> i32 {
    i32::from(number_at(sheet, at) as i16)
}

fn goal(sheet: &[u8]) -> Formula {
    let (mut formulas, mut terms): (Vec<Formula>, Vec<Term>) = (Vec::new(), Vec::new());
    for number in 0..node_count(sheet) {
        let at = node_at(number);
        // The last operand was pushed last.
        let mut f = || Box::new(formulas.pop().expect("a formula"));
        let mut t = || Box::new(terms.pop().expect("a term"));
        let formula = match sheet[at] {
            1 => Formula::True,
            2 => Formula::False,
            3 => Formula::Not(f()),
            4 => turned(f(), f(), Formula::And),
            5 => turned(f(), f(), Formula::Or),
            6 => turned(f(), f(), Formula::Implies),
            7 => turned(f(), f(), Formula::Iff),
            8 => turned(t(), t(), Formula::Equal),
            9 => turned(t(), t(), Formula::Less),
            10 => turned(t(), t(), Formula::AtMost),
            kind => {
                let term = match kind {
                    16 => Term::Constant(i16_at(sheet, at + VALUE)),
                    17 => Term::Variable(number_at(sheet, at + FIELDS).into()),
                    18 => Term::Minus(t()),
                    19 => turned(t(), t(), Term::Sum),
                    20 => turned(t(), t(), Term::Difference),
                    21 => turned(t(), t(), Term::Product),
                    _ => {
                        let (c, b) = (t(), t());
                        Term::Choice(f(), b, c)
                    }
                };
                terms.push(term);
                continue;
            }
        };
        formulas.push(formula);
    }
    formulas.pop().expect("a goal")
}

fn turned<A, B>(last: Box<A>, first: Box<A>, make: fn(Box<A>, Box<A>) -> B) -> B {
    make(first, last)
}

/// A goal, and the ends of the variables' domains.
pub struct Rule {
    goal: Formula,
    ends: Vec<(i32, i32)>,
}

pub fn decoded(sheet: &[u8]) -> Rule {
    let ends = (0..usize::from(sheet[VARIABLE_COUNT]))
        .map(variable_at)
        .map(|at| (i16_at(sheet, at + LEAST), i16_at(sheet, at + GREATEST)))
        .collect();
    Rule { goal: goal(sheet), ends }
}

impl Rule {
    pub fn first_failing(&self) -> Option<Vec<i32>> {
        let ends = &self.ends;
        let mut case: Vec<i32> = ends.iter().map(|end| end.0).collect();
        loop {
            if !self.goal.holds(&case) {
                return Some(case);
            }
            let moving = (0..case.len()).rev().find(|&variable| case[variable] < ends[variable].1)?;
            case[moving] += 1;
            (moving + 1..case.len()).for_each(|variable| case[variable] = ends[variable].0);
        }
    }
}
