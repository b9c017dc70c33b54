// Ways in which a script has been wrong before: each edit makes a right script wrong.

use crate::rule::{Rule, Variable};

pub struct Edit {
    pub name: &'static str,
    /// The edited script, where it must be noticed that the edit makes it wrong.
    pub make: fn(&Rule, &str) -> Option<String>,
    /// Whether any model shows it; if not, that there are other models than failing cases shows it.
    pub in_models: bool,
}

pub const ALL: [Edit; 4] = [
    Edit { name: "a goal that is not negated", make: not_negated, in_models: true },
    Edit { name: "no range line for a variable that is not read", make: no_range_line, in_models: false },
    Edit { name: "bvule for bvsle in the goal", make: unsigned_goal, in_models: false },
    Edit { name: "bvule for bvsle in a range line", make: unsigned_range, in_models: true },
];

/// The script with one line made another, unless that line isn't what the edit takes it for.
fn with_line(script: &str, number: usize, change: fn(&str) -> Option<String>) -> Option<String> {
    let mut lines: Vec<String> = script.lines().map(|line| line.to_string() + "\n").collect();
    let changed = change(lines[number].trim_end()).filter(|line| *line != lines[number])?;
    lines[number] = changed;
    Some(lines.concat())
}

fn goal_in(line: &str) -> Option<&str> {
    line.strip_prefix("(assert (not ")?.strip_suffix("))")
}

fn range_in(line: &str) -> Option<&str> {
    line.strip_prefix("(assert (and ")?.strip_suffix("))")
}

/// The logic, the declarations and the range lines come before the goal.
fn goal_line(rule: &Rule) -> usize {
    1 + 2 * rule.variables.len()
}

fn range_line(rule: &Rule, variable: usize) -> usize {
    1 + rule.variables.len() + variable
}

fn has_zero_inside(variable: &Variable) -> bool {
    variable.least < 0 && variable.greatest >= 0
}

/// The one failing case that is left is then no setting's.
fn not_negated(rule: &Rule, script: &str) -> Option<String> {
    with_line(script, goal_line(rule), |line| Some(format!("(assert {})\n", goal_in(line)?)))
}

/// Settings then outnumber failing cases.
fn no_range_line(rule: &Rule, script: &str) -> Option<String> {
    let unread = (0..rule.variables.len()).find(|&variable| !rule.goal.reads(variable))?;
    with_line(script, range_line(rule, unread), |line| range_in(line).map(|_| String::new()))
}

/// Whether a variable about zero is at most zero: -1 is then past all positive numbers.
fn unsigned_goal(rule: &Rule, script: &str) -> Option<String> {
    let (kind, operands) = (rule.goal.kind.word, &rule.goal.operands);
    let compares = kind == "le" && operands[0].kind.number == 17 && operands[1].kind.number == 16;
    if !compares || operands[1].leaf != 0 || !has_zero_inside(&rule.variables[operands[0].leaf as usize]) {
        return None;
    }
    with_line(script, goal_line(rule), |line| {
        Some(format!("(assert (not {}))\n", goal_in(line)?.replace("bvsle", "bvule")))
    })
}

/// No number is then in the range.
fn unsigned_range(rule: &Rule, script: &str) -> Option<String> {
    let about_zero = rule.variables.iter().position(has_zero_inside)?;
    with_line(script, range_line(rule, about_zero), |line| {
        Some(format!("(assert (and {}))\n", range_in(line)?.replace("bvsle", "bvule")))
    })
}
