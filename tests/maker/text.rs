// Reads a rule's plain text (document 02, item 4) that is right; of another it is told that it is off, but not where.

use crate::limits::MOST_NODES;
use crate::rule::{Kind, Rule, Sort, Tree, Variable, CONSTANT, VARIABLE, WORDS};

type Said<T> = Result<T, String>;

pub fn read(text: &str) -> Said<Rule> {
    let mut lines: Vec<&str> = text.lines().collect();
    let goal = lines.pop().ok_or("there is no goal")?;
    let variables = lines.into_iter().map(variable).collect::<Said<Vec<Variable>>>()?;
    let words: Vec<&str> = goal.split(' ').collect();
    match words.split_first() {
        // A word is a node, so that no goal is deeper than a sheet's can be.
        Some((&"goal", mut rest)) if rest.len() <= MOST_NODES => {
            let goal = operand(&variables, &mut rest, Sort::Truth)?;
            rest.is_empty().then_some(()).ok_or("words come after the end of the goal")?;
            Ok(Rule { variables, goal })
        }
        _ => Err("the last line is no goal of a sheet".to_string()),
    }
}

fn variable(line: &str) -> Said<Variable> {
    match line.split(' ').collect::<Vec<&str>>()[..] {
        ["var", name, least, greatest] => {
            Ok(Variable { name: name.to_string(), least: number(least)?, greatest: number(greatest)? })
        }
        _ => Err(format!("'{}' is no line of a variable", line)),
    }
}

fn number(word: &str) -> Said<i64> {
    word.parse::<i16>().map(i64::from).map_err(|_| format!("'{}' is no number and no name", word))
}

/// The tree at the front of the words, which must be of this sort.
fn operand(variables: &[Variable], rest: &mut &[&str], sort: Sort) -> Said<Tree> {
    let (&word, others) = rest.split_first().ok_or("the goal lacks an operand")?;
    *rest = others;
    let (kind, leaf) = meaning(variables, word)?;
    if kind.gives != sort {
        return Err(format!("'{}' is of the wrong type", word));
    }
    let mut operands = Vec::new();
    for &takes in kind.takes {
        operands.push(operand(variables, rest, takes)?);
    }
    Ok(Tree { kind, leaf, operands })
}

/// What a word of the goal stands for: its kind and its leaf.
fn meaning(variables: &[Variable], word: &str) -> Said<(&'static Kind, i64)> {
    if let Some(kind) = WORDS.iter().find(|kind| kind.word == word) {
        return Ok((kind, 0));
    }
    match variables.iter().position(|variable| variable.name == word) {
        Some(place) => Ok((&VARIABLE, place as i64)),
        None => Ok((&CONSTANT, number(word)?)),
    }
}
