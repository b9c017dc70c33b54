// The script of an accepted sheet (document 01, "Node kinds and their script text", "The script"), and its second
// form (document 02, item 1).

use crate::reading::Rule;
use crate::trees::Tree;

/// The script that asks for a verdict alone.
pub fn script(rule: &Rule) -> String {
    lines(rule).iter().map(|line| line.to_string() + "\n").collect()
}

/// The script that asks for the variables' values too.
pub fn asking(rule: &Rule) -> String {
    let mut lines = lines(rule);
    let symbols: Vec<String> = (0..rule.variables.len()).map(symbol).collect();
    if !symbols.is_empty() {
        lines.insert(lines.len() - 1, format!("(get-value ({}))", symbols.join(" ")));
    }
    lines.insert(0, "(set-option :produce-models true)".to_string());
    lines.iter().map(|line| line.to_string() + "\n").collect()
}

fn lines(rule: &Rule) -> Vec<String> {
    let numbered = || rule.variables.iter().enumerate();
    let declared = numbered().map(|(number, _)| format!("(declare-fun {} () (_ BitVec 16))", symbol(number)));
    let ranges = numbered().map(|(number, variable)| {
        let (least, greatest) = (literal(variable.least), literal(variable.greatest));
        format!("(assert (and (bvsle {0} {1}) (bvsle {1} {2})))", least, symbol(number), greatest)
    });
    let goal = format!("(assert (not {}))", term(&rule.goal));
    let first = ["(set-logic QF_UFBV)".to_string()];
    let last = [goal, "(check-sat)".to_string(), "(exit)".to_string()];
    first.into_iter().chain(declared).chain(ranges).chain(last).collect()
}

fn symbol(number: usize) -> String {
    format!("v{}", number)
}

fn literal(value: i64) -> String {
    format!("#x{:04x}", value as i16)
}

fn term(tree: &Tree) -> String {
    let mut text = String::new();
    add_term(tree, &mut text);
    text
}

/// Adds to one text, so that a deep tree takes no longer than a broad one.
fn add_term(tree: &Tree, text: &mut String) {
    match tree.kind {
        1 => text.push_str("true"),
        2 => text.push_str("false"),
        16 => text.push_str(&literal(tree.leaf)),
        17 => text.push_str(&symbol(tree.leaf as usize)),
        kind => {
            text.push_str(&format!("({}", operator(kind)));
            for operand in &tree.operands {
                text.push(' ');
                add_term(operand, text);
            }
            text.push(')');
        }
    }
}

fn operator(kind: u8) -> &'static str {
    match kind {
        3 => "not",
        4 => "and",
        5 => "or",
        6 => "=>",
        7 | 8 => "=",
        9 => "bvslt",
        10 => "bvsle",
        18 => "bvneg",
        19 => "bvadd",
        20 => "bvsub",
        21 => "bvmul",
        22 => "ite",
        _ => unreachable!("kind {} has no operator", kind),
    }
}
