// The range of each number of a goal, by the ends of its operands' ranges.

use crate::limits::{HIGH, LOW};
use crate::rule::{Rule, Sort, Tree};

/// The number of the first node whose range leaves 16 bits.
pub fn first_leaving(rule: &Rule) -> Option<usize> {
    let mut nodes = 0;
    range(rule, &rule.goal, &mut nodes).err()
}

/// The least and the greatest of a tree, or the node that leaves; `nodes` counts those gone through. A truth
/// value's range is not looked at.
fn range(rule: &Rule, tree: &Tree, nodes: &mut usize) -> Result<(i64, i64), usize> {
    let mut of = Vec::new();
    for operand in &tree.operands {
        of.push(range(rule, operand, nodes)?);
    }
    let own = ends(rule, tree, &of);
    let (least, greatest) = (own.iter().min(), own.iter().max());
    let node = *nodes;
    *nodes += 1;
    match (least, greatest) {
        (Some(&least), Some(&greatest)) if least < LOW || greatest > HIGH => Err(node),
        (Some(&least), Some(&greatest)) => Ok((least, greatest)),
        _ => Ok((0, 0)),
    }
}

/// Values among which the least and the greatest are the range's ends; none for a truth value.
fn ends(rule: &Rule, tree: &Tree, of: &[(i64, i64)]) -> Vec<i64> {
    let both = |work: fn(i64, i64) -> i64| {
        let (a, b) = (of[0], of[1]);
        vec![work(a.0, b.0), work(a.0, b.1), work(a.1, b.0), work(a.1, b.1)]
    };
    match tree.kind.number {
        _ if tree.kind.gives == Sort::Truth => Vec::new(),
        16 => vec![tree.leaf],
        17 => {
            let variable = &rule.variables[tree.leaf as usize];
            vec![variable.least, variable.greatest]
        }
        18 => vec![-of[0].0, -of[0].1],
        19 => both(|a, b| a + b),
        20 => both(|a, b| a - b),
        21 => both(|a, b| a * b),
        _ => vec![of[1].0, of[1].1, of[2].0, of[2].1],
    }
}
