// Rules that hold in every case and are as deep as can be, of any even number of nodes.

use crate::rules::*;

/// Not over not, over false.
pub fn chain(nodes: usize) -> Tree {
    (1..nodes).fold(node(2, vec![]), |below, _| node(3, vec![below]))
}

/// A sum of sums, each the first operand of the next.
pub fn left_comb(nodes: usize) -> Tree {
    bounded(nodes, |below, number| vec![below, variable(number)])
}

/// A sum of sums, each the second operand of the next.
pub fn right_comb(nodes: usize) -> Tree {
    bounded(nodes, |below, number| vec![variable(number), below])
}

/// That a sum's minus is at most the greatest number.
fn bounded(nodes: usize, operands: fn(Tree, usize) -> Vec<Tree>) -> Tree {
    let sums = (nodes - 4) / 2;
    let sum = (1..=sums).fold(variable(0), |below, number| node(19, operands(below, number)));
    node(10, vec![node(18, vec![sum]), constant(i16::MAX)])
}
