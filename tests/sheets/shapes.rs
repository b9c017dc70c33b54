// Trees of every shape, of exactly so many nodes: chains through each operand of each kind (of two operands that is a
// comb to the left or to the right), chains of all these mixed, balanced trees, and deep ones around another tree.

use crate::grower::Grower;
use crate::limits::MOST_NODES;
use crate::random::Random;
use crate::trees::*;

/// A kind, and the operand through which a chain goes.
pub type Link = (u8, usize);

/// Each kind with each of its operands.
pub fn links() -> Vec<Link> {
    KINDS
        .iter()
        .flat_map(|&kind| (0..operand_sorts(kind).len()).map(move |operand| (kind, operand)))
        .collect()
}

/// Domains so near zero that no sum of a sheet's leaves leaves 16 bits, and no product grows.
pub const DOMAINS: [Range; 4] = [(0, 1), (-1, 0), (-1, 1), (1, 1)];

/// A truth value of exactly so many nodes: links that are picked from these, one over the other, and above them as many
/// truth values as are missing.
pub fn chain(grower: &mut Grower, links: &[Link], nodes: usize) -> Tree {
    let bottom = bottom(grower, operand_sorts(links[0].0)[links[0].1]);
    // Each adds a node, so these are enough.
    let picked: Vec<Link> = (0..nodes).map(|_| grower.random.pick(links)).collect();
    linked(bottom, picked.into_iter(), nodes, |sort| leaf(grower, sort))
}

/// As many of these links over a tree as go into so many nodes, with leaves for the other operands.
pub fn linked(
    bottom: Tree,
    links: impl Iterator<Item = Link>,
    nodes: usize,
    mut leaf: impl FnMut(Sort) -> Tree,
) -> Tree {
    let mut size = bottom.size();
    let mut tree = bottom;
    for link in links {
        let mut next = between(tree.sort(), operand_sorts(link.0)[link.1]);
        next.push(link);
        if size + added(&next) + added(&between(gives(link.0), Truth)) > nodes {
            break;
        }
        size += added(&next);
        tree = next.into_iter().fold(tree, |tree, link| over(link, tree, &mut leaf));
    }
    let last = between(tree.sort(), Truth);
    size += added(&last);
    let tree = last.into_iter().fold(tree, |tree, link| over(link, tree, &mut leaf));
    (size..nodes).fold(tree, |tree, _| node(3, vec![tree]))
}

/// A leaf, but for a truth value whether a variable has its least value, so that the chain's can depend on the case.
fn bottom(grower: &mut Grower, sort: Sort) -> Tree {
    if sort == Integer || grower.variables.is_empty() {
        return leaf(grower, sort);
    }
    let x = some_variable(grower);
    let least = constant(x.range.0);
    node(10, vec![x, least])
}

fn some_variable(grower: &mut Grower) -> Tree {
    let number = grower.random.below(grower.variables.len());
    variable(number, grower.variables[number].domain)
}

/// What a tree of one sort goes into first, to be an operand of another: a comparison or a choice.
fn between(sort: Sort, wanted: Sort) -> Vec<Link> {
    match (sort, wanted) {
        (Integer, Truth) => vec![(10, 0)],
        (Truth, Integer) => vec![(CHOICE, 0)],
        _ => Vec::new(),
    }
}

/// How many nodes these add: each its own, and a leaf for each operand but the chain's.
fn added(links: &[Link]) -> usize {
    links.iter().map(|link| operand_sorts(link.0).len()).sum()
}

/// A node over leaves, but for one operand.
fn over((kind, operand): Link, tree: Tree, leaf: &mut impl FnMut(Sort) -> Tree) -> Tree {
    let mut operands: Vec<Tree> = operand_sorts(kind).iter().map(|&sort| leaf(sort)).collect();
    operands[operand] = tree;
    node(kind, operands)
}

/// Of a product too the range stays near zero: no leaf is over 1.
fn leaf(grower: &mut Grower, sort: Sort) -> Tree {
    match sort {
        Truth => node(grower.random.pick(&[1, 2]), Vec::new()),
        Integer if grower.variables.is_empty() || grower.random.one_in(3) => {
            constant(grower.random.between(-1, 1))
        }
        Integer => some_variable(grower),
    }
}

/// This truth value under nodes that leave its value as it is, exactly so many in all; and whether it is the opposite,
/// which has the one node more that an odd number takes.
pub fn deep(random: &mut Random, tree: Tree, nodes: usize) -> (Tree, bool) {
    let opposite = (nodes - tree.size()) % 2 == 1;
    let tree = if opposite { node(3, vec![tree]) } else { tree };
    ((0..(nodes - tree.size()) / 2).fold(tree, |tree, _| unchanged(random, tree)), opposite)
}

/// Under two nodes more.
fn unchanged(random: &mut Random, tree: Tree) -> Tree {
    let [holds, fails] = [1, 2].map(|kind| node(kind, Vec::new()));
    match random.below(8) {
        0 => node(3, vec![node(3, vec![tree])]),
        1 => node(4, vec![tree, holds]),
        2 => node(4, vec![holds, tree]),
        3 => node(5, vec![tree, fails]),
        4 => node(5, vec![fails, tree]),
        5 => node(6, vec![holds, tree]),
        6 => node(7, vec![tree, holds]),
        _ => node(7, vec![holds, tree]),
    }
}

/// Sizes of deep rules: the edges of a byte, and the most nodes.
pub const DEEP: [usize; 7] = [255, 256, 257, 512, 1_024, MOST_NODES - 1, MOST_NODES];

/// A truth value of exactly so many nodes: the operands of each node share what is under it. This kind stands wherever
/// its sort is wanted and there are nodes enough.
pub fn balanced(grower: &mut Grower, kind: u8, nodes: usize) -> Tree {
    shared_out(grower, kind, Truth, nodes)
}

fn shared_out(grower: &mut Grower, favourite: u8, sort: Sort, nodes: usize) -> Tree {
    let kind = match (sort, nodes) {
        (_, 1) => return leaf(grower, sort),
        (Truth, 2) => 3,
        (Integer, 2) => MINUS,
        _ if gives(favourite) == sort && nodes > operand_sorts(favourite).len() => favourite,
        (Truth, _) => grower.random.pick(&[8, 9, 10]),
        (Integer, 3) => SUM,
        (Integer, _) => CHOICE,
    };
    let sorts = operand_sorts(kind);
    let share = |i: usize| (nodes - 1 + i) / sorts.len();
    let operands = sorts.iter().enumerate().map(|(i, &sort)| shared_out(grower, favourite, sort, share(i)));
    let operands = operands.collect();
    node(kind, operands)
}
