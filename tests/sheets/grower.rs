// Variables and trees at random, right in every respect.

use crate::layout::{lay_out, variable_record, VariableRecord};
use crate::limits::{LONGEST_NAME, MOST_NODES, MOST_VARIABLES};
use crate::plain::is_word;
use crate::random::Random;
use crate::trees::*;

const LETTERS: &[u8] = b"ABCDEFGHIJKLMNOPQRSTUVWXYZabcdefghijklmnopqrstuvwxyz";
const LATER: &[u8] = b"ABCDEFGHIJKLMNOPQRSTUVWXYZabcdefghijklmnopqrstuvwxyz0123456789_";

pub struct Variable {
    pub domain: Range,
    pub name: Vec<u8>,
}

impl Variable {
    pub fn record(&self) -> VariableRecord {
        variable_record(self.domain.0, self.domain.1, &self.name)
    }
}

pub struct Grower<'r> {
    pub random: &'r mut Random,
    pub variables: Vec<Variable>,
    /// Numbers are kept near zero, so that deep arithmetic fits.
    small: bool,
}

impl<'r> Grower<'r> {
    pub fn new(random: &'r mut Random, variables: usize) -> Grower<'r> {
        let small = random.one_in(2);
        let mut grower = Grower { random, variables: Vec::new(), small };
        for _ in 0..variables {
            let domain = grower.domain();
            grower.add_variable(domain);
        }
        grower
    }

    /// With variables of these domains.
    pub fn with_domains(random: &'r mut Random, domains: &[Range]) -> Grower<'r> {
        let small = domains.iter().all(|domain| domain.0 > -100 && domain.1 < 100);
        let mut grower = Grower { random, variables: Vec::new(), small };
        domains.iter().for_each(|&domain| {
            grower.add_variable(domain);
        });
        grower
    }

    /// With any number of variables.
    pub fn any(random: &'r mut Random) -> Grower<'r> {
        let variables = random.below(MOST_VARIABLES + 1);
        Grower::new(random, variables)
    }

    pub fn add_variable(&mut self, domain: Range) -> usize {
        let length = match self.random.below(4) {
            0 => 1,
            1 => LONGEST_NAME,
            _ => 1 + self.random.below(LONGEST_NAME),
        };
        let name = self.name(length);
        self.variables.push(Variable { domain, name });
        self.variables.len() - 1
    }

    /// A name that no variable has yet, and no word of a text; often one that is nearly another's.
    fn name(&mut self, length: usize) -> Vec<u8> {
        let near = !self.variables.is_empty() && self.random.one_in(3);
        let name = if near { self.near_name() } else { self.fresh_name(length) };
        if self.is_taken(&name) {
            self.fresh_name(length)
        } else {
            name
        }
    }

    fn is_taken(&self, name: &[u8]) -> bool {
        is_word(name) || self.variables.iter().any(|variable| variable.name == name)
    }

    /// A name of exactly this length that no variable has yet.
    pub fn fresh_name(&mut self, length: usize) -> Vec<u8> {
        loop {
            let mut name = vec![self.random.pick(LETTERS)];
            name.extend((1..length).map(|_| self.random.pick(LATER)));
            if !self.is_taken(&name) {
                return name;
            }
        }
    }

    /// Another variable's name with one character more, or in the other case.
    fn near_name(&mut self) -> Vec<u8> {
        let other = self.random.below(self.variables.len());
        let mut name = self.variables[other].name.clone();
        if name.len() < LONGEST_NAME && self.random.one_in(2) {
            name.push(self.random.pick(LATER));
        } else {
            name[0] ^= 0x20;
        }
        name
    }

    fn domain(&mut self) -> Range {
        let (low, high) = if self.small { (-5, 5) } else { (LOW, HIGH) };
        let (x, y) = (self.random.between(low, high), self.random.between(low, high));
        match self.random.below(6) {
            0 => (x, x),
            1 => (0, 1),
            2 => (low, high),
            3 => (low, x),
            4 => (x, high),
            _ => (x.min(y), x.max(y)),
        }
    }

    pub fn of_sort(&mut self, sort: Sort, size: usize) -> Tree {
        match sort {
            Truth => self.truth(size),
            Integer => self.integer(size),
        }
    }

    /// A truth value of exactly this many nodes.
    pub fn truth(&mut self, size: usize) -> Tree {
        let kind = match size {
            1 => self.random.pick(&[1, 2]),
            2 => 3,
            _ => self.random.pick(&[3, 4, 5, 6, 7, 8, 9, 10]),
        };
        self.of_kind(kind, size)
    }

    /// An integer of exactly this many nodes.
    pub fn integer(&mut self, size: usize) -> Tree {
        let kind = match size {
            1 => self.random.pick(&[CONSTANT, VARIABLE]),
            2 => MINUS,
            3 => self.random.pick(&[MINUS, SUM, DIFFERENCE, PRODUCT]),
            _ => self.random.pick(&[MINUS, SUM, DIFFERENCE, PRODUCT, CHOICE]),
        };
        self.of_kind(kind, size)
    }

    /// A tree of exactly this many nodes whose last node has this kind (without variables, a constant
    /// stands for a variable).
    pub fn of_kind(&mut self, kind: u8, size: usize) -> Tree {
        match kind {
            VARIABLE if !self.variables.is_empty() => self.variable(),
            CONSTANT | VARIABLE => constant(self.value()),
            _ => {
                let operands = self.operands(kind, size);
                self.fitted(kind, operands)
            }
        }
    }

    /// Operands of the right sorts that, with the node over them, take this many nodes.
    pub fn operands(&mut self, kind: u8, size: usize) -> Vec<Tree> {
        let sorts = operand_sorts(kind);
        if sorts.is_empty() {
            return Vec::new();
        }
        let sizes = self.random.split(size - 1, sorts.len());
        sorts.iter().zip(sizes).map(|(&sort, size)| self.of_sort(sort, size)).collect()
    }

    /// The node over these operands; the last one gives way to zero if the range would not fit.
    pub fn fitted(&mut self, kind: u8, mut operands: Vec<Tree>) -> Tree {
        if !fits(range_of(kind, &operands)) {
            let size = operands.pop().map_or(1, |last| last.size());
            operands.push(self.zero(size));
        }
        node(kind, operands)
    }

    /// A tree of this many nodes whose value is always 0.
    pub fn zero(&mut self, size: usize) -> Tree {
        (1..size).fold(constant(0), |tree, _| node(MINUS, vec![tree]))
    }

    fn variable(&mut self) -> Tree {
        let number = self.random.below(self.variables.len());
        variable(number, self.variables[number].domain)
    }

    pub fn value(&mut self) -> i64 {
        match self.random.below(6) {
            0 if !self.small => LOW,
            1 if !self.small => HIGH,
            2 if !self.small => self.random.between(LOW, HIGH),
            _ => self.random.between(-5, 5),
        }
    }

    /// An integer with exactly this range: a constant, a variable, or a choice between the ends.
    pub fn with_range(&mut self, range: Range) -> Tree {
        if range.0 == range.1 && !self.random.one_in(4) {
            return constant(range.0);
        }
        if self.variables.len() < MOST_VARIABLES && self.random.one_in(2) {
            return variable(self.add_variable(range), range);
        }
        let (x, y) = if self.random.one_in(2) { (range.0, range.1) } else { (range.1, range.0) };
        let size = 1 + self.random.below(3);
        node(CHOICE, vec![self.truth(size), constant(x), constant(y)])
    }

    /// A goal of at most this many nodes that has the tree in it. An integer leaves 2 nodes for that.
    pub fn around(&mut self, mut tree: Tree, most: usize) -> Tree {
        loop {
            let spare = most - tree.size();
            let enough = spare < 5 || self.random.one_in(4);
            match tree.sort() {
                Truth if enough => return tree,
                Truth => tree = self.around_truth(tree, spare),
                Integer if enough => tree = self.compared(tree, spare),
                Integer => tree = self.around_integer(tree, spare),
            }
        }
    }

    fn around_truth(&mut self, tree: Tree, spare: usize) -> Tree {
        match self.random.below(6) {
            0 => node(3, vec![tree]),
            1 => self.chosen(tree, 0),
            _ => {
                let size = self.size_within(spare - 1);
                let other = self.truth(size);
                let kind = self.random.pick(&[4, 5, 6, 7]);
                self.either_way(kind, tree, other)
            }
        }
    }

    fn around_integer(&mut self, tree: Tree, spare: usize) -> Tree {
        match self.random.below(4) {
            0 => {
                let branch = 1 + self.random.below(2);
                self.chosen(tree, branch)
            }
            1 => {
                let zero = self.zero(1);
                self.either_way(SUM, tree, zero)
            }
            _ => self.compared(tree, spare),
        }
    }

    fn compared(&mut self, tree: Tree, spare: usize) -> Tree {
        let size = self.size_within(spare - 1);
        let other = self.integer(size);
        let kind = self.random.pick(&[8, 9, 10]);
        self.either_way(kind, tree, other)
    }

    fn size_within(&mut self, most: usize) -> usize {
        let usual = self.random.pick(&[5, 40, MOST_NODES]);
        1 + self.random.below(most.min(usual))
    }

    /// The tree as the operand at this position of a choice, the other operands being leaves.
    fn chosen(&mut self, tree: Tree, position: usize) -> Tree {
        let mut operands = self.operands(CHOICE, 4);
        operands[position] = tree;
        node(CHOICE, operands)
    }

    fn either_way(&mut self, kind: u8, one: Tree, other: Tree) -> Tree {
        node(kind, if self.random.one_in(2) { vec![one, other] } else { vec![other, one] })
    }

    /// Around this tree, of any size that a sheet can have, small ones being the most usual.
    pub fn goal_with(&mut self, tree: Tree) -> Tree {
        let least = tree.size() + 2;
        let most = least + any_size(self.random) * (MOST_NODES - least) / MOST_NODES;
        self.around(tree, most)
    }

    pub fn variable_records(&self) -> Vec<VariableRecord> {
        self.variables.iter().map(Variable::record).collect()
    }

    pub fn sheet(&self, table: &Table) -> Vec<u8> {
        lay_out(&self.variable_records(), &table.records)
    }
}

/// A number of nodes; small ones are the most usual, since large ones take long.
pub fn any_size(random: &mut Random) -> usize {
    let usual = random.pick(&[6, 6, 12, 31, 31, 62, MOST_NODES / 8]);
    let most = if random.one_in(40) { MOST_NODES } else { usual };
    1 + random.below(most)
}

/// An accepted sheet with exactly these counts.
pub fn accepted(random: &mut Random, nodes: usize, variables: usize) -> Vec<u8> {
    let mut grower = Grower::new(random, variables);
    let goal = grower.truth(nodes);
    grower.sheet(&Table::of(&goal))
}

pub fn any_accepted(random: &mut Random) -> Vec<u8> {
    let variables = random.below(MOST_VARIABLES + 1);
    let nodes = any_size(random);
    accepted(random, nodes, variables)
}
