// Node records to the goal's tree (refusals 6 to 8). "Operands first" is postfix order: the trees that
// no later node has taken yet stand in a row, and a node takes as many from the row's end as it has
// operands; each tree of the row begins just after the one before it.

use crate::limits::{HIGH, LOW};
use crate::reading::{refuse, Refusal};
use crate::variables::Variable;

#[derive(Clone, Copy, PartialEq)]
pub enum Sort {
    Truth,
    Integer,
}

#[derive(Clone, Copy, PartialEq)]
pub struct Range {
    pub least: i64,
    pub greatest: i64,
}

pub enum Finding {
    Truth,
    Integer(Range),
}

pub struct Tree {
    pub node: usize,
    pub kind: u8,
    /// A constant's value or a variable's number.
    pub leaf: i64,
    pub operands: Vec<Tree>,
    pub finding: Finding,
}

impl Tree {
    fn sort(&self) -> Sort {
        match self.finding {
            Finding::Truth => Sort::Truth,
            Finding::Integer(_) => Sort::Integer,
        }
    }

    /// The range of an integer; of a truth value none is ever asked.
    fn range(&self) -> Range {
        match self.finding {
            Finding::Truth => unreachable!("a truth value has no range"),
            Finding::Integer(range) => range,
        }
    }
}

/// The goal's tree.
pub fn read(records: &[&[u8]], variables: &[Variable]) -> Result<Tree, Refusal> {
    let mut row: Vec<Tree> = Vec::new();
    for (node, record) in records.iter().enumerate() {
        match tree(node, record, &mut row, variables) {
            Ok(tree) => row.push(tree),
            Err(number) => return refuse(number, node),
        }
    }
    match row.pop() {
        Some(goal) if !row.is_empty() => refuse(6, goal.node),
        Some(goal) if goal.sort() != Sort::Truth => refuse(7, goal.node),
        Some(goal) => Ok(goal),
        None => unreachable!("a sheet without nodes got past refusal 4"),
    }
}

/// The tree whose last node is this one, with operands taken from the row, or the refusal's number.
fn tree(node: usize, record: &[u8], row: &mut Vec<Tree>, variables: &[Variable]) -> Result<Tree, u64> {
    let kind = record[0];
    let sorts = operand_sorts(kind).ok_or(6u64)?;
    let first = row.len().checked_sub(sorts.len()).ok_or(6u64)?;
    let operands = row.split_off(first);
    let variable = usize::from(record[2]) + 256 * usize::from(record[3]);
    if record != right_record(record, &operands) || kind == 17 && variable >= variables.len() {
        return Err(6);
    }
    if operands.iter().zip(sorts).any(|(operand, &sort)| operand.sort() != sort) {
        return Err(7);
    }
    let value = i64::from(i16::from_le_bytes([record[8], record[9]]));
    let leaf = if kind == 17 { variable as i64 } else { value };
    let finding = if kind <= 10 {
        Finding::Truth
    } else {
        let own = if kind == 17 { domain(&variables[variable]) } else { only(value) };
        let ranges: Vec<Range> =
            operands.iter().filter(|x| x.sort() == Sort::Integer).map(Tree::range).collect();
        Finding::Integer(fitting(range(kind, own, &ranges)).ok_or(8u64)?)
    };
    Ok(Tree { node, kind, leaf, operands, finding })
}

/// What each operand must be, in the order a, b, c; none for a byte that is no kind.
fn operand_sorts(kind: u8) -> Option<&'static [Sort]> {
    use Sort::{Integer, Truth};
    match kind {
        1 | 2 | 16 | 17 => Some(&[]),
        3 => Some(&[Truth]),
        4 | 5 | 6 | 7 => Some(&[Truth, Truth]),
        8 | 9 | 10 | 19 | 20 | 21 => Some(&[Integer, Integer]),
        18 => Some(&[Integer]),
        22 => Some(&[Truth, Integer, Integer]),
        _ => None,
    }
}

/// The record of the same kind that points at these operands, keeps the field that is its own (a
/// constant's value, a variable's number) and has zero in every other byte.
fn right_record(record: &[u8], operands: &[Tree]) -> Vec<u8> {
    let mut right = vec![0; 16];
    right[0] = record[0];
    for (field, operand) in right[2..8].chunks_exact_mut(2).zip(operands) {
        field.copy_from_slice(&(operand.node as u16).to_le_bytes());
    }
    match record[0] {
        16 => right[8..10].copy_from_slice(&record[8..10]),
        17 => right[2..4].copy_from_slice(&record[2..4]),
        _ => {}
    }
    right
}

fn only(value: i64) -> Range {
    Range { least: value, greatest: value }
}

fn domain(variable: &Variable) -> Range {
    Range { least: variable.least, greatest: variable.greatest }
}

/// The range of an integer node: `own` is a leaf's, the others come from the integer operands' ranges.
fn range(kind: u8, own: Range, operands: &[Range]) -> Range {
    match (kind, operands) {
        (16 | 17, []) => own,
        (18, [a]) => span([-a.least, -a.greatest]),
        (19, [a, b]) => span([a.least + b.least, a.greatest + b.greatest]),
        (20, [a, b]) => span([a.least - b.greatest, a.greatest - b.least]),
        (21, [a, b]) => {
            span([a.least * b.least, a.least * b.greatest, a.greatest * b.least, a.greatest * b.greatest])
        }
        (22, [b, c]) => span([b.least, b.greatest, c.least, c.greatest]),
        _ => unreachable!("kind {} with {} integer operands", kind, operands.len()),
    }
}

/// From the least to the greatest of these.
fn span<const COUNT: usize>(values: [i64; COUNT]) -> Range {
    let fold = |pick: fn(i64, i64) -> i64| values.iter().copied().fold(values[0], pick);
    Range { least: fold(i64::min), greatest: fold(i64::max) }
}

fn fitting(range: Range) -> Option<Range> {
    (range.least >= LOW && range.greatest <= HIGH).then_some(range)
}
