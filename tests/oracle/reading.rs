// Reading a sheet: refusals 1 to 4, then the variables (5) and the goal's tree (6 to 8).

use crate::blocks;
use crate::limits::*;
use crate::trees::{self, Tree};
use crate::variables::{self, Variable};

#[derive(Clone, Copy)]
pub struct Refusal {
    pub number: u64,
    pub place: u64,
}

/// What an accepted sheet says.
pub struct Rule {
    pub variables: Vec<Variable>,
    pub goal: Tree,
}

pub fn read(sheet: &[u8]) -> Result<Rule, Refusal> {
    right_length(sheet)?;
    right_checks(sheet)?;
    right_edition(sheet)?;
    let (node_count, variable_count) = right_counts(sheet)?;
    zero_elsewhere(sheet, node_count, variable_count)?;
    let variables = variables::read(sheet, variable_count)?;
    let records: Vec<&[u8]> = (0..node_count).map(|node| &sheet[node_offset(node)..][..16]).collect();
    let goal = trees::read(&records, &variables)?;
    Ok(Rule { variables, goal })
}

pub fn refuse<T>(number: u64, place: usize) -> Result<T, Refusal> {
    Err(Refusal { number, place: place as u64 })
}

pub fn variable_offset(variable: usize) -> usize {
    8 + 24 * variable
}

fn node_offset(node: usize) -> usize {
    BLOCK * (1 + node / NODES_IN_BLOCK) + 16 * (node % NODES_IN_BLOCK)
}

fn right_length(sheet: &[u8]) -> Result<(), Refusal> {
    match (1..=MOST_BLOCKS).find(|blocks| blocks * BLOCK == sheet.len()) {
        Some(_) => Ok(()),
        None => refuse(1, 0),
    }
}

fn right_checks(sheet: &[u8]) -> Result<(), Refusal> {
    match (0..sheet.len() / BLOCK).find(|&k| blocks::content(sheet, k as u64).is_none()) {
        Some(k) => refuse(2, k),
        None => Ok(()),
    }
}

fn right_edition(sheet: &[u8]) -> Result<(), Refusal> {
    if sheet[..2] == [1, 0] {
        Ok(())
    } else {
        refuse(3, 0)
    }
}

/// N and V, where they and the length keep their rules.
fn right_counts(sheet: &[u8]) -> Result<(usize, usize), Refusal> {
    let node_count = usize::from(sheet[2]) + 256 * usize::from(sheet[3]);
    let variable_count = usize::from(sheet[4]);
    let fits = (1..=MOST_NODES).contains(&node_count) && variable_count <= MOST_VARIABLES;
    // The last node stands in the last block.
    if fits && node_offset(node_count - 1) / BLOCK + 1 == sheet.len() / BLOCK {
        Ok((node_count, variable_count))
    } else {
        refuse(4, 0)
    }
}

/// A sheet with nothing on it but the header, the checks and its own records must be this sheet.
fn zero_elsewhere(sheet: &[u8], node_count: usize, variable_count: usize) -> Result<(), Refusal> {
    let mut bare = vec![0; sheet.len()];
    let mut copy =
        |from: usize, length: usize| bare[from..from + length].copy_from_slice(&sheet[from..from + length]);
    copy(0, 5);
    (0..variable_count).for_each(|variable| copy(variable_offset(variable), 24));
    (0..node_count).for_each(|node| copy(node_offset(node), 16));
    (0..sheet.len() / BLOCK).for_each(|k| copy(BLOCK * k + CONTENT, BLOCK - CONTENT));
    if bare == sheet {
        Ok(())
    } else {
        refuse(4, 0)
    }
}
