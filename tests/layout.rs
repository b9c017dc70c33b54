// Laying a sheet out in blocks, with their checks: what all writers of sheets have in common, the tests' sheets,
// the maker and the benchmark. The oracle, which judges sheets, shares none of it.

// No program uses all of it.
#![allow(dead_code)]

use crate::limits::*;

/// Offsets in the first block.
pub const NODE_COUNT: usize = 2;
pub const VARIABLE_COUNT: usize = 4;
const VARIABLES: usize = 8;
/// The bytes behind the last variable record.
pub const AFTER_VARIABLES: usize = VARIABLES + VARIABLE_BYTES * MOST_VARIABLES;

/// Offsets in a variable record: behind the least and the greatest value the name's length, and the name.
pub const LEAST: usize = 0;
pub const GREATEST: usize = 2;
pub const LENGTH: usize = 4;
pub const NAME: usize = 6;
pub const VARIABLE_BYTES: usize = 24;
pub type VariableRecord = [u8; VARIABLE_BYTES];

/// Offsets in a node record: behind the kind the fields a, b, c, and the value.
pub const FIELDS: usize = 2;
pub const VALUE: usize = 8;
pub const NODE_BYTES: usize = 16;
pub type NodeRecord = [u8; NODE_BYTES];
/// The bytes behind a block's last node record.
pub const AFTER_NODES: usize = NODE_BYTES * NODES_IN_BLOCK;

pub fn variable_at(variable: usize) -> usize {
    VARIABLES + VARIABLE_BYTES * variable
}

pub fn node_at(node: usize) -> usize {
    BLOCK * (1 + node / NODES_IN_BLOCK) + NODE_BYTES * (node % NODES_IN_BLOCK)
}

/// Blocks of a sheet with this many nodes.
pub fn blocks_for(nodes: usize) -> usize {
    1 + (nodes + NODES_IN_BLOCK - 1) / NODES_IN_BLOCK
}

/// The number of 16 bits that stands there.
pub fn number_at(sheet: &[u8], place: usize) -> u16 {
    u16::from_le_bytes([sheet[place], sheet[place + 1]])
}

pub fn put(sheet: &mut [u8], place: usize, number: u16) {
    sheet[place..place + 2].copy_from_slice(&number.to_le_bytes());
}

/// What a sheet that has a first block says of its nodes.
pub fn node_count(sheet: &[u8]) -> usize {
    number_at(sheet, NODE_COUNT).into()
}

pub fn variable_record(least: i64, greatest: i64, name: &[u8]) -> VariableRecord {
    let mut record = [0; VARIABLE_BYTES];
    put(&mut record, LEAST, least as u16);
    put(&mut record, GREATEST, greatest as u16);
    record[LENGTH] = name.len() as u8;
    record[NAME..NAME + name.len()].copy_from_slice(name);
    record
}

/// A record with these first fields of a, b, c.
pub fn node_record(kind: u8, fields: &[u16], value: u16) -> NodeRecord {
    let mut record = [0; NODE_BYTES];
    record[0] = kind;
    for (i, &field) in fields.iter().enumerate() {
        put(&mut record, FIELDS + 2 * i, field);
    }
    put(&mut record, VALUE, value);
    record
}

/// The sheet with these records, its checks right.
pub fn lay_out(variables: &[VariableRecord], nodes: &[NodeRecord]) -> Vec<u8> {
    let mut sheet = vec![0; BLOCK * blocks_for(nodes.len())];
    sheet[0] = 1;
    put(&mut sheet, NODE_COUNT, nodes.len() as u16);
    sheet[VARIABLE_COUNT] = variables.len() as u8;
    for (number, record) in variables.iter().enumerate() {
        sheet[variable_at(number)..][..VARIABLE_BYTES].copy_from_slice(record);
    }
    for (number, record) in nodes.iter().enumerate() {
        sheet[node_at(number)..][..NODE_BYTES].copy_from_slice(record);
    }
    seal(&mut sheet);
    sheet
}

/// The check of a block's content, begun at `start`, which is k + 1 for block k.
pub fn check_from(start: u64, content: &[u8]) -> u16 {
    let mut check = (start % u64::from(MODULUS)) as u32;
    for (i, &byte) in content[..CONTENT].iter().enumerate() {
        check = (check + (i as u32 + 1) * u32::from(byte)) % MODULUS;
    }
    check as u16
}

pub fn check(sheet: &[u8], k: usize) -> u16 {
    check_from(k as u64 + 1, &sheet[BLOCK * k..])
}

pub fn store_check(sheet: &mut [u8], k: usize, check: u16) {
    put(sheet, BLOCK * k + CONTENT, check);
}

/// Makes the check of each whole block anew.
pub fn seal(sheet: &mut [u8]) {
    for k in 0..sheet.len() / BLOCK {
        let check = check(sheet, k);
        store_check(sheet, k, check);
    }
}
