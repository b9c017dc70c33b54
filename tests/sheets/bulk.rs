// Sheets in bulk: every length, every byte changed, and bytes and node tables at random.

use crate::grower::{accepted, any_accepted, any_size, Grower};
use crate::layout::*;
use crate::limits::*;
use crate::random::Random;
use crate::trees::*;
use crate::trial::{Open, Output, Refused};
use crate::whole_sheet::lengthened;

// ---- lengths

/// Every length up to some bytes past 10 blocks, and from there to a block too many those about each block's end and one
/// between, with wrong checks and with right ones.
pub fn lengths(random: &mut Random, out: &mut Output) {
    let ends = (11..=MOST_BLOCKS + 1).map(|blocks| blocks * BLOCK);
    let within = 2 + random.below(BLOCK - 3);
    let about = ends.flat_map(|end| [end - 1, end, end + 1, end + within]);
    for length in (0..=10 * BLOCK + 80).chain(about) {
        let wrong = random.bytes(length);
        let right = lengthened(random, length);
        if length > 0 && length % BLOCK == 0 && length <= MOST_BYTES {
            out.put(random, "any: right length, bytes at random", &wrong, Open);
            out.put(random, "any: right length, checks right", &right, Open);
        } else {
            out.put(random, "1: every length, bytes at random", &wrong, Refused(1, 0));
            out.put(random, "1: every length, checks right", &right, Refused(1, 0));
        }
    }
}

// ---- one byte changed

/// One changed byte of an accepted sheet gives refusal 2 at its block: in a longest sheet each byte that a block has,
/// in nine blocks, so that all blocks have their turn; then any byte of any sheet.
pub fn changed_bytes(random: &mut Random, out: &mut Output) {
    let longest = accepted(random, MOST_NODES, MOST_VARIABLES);
    for turn in 0..9 * BLOCK {
        let block = turn % MOST_BLOCKS;
        let label = format!("2: each byte changed in turn, block {}", block);
        changed(random, out, &label, longest.clone(), BLOCK * block + turn % BLOCK);
    }
    for _ in 0..6_000 {
        let sheet = any_accepted(random);
        let place = random.below(sheet.len());
        changed(random, out, "2: any byte changed", sheet, place);
    }
}

fn changed(random: &mut Random, out: &mut Output, label: &str, mut sheet: Vec<u8>, place: usize) {
    sheet[place] = random.other_byte(sheet[place]);
    out.put(random, label, &sheet, Refused(2, place / BLOCK));
}

// ---- at random

pub fn at_random(random: &mut Random, out: &mut Output) {
    for _ in 0..600 {
        let length = random.below(MOST_BYTES + BLOCK);
        let bytes = random.bytes(length);
        out.put(random, "any: bytes at random", &bytes, Open);
        let sheet = sealed_bytes(random);
        out.put(random, "any: bytes at random, checks right", &sheet, Open);
        let sheet = header_then_bytes(random);
        out.put(random, "any: header right, then bytes at random", &sheet, Open);
    }
    for _ in 0..10_000 {
        let sheet = altered(random);
        out.put(random, "any: accepted but for some bytes, checks made anew", &sheet, Open);
        let sheet = table_at_random(random);
        out.put(random, "any: nodes at random, mostly right", &sheet, Open);
    }
}

fn sealed_bytes(random: &mut Random) -> Vec<u8> {
    let length = BLOCK * (1 + random.below(MOST_BLOCKS));
    let mut sheet = random.bytes(length);
    seal(&mut sheet);
    sheet
}

fn header_then_bytes(random: &mut Random) -> Vec<u8> {
    let mut sheet = any_accepted(random);
    let from = random.pick(&[NODE_COUNT, VARIABLE_COUNT, 5, variable_at(0), AFTER_VARIABLES, BLOCK]);
    for byte in &mut sheet[from..] {
        *byte = if random.one_in(2) { 0 } else { random.byte() };
    }
    seal(&mut sheet);
    sheet
}

/// One to three bytes changed, mostly in the header and the records, often by little.
fn altered(random: &mut Random) -> Vec<u8> {
    let mut sheet = any_accepted(random);
    for _ in 0..1 + random.below(3) {
        let nodes = node_count(&sheet).clamp(1, MOST_NODES);
        let place = match random.below(8) {
            0 => random.below(8),
            1 => random.below(variable_at(usize::from(sheet[VARIABLE_COUNT]).min(MOST_VARIABLES))),
            2 => random.below(sheet.len()),
            _ => (node_at(random.below(nodes)) + random.below(10)).min(sheet.len() - 1),
        };
        sheet[place] = match random.below(3) {
            0 => sheet[place].wrapping_add(1),
            1 => sheet[place].wrapping_sub(1),
            _ => random.byte(),
        };
    }
    seal(&mut sheet);
    sheet
}

/// Nodes that take whatever trees stand before them, with a wrong operand or byte here and there.
fn table_at_random(random: &mut Random) -> Vec<u8> {
    let mut grower = Grower::any(random);
    let (nodes, care) = (any_size(grower.random), grower.random.pick(&[20, 100, 400, 100_000]));
    let mut table = Table::default();
    let mut row: Vec<(u16, Sort)> = Vec::new();
    while table.records.len() < nodes {
        let kind = if row.len() > 6 { grower.random.pick(&KINDS[2..]) } else { grower.random.pick(&KINDS) };
        add_node(&mut grower, &mut table, &mut row, kind, care);
    }
    grower.sheet(&table)
}

/// Adds a node of this kind if the trees of the row suit it, or even if they do not, once in `care`.
fn add_node(grower: &mut Grower, table: &mut Table, row: &mut Vec<(u16, Sort)>, kind: u8, care: usize) {
    let sorts = operand_sorts(kind);
    let first = row.len().saturating_sub(sorts.len());
    let suits =
        row.len() >= sorts.len() && row[first..].iter().zip(sorts).all(|(tree, &sort)| tree.1 == sort);
    if !suits && !grower.random.one_in(care) {
        return;
    }
    let operands: Vec<u16> = row.drain(first..).map(|tree| tree.0).collect();
    let mut record = match kind {
        CONSTANT => node_record(kind, &[], grower.value() as i16 as u16),
        VARIABLE => node_record(kind, &[grower.random.below(grower.variables.len() + 1) as u16], 0),
        _ => node_record(kind, &operands, 0),
    };
    if grower.random.one_in(care) {
        let place = grower.random.below(NODE_BYTES);
        record[place] = record[place].wrapping_add(grower.random.pick(&[1, 255, 128]));
    }
    row.push((table.records.len() as u16, gives(kind)));
    table.records.push(record);
}
