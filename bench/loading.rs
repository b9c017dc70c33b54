// Times the loading of a sheet, in ns per call: the checks of its blocks, and read as a whole, beside plain loops over
// the same bytes that work out the checks, and read beside an ordinary reader too. Then where read's time goes. With
// the word 'once' it shows that it works, and measures nothing.

mod checks;
#[path = "../tests/layout.rs"]
mod layout;
#[path = "../tests/limits.rs"]
mod limits;
mod reader;
mod rules;
mod tables;
mod turns;

use layout::*;
use limits::*;
use std::hint::black_box;
use turns::Sides;

extern "C" {
    fn ragwashin_read(sheet: *const u8, sheet_len: usize) -> u64;
    fn ragwashin_block(sheet: *const u8, sheet_len: usize, k: u64) -> u64;
}

/// Rules of so many nodes take sheets of 1,024 bytes, of 4,608, and of as many as a sheet can have.
const NODES: [usize; 3] = [31, 247, MOST_NODES];

fn main() {
    let sheets = NODES.map(|nodes| rules::sheet(&rules::flat(nodes), 1_000));
    println!("loading, ns per call: {}", turns::extent());
    let loops = ["to a loop in 32 bits", "to a loop in 64 bits"];
    tables::head(&["", "bytes", "ns", loops[0], loops[1], "to an ordinary reader"]);
    for sheet in &sheets {
        let sides = [compare(sheet, blocks, loop_in_32_bits), compare(sheet, blocks, loop_in_64_bits)];
        tell("the checks of all blocks", sheet, &sides);
    }
    for sheet in &sheets {
        let beside_loops = [compare(sheet, read, loop_in_32_bits), compare(sheet, read, loop_in_64_bits)];
        let [narrow, wide] = beside_loops;
        tell("`read`", sheet, &[narrow, wide, compare(sheet, read, ordinary_read)]);
    }
    for sheet in &sheets {
        tell("an ordinary reader", sheet, &[compare(sheet, ordinary_read, loop_in_32_bits)]);
    }
    println!("where the time of read goes, in ns");
    tables::head(&[&["bytes"], &STAGES.map(|stage| stage.name)[..]].concat());
    sheets.iter().for_each(|sheet| tell_stages(sheet));
}

/// Each side is compiled into the loop that times it: a plain loop is quicker so.
fn compare(sheet: &[u8], library: impl Fn(&[u8]), ordinary: impl Fn(&[u8])) -> Sides {
    turns::compare(|| library(sheet), || ordinary(sheet))
}

fn tell(what: &str, sheet: &[u8], beside: &[Sides]) {
    let quickest = beside.iter().map(|sides| sides.library).fold(f64::INFINITY, f64::min);
    let mut cells = vec![what.to_string(), tables::count(sheet.len()), tables::figure(quickest, 0)];
    cells.extend(beside.iter().map(Sides::to_string));
    cells.resize(6, String::new());
    tables::row(&cells);
}

fn said(sheet: &[u8]) -> u64 {
    unsafe { ragwashin_read(sheet.as_ptr(), sheet.len()) }
}

fn read(sheet: &[u8]) {
    assert_eq!(said(sheet), 0, "the sheet is accepted");
}

/// One call for each block.
fn blocks(sheet: &[u8]) {
    for k in 0..sheet.len() / BLOCK {
        let size = unsafe { ragwashin_block(sheet.as_ptr(), sheet.len(), k as u64) };
        assert_eq!(size, CONTENT as u64, "the check is right");
    }
}

// The compiler may not see that it is always the same sheet.

fn loop_in_32_bits(sheet: &[u8]) {
    assert_eq!(checks::in_32_bits(black_box(sheet)), None, "the checks are right");
}

fn loop_in_64_bits(sheet: &[u8]) {
    assert_eq!(checks::in_64_bits(black_box(sheet)), None, "the checks are right");
}

fn ordinary_read(sheet: &[u8]) {
    assert_eq!(reader::read(black_box(sheet)), Ok(()), "the sheet is accepted");
}

/// A part of reading, and how to spoil a sheet of so many variables so that it is refused at that part's end.
struct Stage {
    name: &'static str,
    spoil: fn(&mut [u8]),
}

const STAGES: [Stage; 4] = [
    Stage { name: "checks", spoil: |sheet| sheet[0] = 2 },
    Stage { name: "counts and zero bytes", spoil: |sheet| sheet[sheet.len() - BLOCK + CONTENT - 1] = 1 },
    Stage { name: "6 variables", spoil: |sheet| sheet[variable_at(rules::VARIABLES) - 1] = 1 },
    Stage { name: "nodes", spoil: |_| () },
];

/// What each part adds to the time of those before it.
fn tell_stages(sheet: &[u8]) {
    let times = STAGES.map(|stage| {
        let mut spoiled = sheet.to_vec();
        (stage.spoil)(&mut spoiled);
        seal(&mut spoiled);
        let (number, place) = reader::read(&spoiled).err().unwrap_or((0, 0));
        assert_eq!(said(&spoiled), number << 48 | place as u64, "the ordinary reader's answer");
        turns::compare(|| assert_eq!(said(&spoiled) >> 48, number), || ()).library
    });
    let added = (0..times.len()).map(|i| times[i] - if i == 0 { 0.0 } else { times[i - 1] });
    let cells = added.map(|time| tables::figure(time, 0));
    tables::row(&[vec![tables::count(sheet.len())], cells.collect()].concat());
}
