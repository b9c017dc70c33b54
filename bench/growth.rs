// Times read, script, ask and one case's value on sheets of ever more nodes, to show that the time is linear in the
// nodes, whatever the tree's shape, beside ordinary Rust that does the same. With the word 'once' it shows that it works,
// and measures nothing.

mod checks;
mod deep;
#[path = "../tests/layout.rs"]
mod layout;
#[path = "../tests/limits.rs"]
mod limits;
mod ordinary;
mod reader;
mod rules;
mod tables;
mod trying;
mod turns;
mod writer;

use limits::*;
use rules::Tree;
use std::cell::RefCell;
use std::hint::black_box;
use turns::Sides;

extern "C" {
    fn ragwashin_read(sheet: *const u8, sheet_len: usize) -> u64;
    fn ragwashin_script(sheet: *const u8, sheet_len: usize, room: *mut u8, room_len: usize) -> u64;
    fn ragwashin_ask(sheet: *const u8, sheet_len: usize, room: *mut u8, room_len: usize) -> u64;
}

/// 248, 992 and 1,984 nodes.
const NODES: [usize; 3] = [MOST_NODES / 8, MOST_NODES / 2, MOST_NODES];

/// The name of a shape, and its rule of so many nodes.
type Shape = (&'static str, fn(usize) -> Tree);

const SHAPES: [Shape; 4] = [
    ("flat", rules::flat),
    ("chain", deep::chain),
    ("comb to the left", deep::left_comb),
    ("comb to the right", deep::right_comb),
];

/// What is timed, and how both sides do it for a rule.
type Subject = (&'static str, fn(&Tree) -> Sides);

const SUBJECTS: [Subject; 4] = [
    ("`read`", read),
    ("`script`", |rule| written(rule, ragwashin_script, false)),
    ("`ask`", |rule| written(rule, ragwashin_ask, true)),
    ("one case's value", one_value),
];

fn main() {
    println!("growth with the nodes, ns per call or case: {}", turns::extent());
    let each = |what: &str| NODES.map(|nodes| format!("{} nodes, {}", tables::count(nodes), what)).join("\n");
    let heads =
        ["what", "tree", &each("ns"), "ns per node", "growth", "ordinary growth", &each("ratio")].join("\n");
    tables::head(&heads.lines().collect::<Vec<_>>());
    for (what, compare) in SUBJECTS {
        for (shape, rule) in SHAPES {
            tell(what, shape, NODES.map(|nodes| compare(&of_size(rule(nodes), nodes))));
        }
    }
}

fn of_size(rule: Tree, nodes: usize) -> Tree {
    assert_eq!(layout::node_count(&sheet(&rule)), nodes, "a rule of so many nodes");
    rule
}

fn tell(what: &str, shape: &str, sides: [Sides; 3]) {
    let per_node = |times: [f64; 3]| [0, 1, 2].map(|i| times[i] / NODES[i] as f64);
    // Beside the time per node of the fewest nodes: about 1 where the time is linear.
    let growth = |times: [f64; 3]| {
        let [least, more, most] = per_node(times);
        [more / least, most / least]
    };
    let listed = |figures: &[f64], digits: usize| {
        figures.iter().map(|&figure| tables::figure(figure, digits)).collect::<Vec<_>>().join(", ")
    };
    let library = sides.each_ref().map(|sides| sides.library);
    let ordinary = sides.each_ref().map(|sides| sides.ordinary);
    let growths = [listed(&per_node(library), 1), listed(&growth(library), 2), listed(&growth(ordinary), 2)];
    let cells = [
        [what, shape].map(String::from).to_vec(),
        library.map(|time| tables::figure(time, 0)).to_vec(),
        growths.to_vec(),
        sides.map(|sides| sides.to_string()).to_vec(),
    ];
    tables::row(&cells.concat());
}

/// With one case, for calls that try none.
fn sheet(rule: &Tree) -> Vec<u8> {
    rules::sheet(rule, 1)
}

fn read(rule: &Tree) -> Sides {
    let sheet = sheet(rule);
    let library = || assert_eq!(unsafe { ragwashin_read(sheet.as_ptr(), sheet.len()) }, 0, "accepted");
    turns::compare(library, || ordinary_read(&sheet))
}

/// The compiler may not see that it is always the same sheet.
fn ordinary_read(sheet: &[u8]) {
    assert_eq!(reader::read(black_box(sheet)), Ok(()), "accepted");
}

type Writing = unsafe extern "C" fn(*const u8, usize, *mut u8, usize) -> u64;

/// From a sheet's bytes to a script's: both sides read the sheet first.
fn written(rule: &Tree, library: Writing, models: bool) -> Sides {
    let (sheet, room) = (sheet(rule), RefCell::new([0; ENOUGH_ROOM]));
    let library = || {
        let mut room = room.borrow_mut();
        unsafe { library(sheet.as_ptr(), sheet.len(), room.as_mut_ptr(), room.len()) as usize }
    };
    let text = RefCell::new(Vec::with_capacity(ENOUGH_ROOM));
    let ordinary = || {
        ordinary_read(&sheet);
        let mut text = text.borrow_mut();
        text.clear();
        writer::write(black_box(&sheet), models, &mut text);
    };
    let size = library();
    ordinary();
    assert_eq!(room.borrow()[..size], text.borrow()[..], "the same script");
    turns::compare(|| assert_eq!(library(), size, "written"), ordinary)
}

/// With the step to the next case. The library reads the sheet too, which takes next to nothing beside so many cases.
fn one_value(rule: &Tree) -> Sides {
    let (sheet, cases) = trying::fitting(rule);
    let rule = ordinary::decoded(&sheet);
    let ordinary = || assert_eq!(black_box(&rule).first_failing(), None, "the rule holds");
    turns::compare(|| trying::library(&sheet), ordinary).per(cases)
}
