// Times make and text on rules of ever more nodes beside an ordinary maker and printer in Rust, and make on ever longer
// texts and ever more variables, to show how its time grows. With the word 'once' it shows that it works, and measures
// nothing.

mod checks;
mod deep;
#[path = "../tests/layout.rs"]
mod layout;
#[path = "../tests/limits.rs"]
mod limits;
mod plain;
mod reader;
mod rules;
mod tables;
mod turns;

use layout::*;
use limits::*;
use rules::Tree;
use std::cell::RefCell;
use std::hint::black_box;
use turns::Sides;

extern "C" {
    fn ragwashin_make(text: *const u8, text_len: usize, room: *mut u8, room_len: usize) -> u64;
    fn ragwashin_text(sheet: *const u8, sheet_len: usize, room: *mut u8, room_len: usize) -> u64;
}

const NODES: [usize; 3] = [31, MOST_NODES / 8, MOST_NODES];
/// Operands of a goal that no sheet has room for, and variables, as many.
const WORDS: [usize; 3] = [10_000, 100_000, 1_000_000];
const DECLARED: [usize; 4] = [16, 64, 256, 1_024];
/// How often the names are read, in a goal with so many sums.
const READS: usize = 1_000;
/// Over 16 variables or 1,984 nodes.
const TOO_MANY: u64 = 4 << 48;

/// The name of a sort of rule, and its sheet of so many nodes.
type Rules = (&'static str, fn(usize) -> Vec<u8>);

/// Combs have an even number of nodes, so 32 for 31.
const RULES: [Rules; 5] = [
    ("flat", |nodes| rules::sheet(&rules::flat(nodes), 1)),
    ("flat, 16 long names", |nodes| long_names(&rules::flat(nodes))),
    ("chain", |nodes| rules::sheet(&deep::chain(nodes), 1)),
    ("comb to the left", |nodes| rules::sheet(&deep::left_comb(nodes + nodes % 2), 1)),
    ("comb to the right", |nodes| rules::sheet(&deep::right_comb(nodes + nodes % 2), 1)),
];

fn main() {
    println!("make and text, ns per call: {}", turns::extent());
    let each = |what: &str| NODES.map(|nodes| format!("{} nodes, {}", tables::count(nodes), what)).join("\n");
    let heads = ["what", "rule", &each("ns"), "ns per node", &each("ratio")].join("\n");
    tables::head(&heads.lines().collect::<Vec<_>>());
    for (rule, sheet) in RULES {
        tell("`make`", rule, NODES.map(|nodes| made(&sheet(nodes))));
    }
    for (rule, sheet) in RULES {
        tell("`text`", rule, NODES.map(|nodes| printed(&sheet(nodes))));
    }
    println!("make of longer texts, refused as 4, ns per byte");
    grow("a sum of so many numbers", &WORDS, |words| many_words(words));
    println!("make with more variables, {} words that are names, ns per word", tables::count(READS));
    grow_by_names(&DECLARED);
}

/// The rule with sixteen variables of long names: the six that it reads come last.
fn long_names(rule: &Tree) -> Vec<u8> {
    let sheet = rules::sheet(rule, 1);
    let names = (0..MOST_VARIABLES).map(|i| format!("a_variable_no_{:02}{}", i, "x"));
    let variables: Vec<VariableRecord> =
        names.map(|name| variable_record(-4, 5, &name.as_bytes()[..LONGEST_NAME])).collect();
    let further = (MOST_VARIABLES - rules::VARIABLES) as u16;
    let nodes: Vec<NodeRecord> = (0..node_count(&sheet))
        .map(|node| {
            let mut record: NodeRecord = sheet[node_at(node)..][..NODE_BYTES].try_into().expect("a record");
            if record[0] == 17 {
                let variable = number_at(&record, FIELDS);
                put(&mut record, FIELDS, variable + further);
            }
            record
        })
        .collect();
    lay_out(&variables, &nodes)
}

fn tell(what: &str, rule: &str, sides: [Sides; 3]) {
    let times = sides.each_ref().map(|sides| sides.library);
    let per_node: Vec<String> = (0..3).map(|i| tables::figure(times[i] / NODES[i] as f64, 1)).collect();
    let cells = [
        [what, rule].map(String::from).to_vec(),
        times.map(|time| tables::figure(time, 0)).to_vec(),
        vec![per_node.join(", ")],
        sides.map(|sides| sides.to_string()).to_vec(),
    ];
    tables::row(&cells.concat());
}

fn text_of(sheet: &[u8]) -> Vec<u8> {
    let mut text = Vec::new();
    plain::print(sheet, &mut text);
    text
}

fn library_make(text: &[u8], room: &mut [u8]) -> u64 {
    unsafe { ragwashin_make(text.as_ptr(), text.len(), room.as_mut_ptr(), room.len()) }
}

/// From a text's bytes to a sheet's.
fn made(sheet: &[u8]) -> Sides {
    let text = String::from_utf8(text_of(sheet)).expect("ASCII");
    let room = RefCell::new([0; MOST_BYTES]);
    let library = || library_make(text.as_bytes(), &mut *room.borrow_mut()) as usize;
    let ordinary = || plain::make(black_box(&text)).expect("accepted");
    assert_eq!(library(), sheet.len(), "made");
    assert_eq!(room.borrow()[..sheet.len()], *sheet, "the same sheet");
    assert_eq!(ordinary(), *sheet, "the same sheet");
    turns::compare(|| assert_eq!(library(), sheet.len(), "made"), || drop(black_box(ordinary())))
}

/// From a sheet's bytes to a text's: both sides read the sheet first.
fn printed(sheet: &[u8]) -> Sides {
    let (wanted, room) = (text_of(sheet), RefCell::new([0; LONGEST_TEXT]));
    let library = || {
        let mut room = room.borrow_mut();
        unsafe { ragwashin_text(sheet.as_ptr(), sheet.len(), room.as_mut_ptr(), room.len()) as usize }
    };
    let text = RefCell::new(Vec::with_capacity(LONGEST_TEXT));
    let ordinary = || {
        assert_eq!(reader::read(black_box(sheet)), Ok(()), "accepted");
        let mut text = text.borrow_mut();
        text.clear();
        plain::print(black_box(sheet), &mut text);
    };
    assert_eq!(library(), wanted.len(), "printed");
    assert_eq!(room.borrow()[..wanted.len()], wanted[..], "the same text");
    turns::compare(|| assert_eq!(library(), wanted.len(), "printed"), ordinary)
}

/// A sum of so many numbers.
fn many_words(words: usize) -> Vec<u8> {
    let sums = b"add 7 ".repeat(words / 2);
    [b"goal eq 0 ", &sums[..], b"7\n"].concat()
}

/// So many variables, each a name of its own, of which the last is read in each of the sums.
fn many_names(variables: usize) -> Vec<u8> {
    let lines: String = (0..variables).map(|i| format!("var v{} 0 1\n", i)).collect();
    let sums = format!("add v{} ", variables - 1).repeat(READS);
    format!("{}goal eq 0 {}0\n", lines, sums).into_bytes()
}

/// The quickest call's time on a text that no sheet has room for.
fn refused(text: &[u8]) -> f64 {
    let call = || assert_eq!(library_make(text, &mut []), TOO_MANY, "too many");
    turns::quickest(&call).as_nanos() as f64
}

fn grow(what: &str, sizes: &[usize], text: fn(usize) -> Vec<u8>) {
    let sizes = if turns::once() { &sizes[..1] } else { sizes };
    let heads: Vec<String> = sizes.iter().map(|&size| tables::count(size)).collect();
    tables::head(&[vec![what], heads.iter().map(String::as_str).collect()].concat());
    let per_byte = |&size: &usize| {
        let text = text(size);
        tables::figure(refused(&text) / text.len() as f64, 2)
    };
    tables::row(&[vec!["ns per byte".to_string()], sizes.iter().map(per_byte).collect()].concat());
}

/// With sixteen variables there are too many nodes, with more too many variables.
fn grow_by_names(sizes: &[usize]) {
    let sizes = if turns::once() { &sizes[..1] } else { sizes };
    let heads: Vec<String> = sizes.iter().map(|&size| tables::count(size)).collect();
    tables::head(&[vec!["variables"], heads.iter().map(String::as_str).collect()].concat());
    let per_word = |&size: &usize| tables::figure(refused(&many_names(size)) / READS as f64, 0);
    tables::row(&[vec!["ns per word".to_string()], sizes.iter().map(per_word).collect()].concat());
}
