// Document 01's cases at each edge that concern the script (5, 6, 13, and the script of 12), sheet A's script,
// and the text of each kind: scripts written out by hand.

use crate::edges::{refused, sheet};
use crate::grower::Grower;
use crate::question::{Known, Question, Room};
use crate::random::Random;
use crate::trees::*;
use crate::trial::{Asked, Output};

const ACCEPTED: u64 = 0;

pub fn make(random: &mut Random, out: &mut Output) {
    sheet_a_and_edge_13(out);
    edges_5_and_6(out);
    edge_12(out);
    unread_variable(out);
    for row in TEXTS {
        kind(random, out, row);
    }
    every_symbol(random, out);
}

fn read() -> Asked {
    (Question::Read, Some(Known::said(ACCEPTED)))
}

/// The script with this many bytes of room, and what stands at the room's front afterwards.
fn script(length: usize, said: u64, front: &str) -> Asked {
    let known = Known { said, front: front.as_bytes().to_vec() };
    (Question::Script(Room { length, pattern: 0x9e37_79b9 }), Some(known))
}

/// The script in rooms of these lengths, all enough.
fn written(text: &str, rooms: &[usize]) -> Vec<Asked> {
    let scripts = rooms.iter().map(|&room| script(room, text.len() as u64, text));
    [read()].into_iter().chain(scripts).collect()
}

const SHEET_A: &str = "\
(set-logic QF_UFBV)
(declare-fun v0 () (_ BitVec 16))
(declare-fun v1 () (_ BitVec 16))
(assert (and (bvsle #x0000 v0) (bvsle v0 #x0001)))
(assert (and (bvsle #x0000 v1) (bvsle v1 #x0001)))
(assert (not (= v0 v1)))
(check-sat)
(exit)
";

fn sheet_a_and_edge_13(out: &mut Output) {
    let sheet = sheet(
        1_024,
        &[
            (0, &[1, 0, 3, 0, 2]),
            (8, &[0, 0, 1, 0, 6, 0, b's', b'e', b'a', b't', b'e', b'd']),
            (32, &[0, 0, 1, 0, 7, 0, b't', b'r', b'a', b'i', b'n', b'e', b'd']),
            (510, &[0x32, 0xa6]),
            (512, &[17]),
            (528, &[17, 0, 1, 0]),
            (544, &[8, 0, 0, 0, 1, 0]),
            (1_022, &[0x74, 0x02]),
        ],
    );
    out.ask_all(
        "accepted: edge 13, sheet A",
        &sheet,
        &[
            read(),
            script(0, refused(9, 234), ""),
            script(1, refused(9, 234), ""),
            script(233, refused(9, 234), ""),
            script(234, 234, SHEET_A),
            script(235, 234, SHEET_A),
            script(4_096, 234, SHEET_A),
            script(5_000, 234, SHEET_A),
        ],
    );
}

fn edges_5_and_6(out: &mut Output) {
    let minus_1 = sheet(
        1_024,
        &[
            (0, &[1, 0, 3, 0, 0]),
            (510, &[0x0b, 0x00]),
            (512, &[16, 0, 0, 0, 0, 0, 0, 0, 0xff, 0xff]),
            (528, &[16]),
            (544, &[8, 0, 0, 0, 1, 0]),
            (1_022, &[0x3c, 0x15]),
        ],
    );
    let text = "(set-logic QF_UFBV)\n(assert (not (= #xffff #x0000)))\n(check-sat)\n(exit)\n";
    out.ask_all("accepted: edge 5, constant -1", &minus_1, &written(text, &[72, 73, 4_096]));
    let lowest = sheet(
        1_024,
        &[
            (0, &[1, 0, 3, 0, 0]),
            (510, &[0x0b, 0x00]),
            (512, &[16, 0, 0, 0, 0, 0, 0, 0, 0x00, 0x80]),
            (528, &[16]),
            (544, &[9, 0, 0, 0, 1, 0]),
            (1_022, &[0x70, 0x07]),
        ],
    );
    let text = "(set-logic QF_UFBV)\n(assert (not (bvslt #x8000 #x0000)))\n(check-sat)\n(exit)\n";
    out.ask_all("accepted: edge 6, constant -32,768", &lowest, &written(text, &[76, 77, 4_096]));
}

/// 101 by 9,901: too many cases to check, yet the script is written.
fn edge_12(out: &mut Output) {
    let sheet = sheet(
        1_024,
        &[
            (0, &[1, 0, 5, 0, 2]),
            (8, &[0, 0, 0x64, 0x00, 1, 0, b'x']),
            (32, &[0, 0, 0xac, 0x26, 1, 0, b'y']),
            (510, &[0xec, 0x3a]),
            (512, &[17]),
            (528, &[17, 0, 1, 0]),
            (544, &[19, 0, 0, 0, 1, 0]),
            (560, &[16, 0, 0, 0, 0, 0, 0, 0, 0x0f, 0x27]),
            (576, &[10, 0, 2, 0, 3, 0]),
            (1_022, &[0xfb, 0x16]),
        ],
    );
    let text = "\
(set-logic QF_UFBV)
(declare-fun v0 () (_ BitVec 16))
(declare-fun v1 () (_ BitVec 16))
(assert (and (bvsle #x0000 v0) (bvsle v0 #x0064)))
(assert (and (bvsle #x0000 v1) (bvsle v1 #x26ac)))
(assert (not (bvsle (bvadd v0 v1) #x270f)))
(check-sat)
(exit)
";
    let mut asked = written(text, &[253, 254, 4_096]);
    asked.push(script(252, refused(9, 253), ""));
    out.ask_all("accepted: edge 12, its script", &sheet, &asked);
}

/// A variable that the goal never reads has its range line all the same.
fn unread_variable(out: &mut Output) {
    let sheet = sheet(
        1_024,
        &[
            (0, &[1, 0, 1, 0, 1]),
            (8, &[0xfe, 0xff, 3, 0, 1, 0, b'x']),
            (510, &[0x24, 0x1a]),
            (512, &[1]),
            (1_022, &[0x03, 0x00]),
        ],
    );
    let text = "\
(set-logic QF_UFBV)
(declare-fun v0 () (_ BitVec 16))
(assert (and (bvsle #xfffe v0) (bvsle v0 #x0003)))
(assert (not true))
(check-sat)
(exit)
";
    out.ask_all("accepted: script, a variable never read", &sheet, &written(text, &[144, 4_096]));
}

/// A kind, a goal over x in -1..2 and y in 0..10, and the goal's text.
type Row = (u8, fn(Tree, Tree) -> Tree, &'static str);

const X: Range = (-1, 2);
const Y: Range = (0, 10);

const TEXTS: [Row; 17] = [
    (1, |_, _| node(1, vec![]), "true"),
    (2, |_, _| node(2, vec![]), "false"),
    (3, |_, _| node(3, vec![node(2, vec![])]), "(not false)"),
    (4, |_, _| node(4, vec![node(1, vec![]), node(2, vec![])]), "(and true false)"),
    (5, |_, _| node(5, vec![node(2, vec![]), node(1, vec![])]), "(or false true)"),
    (6, |_, _| node(6, vec![node(1, vec![]), node(2, vec![])]), "(=> true false)"),
    (7, |_, _| node(7, vec![node(2, vec![]), node(1, vec![])]), "(= false true)"),
    (8, |x, y| node(8, vec![x, y]), "(= v0 v1)"),
    (9, |x, y| node(9, vec![x, y]), "(bvslt v0 v1)"),
    (10, |x, y| node(10, vec![y, x]), "(bvsle v1 v0)"),
    (16, |x, _| node(8, vec![x, constant(-21_555)]), "(= v0 #xabcd)"),
    (17, |x, y| node(9, vec![y, x]), "(bvslt v1 v0)"),
    (18, |x, _| node(8, vec![node(18, vec![x]), constant(26)]), "(= (bvneg v0) #x001a)"),
    (19, |x, y| node(8, vec![node(19, vec![x, y]), constant(4_660)]), "(= (bvadd v0 v1) #x1234)"),
    (20, |x, y| node(8, vec![node(20, vec![y, x]), constant(22_136)]), "(= (bvsub v1 v0) #x5678)"),
    (21, |x, y| node(8, vec![node(21, vec![x, y]), constant(-4_096)]), "(= (bvmul v0 v1) #xf000)"),
    (
        22,
        |x, y| node(8, vec![constant(9), node(22, vec![node(1, vec![]), x, y])]),
        "(= #x0009 (ite true v0 v1))",
    ),
];

fn kind(random: &mut Random, out: &mut Output, (kind, goal, goal_text): Row) {
    let goal = goal(variable(0, X), variable(1, Y));
    let sheet = Grower::with_domains(random, &[X, Y]).sheet(&Table::of(&goal));
    let text = format!(
        "(set-logic QF_UFBV)\n\
         (declare-fun v0 () (_ BitVec 16))\n\
         (declare-fun v1 () (_ BitVec 16))\n\
         (assert (and (bvsle #xffff v0) (bvsle v0 #x0002)))\n\
         (assert (and (bvsle #x0000 v1) (bvsle v1 #x000a)))\n\
         (assert (not {}))\n\
         (check-sat)\n\
         (exit)\n",
        goal_text
    );
    out.ask_all(
        &format!("accepted: text of kind {}", kind),
        &sheet,
        &written(&text, &[text.len(), text.len() + 1, 4_096]),
    );
}

/// The symbols v0 to v15.
fn every_symbol(random: &mut Random, out: &mut Output) {
    let domain = (-32_768, 32_767);
    let symbols = "v0 v1 v2 v3 v4 v5 v6 v7 v8 v9 v10 v11 v12 v13 v14 v15";
    for (number, symbol) in symbols.split(' ').enumerate() {
        let goal = node(10, vec![variable(number, domain), constant(0)]);
        let sheet = Grower::with_domains(random, &[domain; 16]).sheet(&Table::of(&goal));
        let lines =
            |line: &str| -> String { symbols.split(' ').map(|symbol| line.replace('?', symbol)).collect() };
        let declared = lines("(declare-fun ? () (_ BitVec 16))\n");
        let ranges = lines("(assert (and (bvsle #x8000 ?) (bvsle ? #x7fff)))\n");
        let goal = format!("(assert (not (bvsle {} #x0000)))", symbol);
        let text = format!("(set-logic QF_UFBV)\n{}{}{}\n(check-sat)\n(exit)\n", declared, ranges, goal);
        out.ask_all("accepted: script, every symbol", &sheet, &written(&text, &[text.len(), 4_096]));
    }
}
