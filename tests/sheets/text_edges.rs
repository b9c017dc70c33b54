// Texts and sheets by hand: the place of every refusal worked out on paper, and what is made of the shortest texts.

use crate::edges::sheet;
use crate::grower::Grower;
use crate::plain::{written, Written};
use crate::question::{Known, Question, Room};
use crate::random::Random;
use crate::text_questions::{made_in_every_room, printed_in_every_room};
use crate::trees::*;
use crate::trial::{Asked, Output};

/// A text and the byte at which it is off.
type Off = (&'static str, usize);

const LINES: [Off; 31] = [
    ("", 0),
    ("\n", 0),
    (" ", 0),
    ("g", 1),
    ("va", 2),
    ("var", 3),
    ("goal", 4),
    ("goal ", 5),
    ("goal\n", 4),
    ("goal \n", 5),
    ("goal true", 9),
    ("goal true\n\n", 10),
    ("goal true\n ", 10),
    ("goal true\ngoal true\n", 10),
    ("goal true\nvar a 0 1\n", 10),
    ("goal true \n", 9),
    ("goal true true\n", 9),
    ("goal  true\n", 5),
    (" goal true\n", 0),
    ("goal\ttrue\n", 4),
    ("goal true\r\n", 9),
    ("Goal true\n", 0),
    ("goals true\n", 4),
    ("goal # true\n", 5),
    ("# a comment\ngoal true\n", 0),
    ("var a 0 1\n", 10),
    ("var a 0 1", 9),
    ("var a 0\n", 7),
    ("var a 0 1 2\n", 9),
    ("var a 0 1\n\ngoal true\n", 10),
    ("variable a 0 1\ngoal true\n", 3),
];

const NAMES: [Off; 28] = [
    ("var not 0 1\ngoal true\n", 7),
    ("var if 0 1\ngoal true\n", 6),
    ("var implies 0 1\ngoal true\n", 11),
    ("var true", 8),
    ("var 0 0 1\n", 4),
    ("var _a 0 1\n", 4),
    ("var a-b 0 1\n", 5),
    ("var a\n", 5),
    ("var  a 0 1\n", 4),
    ("var abcdefghijklmnopq 0 1\n", 20),
    ("var abcdefghijklmnop", 20),
    ("goal x\n", 5),
    ("goal no\n", 7),
    ("goal no", 7),
    ("goal nob\n", 7),
    ("goal nott\n", 8),
    ("goal True\n", 5),
    ("goal var\n", 5),
    ("goal goal\n", 5),
    ("var nota 0 1\ngoal nob\n", 20),
    ("var nota 0 1\ngoal not\n", 21),
    ("var nota 0 1\ngoal notb\n", 21),
    ("var a 0 1\ngoal eq a ab\n", 21),
    ("var ab 0 1\ngoal eq ab a\n", 23),
    ("var abc 0 1\ngoal eq abc abcd\n", 27),
    ("var abc 0 1\ngoal eq abc ab\n", 26),
    ("var a 0 1\nvar b 0 1\ngoal eq c b\n", 28),
    ("goal eq b 0\nvar b 0 1\n", 8),
];

const NUMBERS: [Off; 25] = [
    ("var x 0 32768\n", 12),
    ("var x -32769 0\n", 11),
    ("var x -0 0\n", 7),
    ("var x 01 0\n", 7),
    ("var x 00 0\n", 7),
    ("var x +1 0\n", 6),
    ("var x - 0\n", 7),
    ("var x -", 7),
    ("var x --1 0\n", 7),
    ("var x a 0\n", 6),
    ("var x 1a 0\n", 7),
    ("var x 0\n", 7),
    ("var x 0 \n", 8),
    ("var x 0 1 \n", 9),
    ("var x 1.5 2\n", 7),
    ("var x 0x1 2\n", 7),
    ("goal eq 0 32768\n", 14),
    ("goal eq 0 -32769\n", 15),
    ("goal eq 0 100000\n", 15),
    ("goal eq 0 99999\n", 14),
    ("goal eq -0 0\n", 9),
    ("goal eq 00 0\n", 9),
    ("goal eq 0 -\n", 11),
    ("goal eq 0 +0\n", 10),
    ("goal eq 0 1000000000000000000000000000000\n", 15),
];

const EXPRESSIONS: [Off; 14] = [
    ("goal not\n", 8),
    ("goal not \n", 9),
    ("goal not not\n", 12),
    ("goal and true\n", 13),
    ("goal and true true true\n", 18),
    ("goal add 1\n", 10),
    ("goal add 1 2 3\n", 12),
    ("goal if true 1\n", 14),
    ("goal if true 1 2 3\n", 16),
    ("goal 1 2\n", 6),
    ("goal true false\n", 9),
    ("goal (true)\n", 5),
    ("goal not, true\n", 8),
    ("goal eq\n1 1\n", 7),
];

/// Texts, and the number and place with which each is refused: its sheet would be so refused.
const REFUSED: [(&str, u64, usize); 18] = [
    ("goal 0\n", 7, 0),
    ("goal add 1 2\n", 7, 2),
    ("goal if true 1 2\n", 7, 3),
    ("goal eq true 1\n", 7, 2),
    ("goal not 1\n", 7, 1),
    ("goal and eq 1 1 add true 1\n", 7, 5),
    ("goal if 1 2 3\n", 7, 3),
    ("goal neg -32768\n", 8, 1),
    ("goal eq 0 neg -32768\n", 8, 2),
    ("goal lt add 32767 1 0\n", 8, 2),
    ("goal lt 0 mul 256 128\n", 8, 3),
    ("goal lt 0 sub -32768 1\n", 8, 3),
    ("var a 1 0\ngoal true\n", 5, 0),
    ("var a 0 1\nvar a 0 1\ngoal true\n", 5, 1),
    ("var a 0 1\nvar b 1 0\nvar a 0 1\ngoal not a\n", 5, 1),
    ("var a 0 1\nvar b 0 1\nvar b 1 0\ngoal not a\n", 5, 2),
    ("var a 0 1\ngoal a\n", 7, 0),
    ("var a -32768 0\ngoal not neg a\n", 8, 1),
];

pub fn make(random: &mut Random, out: &mut Output) {
    for (what, table) in
        [("lines", &LINES[..]), ("names", &NAMES), ("numbers", &NUMBERS), ("expressions", &EXPRESSIONS)]
    {
        for &(text, place) in table {
            refused(out, &format!("18: text by hand, {}", what), text, 18, place);
        }
    }
    for (text, number, place) in REFUSED {
        refused(out, &format!("{}: text by hand", number), text, number, place);
    }
    for rule in by_hand() {
        out.ask_all("accepted: text by hand", &rule.text, &made_in_every_room(random, &rule));
    }
    for (text, rule) in short(random) {
        assert_eq!(text.as_bytes(), rule.text, "the printed form, and what stands here");
        out.ask_all("accepted: text by hand, short", &rule.text, &made_in_every_room(random, &rule));
    }
}

fn refused(out: &mut Output, label: &str, text: &str, number: u64, place: usize) {
    let known = || Some(Known::refused(number, place));
    let room = |length: usize| Room { length, pattern: 0x9e37_79b9 };
    let questions: Vec<Asked> = vec![
        (Question::Make(room(1_024)), known()),
        (Question::Make(room(0)), known()),
        (Question::MakeText(room(100)), known()),
    ];
    out.ask_all(label, text.as_bytes(), &questions);
}

fn whole(text: &str, sheet: Vec<u8>) -> Written {
    Written { text: text.as_bytes().to_vec(), sheet, marked: Vec::new() }
}

/// Their sheets are written out byte by byte, with checks that were worked out on paper.
fn by_hand() -> Vec<Written> {
    let head = [1, 0, 1, 0, 0];
    let two = [1, 0, 3, 0, 2];
    let seated = [0, 0, 1, 0, 6, 0, b's', b'e', b'a', b't', b'e', b'd'];
    let trained = [0, 0, 1, 0, 7, 0, b't', b'r', b'a', b'i', b'n', b'e', b'd'];
    let sheet_a = sheet(
        1_024,
        &[
            (0, &two),
            (8, &seated),
            (32, &trained),
            (510, &[0x32, 0xa6]),
            (512, &[17]),
            (528, &[17, 0, 1, 0]),
            (544, &[8, 0, 0, 0, 1, 0]),
            (1_022, &[0x74, 0x02]),
        ],
    );
    vec![
        whole("goal true\n", sheet(1_024, &[(0, &head), (510, &[5]), (512, &[1]), (1_022, &[3])])),
        whole("goal false\n", sheet(1_024, &[(0, &head), (510, &[5]), (512, &[2]), (1_022, &[4])])),
        whole("var seated 0 1\nvar trained 0 1\ngoal eq seated trained\n", sheet_a),
    ]
}

/// Rules with names that may be taken for something else, numbers at their ends, and the order of operands.
fn short(random: &mut Random) -> Vec<(&'static str, Written)> {
    let mut rule = |text: &'static str, names: &[(&str, Range)], goal: fn(&[Tree]) -> Tree| {
        let mut grower = Grower::new(random, 0);
        for (name, domain) in names {
            let number = grower.add_variable(*domain);
            grower.variables[number].name = name.as_bytes().to_vec();
        }
        let variables: Vec<Tree> = names.iter().enumerate().map(|(i, name)| variable(i, name.1)).collect();
        (text, written(&grower, &goal(&variables)))
    };
    let both = (0, 1);
    vec![
        rule("var var 0 1\nvar goal 0 1\ngoal eq var goal\n", &[("var", both), ("goal", both)], |v| {
            node(8, vec![v[0].clone(), v[1].clone()])
        }),
        rule("var nota 0 1\nvar n 0 1\ngoal not eq nota n\n", &[("nota", both), ("n", both)], |v| {
            node(3, vec![node(8, vec![v[0].clone(), v[1].clone()])])
        }),
        rule("var Not 0 1\ngoal lt Not 1\n", &[("Not", both)], |v| node(9, vec![v[0].clone(), constant(1)])),
        rule("var x -32768 32767\ngoal le x 32767\n", &[("x", (LOW, HIGH))], |v| {
            node(10, vec![v[0].clone(), constant(HIGH)])
        }),
        rule("goal lt -32768 0\n", &[], |_| node(9, vec![constant(LOW), constant(0)])),
        rule("goal eq sub 5 3 2\n", &[], |_| {
            node(8, vec![node(DIFFERENCE, vec![constant(5), constant(3)]), constant(2)])
        }),
        rule("goal eq 3 if lt 1 2 3 -4\n", &[], |_| {
            let less = node(9, vec![constant(1), constant(2)]);
            node(8, vec![constant(3), node(CHOICE, vec![less, constant(3), constant(-4)])])
        }),
    ]
}

/// The same rules, and names that are words, for the printer.
pub fn print(random: &mut Random, out: &mut Output) {
    for rule in by_hand().into_iter().chain(short(random).into_iter().map(|(_, rule)| rule)) {
        out.ask_all("accepted: print by hand", &rule.sheet, &printed_in_every_room(random, &rule));
    }
    let named = |names: &[&str]| {
        let mut records: Vec<(usize, Vec<u8>)> = vec![(0, vec![1, 0, 1, 0, names.len() as u8])];
        for (number, name) in names.iter().enumerate() {
            let record = [&[0, 0, 0, 0, name.len() as u8, 0], name.as_bytes()].concat();
            records.push((8 + 24 * number, record));
        }
        records.push((512, vec![1]));
        let records: Vec<(usize, &[u8])> = records.iter().map(|(at, bytes)| (*at, &bytes[..])).collect();
        let mut sheet = sheet(1_024, &records);
        crate::layout::seal(&mut sheet);
        sheet
    };
    for (names, place) in [
        (&["if"][..], 0),
        (&["a", "true"], 1),
        (&["a", "neg", "b", "or"], 1),
        (&["nota", "not", "no"], 1),
        (&["goal", "var", "False", "iff"], 3),
    ] {
        let room = |length: usize| Room { length, pattern: 0x9e37_79b9 };
        let known = || Some(Known::refused(19, place));
        let questions = [
            (Question::Read, Some(Known::said(0))),
            (Question::Text(room(0)), known()),
            (Question::Text(room(500)), known()),
            (Question::TextMake(room(1_024)), known()),
        ];
        out.ask_all("accepted: print by hand, a name that is a word", &named(names), &questions);
    }
}
