// The script's second form, written out by hand: sheet A's, one without variables, and all sixteen symbols.

use crate::edges::{refused, sheet};
use crate::grower::Grower;
use crate::question::{Known, Question, Room};
use crate::random::Random;
use crate::trees::*;
use crate::trial::{Asked, Output};

pub fn make(random: &mut Random, out: &mut Output) {
    sheet_a(out);
    no_variables(out);
    every_symbol(random, out);
}

/// The script in rooms of these lengths; in those that are too short nothing is written.
fn asked(text: &str, rooms: &[usize]) -> Vec<Asked> {
    let known = |room: usize| match room < text.len() {
        true => Known::said(refused(9, text.len() as u64)),
        false => Known { said: text.len() as u64, front: text.as_bytes().to_vec() },
    };
    let ask = |&length: &usize| (Question::Ask(Room { length, pattern: 0x9e37_79b9 }), Some(known(length)));
    [(Question::Read, Some(Known::said(0)))].into_iter().chain(rooms.iter().map(ask)).collect()
}

const SHEET_A: &str = "\
(set-option :produce-models true)
(set-logic QF_UFBV)
(declare-fun v0 () (_ BitVec 16))
(declare-fun v1 () (_ BitVec 16))
(assert (and (bvsle #x0000 v0) (bvsle v0 #x0001)))
(assert (and (bvsle #x0000 v1) (bvsle v1 #x0001)))
(assert (not (= v0 v1)))
(check-sat)
(get-value (v0 v1))
(exit)
";

fn sheet_a(out: &mut Output) {
    let sheet = sheet(
        1_024,
        &[
            (0, &[1, 0, 3, 0, 2]),
            (8, &[0, 0, 1, 0, 6, 0, b's', b'e', b'a', b't', b'e', b'd']),
            (32, &[0, 0, 1, 0, 7, 0, b't', b'r', b'a', b'i', b'n', b'e', b'd']),
            (510, &[0x32, 0xa6]),
            (512, &[17]),
            (528, &[17, 0, 1, 0]),
            (544, &[8, 0, 0, 0, 1, 0]),
            (1_022, &[0x74, 0x02]),
        ],
    );
    let rooms = [0, 1, 234, 287, 288, 289, 4_096, 5_000];
    out.ask_all("accepted: ask by hand, sheet A", &sheet, &asked(SHEET_A, &rooms));
}

/// There is nothing to ask the value of.
fn no_variables(out: &mut Output) {
    let sheet = sheet(1_024, &[(0, &[1, 0, 1]), (510, &[0x05, 0x00]), (512, &[2]), (1_022, &[0x04, 0x00])]);
    let text = "\
(set-option :produce-models true)
(set-logic QF_UFBV)
(assert (not false))
(check-sat)
(exit)
";
    out.ask_all("accepted: ask by hand, no variables", &sheet, &asked(text, &[93, 94, 95, 4_096]));
}

fn every_symbol(random: &mut Random, out: &mut Output) {
    let domain = (-32_768, 32_767);
    let symbols = "v0 v1 v2 v3 v4 v5 v6 v7 v8 v9 v10 v11 v12 v13 v14 v15";
    let goal = node(10, vec![variable(15, domain), constant(0)]);
    let sheet = Grower::with_domains(random, &[domain; 16]).sheet(&Table::of(&goal));
    let lines =
        |line: &str| -> String { symbols.split(' ').map(|symbol| line.replace('?', symbol)).collect() };
    let text = format!(
        "(set-option :produce-models true)\n(set-logic QF_UFBV)\n{}{}(assert (not (bvsle v15 #x0000)))\n\
         (check-sat)\n(get-value (v0 v1 v2 v3 v4 v5 v6 v7 v8 v9 v10 v11 v12 v13 v14 v15))\n(exit)\n",
        lines("(declare-fun ? () (_ BitVec 16))\n"),
        lines("(assert (and (bvsle #x8000 ?) (bvsle ? #x7fff)))\n"),
    );
    let rooms = [text.len() - 1, text.len(), text.len() + 1, 4_096];
    out.ask_all("accepted: ask by hand, every symbol", &sheet, &asked(&text, &rooms));
}
