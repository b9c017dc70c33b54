// Replies by hand, to sheet A and to sheets with no variable, with one and with eleven: every refusal at its place.

use crate::edges::{refused, sheet};
use crate::question::{Known, Question};
use crate::random::Random;
use crate::trial::Output;

const UNSAT: u64 = 0;
const FAILS: u64 = 1;

pub fn make(_: &mut Random, out: &mut Output) {
    sheet_a(out);
    no_variables(out);
    one_variable(out);
    refused_sheet(out);
    eleven(out);
}

/// A reply's answer, and a variable's digits: where they begin, how many there are, and whose they are.
type Row<'r> = (&'r [u8], u64, &'r [(u64, u64)]);

fn ask(out: &mut Output, name: &str, sheet: &[u8], (reply, said, digits): Row) {
    let verdict = if said >> 48 == 0 { "accepted".to_string() } else { (said >> 48).to_string() };
    let known = |variable: usize| digits.get(variable).map_or(0, |&(from, count)| from * 65_536 + count);
    let mut questions = vec![(Question::Reply, Some(Known::said(said)))];
    questions.extend(
        [0, 1, 2, 10, 15, 16, 65_535]
            .map(|variable: u16| (Question::Digits(variable), Some(Known::said(known(variable.into()))))),
    );
    out.ask_about(&format!("{}: reply by hand, {}", verdict, name), sheet, reply, &questions);
}

fn sheet_a(out: &mut Output) {
    let sheet = sheet(
        1_024,
        &[
            (0, &[1, 0, 3, 0, 2]),
            (8, &[0, 0, 1, 0, 6, 0, b's', b'e', b'a', b't', b'e', b'd']),
            (32, &[0, 0, 1, 0, 7, 0, b't', b'r', b'a', b'i', b'n', b'e', b'd']),
            (510, &[0x32, 0xa6]),
            (512, &[17]),
            (528, &[17, 0, 1, 0]),
            (544, &[8, 0, 0, 0, 1, 0]),
            (1_022, &[0x74, 0x02]),
        ],
    );
    let rows: [Row; 39] = [
        // As document 02, z3 and cvc5 write it.
        (b"sat ((v0 #x0000) (v1 #x0001))", FAILS, &[(11, 4), (23, 4)]),
        (b"sat\n((v0 #x0000)\n (v1 #x0001))\n", FAILS, &[(11, 4), (24, 4)]),
        (b"sat\n((v0 #b0000000000000000) (v1 #b0000000000000001))\n", FAILS, &[(11, 16), (35, 16)]),
        (b"sat((v0 #x0001)(v1 #x0000))", FAILS, &[(10, 4), (21, 4)]),
        (b"\t\r\n sat\t(\r(\nv0 #x0000\t)\r(\nv1\t#b0000000000000001 ) ) \r\n", FAILS, &[(17, 4), (31, 16)]),
        (b"unsat", UNSAT, &[]),
        (b"unsat\n", UNSAT, &[]),
        (b" \nunsat ((((", UNSAT, &[]),
        (b"unsat\n(error \"line 9 column 18: model is not available\")\n", UNSAT, &[]),
        (b"unsat sat ((v0 #x0000) (v1 #x0001))", UNSAT, &[]),
        (b"", refused(11, 0), &[]),
        (b"\n\n", refused(11, 2), &[]),
        (b"s", refused(11, 1), &[]),
        (b"sa", refused(11, 2), &[]),
        (b"sat", refused(11, 3), &[]),
        (b"sat\n", refused(11, 4), &[]),
        (b"sat unsat", refused(11, 4), &[]),
        (b"sat((v0 #x0000)(v1 #x0001)", refused(11, 26), &[]),
        (b"sat((v0 #x0000)(v1 #x0001)))", refused(11, 27), &[]),
        (b"sat((v0 #x0000)(v1 #x0001)) ;", refused(11, 28), &[]),
        (b"sat;(\n((v0 #x0000)(v1 #x0001))", refused(11, 3), &[]),
        (b"sat((v0#x0000)(v1 #x0001))", refused(11, 7), &[]),
        (b"sat((v1 #x0001)(v0 #x0000))", refused(11, 6), &[]),
        (b"sat((v0 #x0000)(v0 #x0000)(v1 #x0001))", refused(11, 17), &[]),
        (b"sat((v0 #x0000))", refused(11, 15), &[]),
        (b"sat((v0 #x0000)(v1 #x0001)(v2 #x0000))", refused(11, 26), &[]),
        (b"sat((v00 #x0000)(v1 #x0001))", refused(11, 7), &[]),
        (b"sat((v0 #x0000)(v016 #x0001))", refused(11, 17), &[]),
        (b"sat((v0 #x0000000000000000)(v1 #x0001))", refused(11, 14), &[]),
        (b"sat((v0 #b0000)(v1 #x0001))", refused(11, 14), &[]),
        (b"sat((v0 #X0000)(v1 #x0001))", refused(11, 9), &[]),
        (b"sat((v0 #B0000000000000000)(v1 #x0001))", refused(11, 9), &[]),
        (b"unsat)", refused(11, 5), &[]),
        (b"unsatisfiable", refused(11, 5), &[]),
        (b"unknown", refused(11, 2), &[]),
        (b"sat((v0 #x0002)(v1 #xffff))", refused(12, 0), &[]),
        (b"sat((v0 #x0000)(v1 #xFFFF))", refused(12, 1), &[]),
        (b"sat((v0 #x0000)(v1 #x0000))", refused(13, 0), &[]),
        (b"sat((v0 #b0000000000000001)(v1 #b0000000000000001))", refused(13, 0), &[]),
    ];
    rows.into_iter().for_each(|row| ask(out, "sheet A", &sheet, row));
}

/// The goal is false.
fn no_variables(out: &mut Output) {
    let sheet = sheet(1_024, &[(0, &[1, 0, 1]), (510, &[0x05, 0x00]), (512, &[2]), (1_022, &[0x04, 0x00])]);
    let rows: [Row; 9] = [
        (b"sat", FAILS, &[]),
        (b" sat\r\n", FAILS, &[]),
        (b"unsat", UNSAT, &[]),
        (b"sat()", refused(11, 3), &[]),
        (b"sat\n()", refused(11, 4), &[]),
        (b"sat((v0 #x0000))", refused(11, 3), &[]),
        (b"sat\0", refused(11, 3), &[]),
        (b"\xefsat", refused(11, 0), &[]),
        (b"sat\n(error \"no values\")", refused(11, 4), &[]),
    ];
    rows.into_iter().for_each(|row| ask(out, "no variables", &sheet, row));
}

/// x in -2..3, and the goal is true: nothing fails.
fn one_variable(out: &mut Output) {
    let sheet = sheet(
        1_024,
        &[
            (0, &[1, 0, 1, 0, 1]),
            (8, &[0xfe, 0xff, 3, 0, 1, 0, b'x']),
            (510, &[0x24, 0x1a]),
            (512, &[1]),
            (1_022, &[0x03, 0x00]),
        ],
    );
    let rows: [Row; 7] = [
        (b"sat((v0 #xfffe))", refused(13, 0), &[]),
        (b"sat((v0 #b0000000000000011))", refused(13, 0), &[]),
        (b"sat((v0 #xfffd))", refused(12, 0), &[]),
        (b"sat((v0 #x0004))", refused(12, 0), &[]),
        (b"sat((v0 #x8000))", refused(12, 0), &[]),
        (b"sat(v0 #xfffe)", refused(11, 4), &[]),
        (b"unsat", UNSAT, &[]),
    ];
    rows.into_iter().for_each(|row| ask(out, "one variable", &sheet, row));
}

/// The sheet's own refusals come first.
fn refused_sheet(out: &mut Output) {
    for reply in [&b"unsat"[..], b"sat", b"", b";"] {
        ask(out, "no sheet", &[], (reply, refused(1, 0), &[]));
    }
}

/// Eleven variables a to k of one value, 0, and a goal that is false: v1 may go on as v10 in the last pair alone.
fn eleven(out: &mut Output) {
    let names: Vec<Vec<u8>> = (0..11).map(|number| vec![0, 0, 0, 0, 1, 0, b'a' + number]).collect();
    let mut parts: Vec<(usize, &[u8])> = vec![(0, &[1, 0, 1, 0, 11])];
    parts.extend(names.iter().enumerate().map(|(number, record)| (8 + 24 * number, &record[..])));
    parts.extend([(510, &[0x0f, 0x60][..]), (512, &[2]), (1_022, &[0x04, 0x00])]);
    let sheet = sheet(1_024, &parts);
    let pairs: String = (0..10).map(|number| format!("(v{} #x0000)", number)).collect();
    let reply = |last: &str| format!("sat({}{})", pairs, last).into_bytes();
    let tenth = 4 + 11 * 10;
    let rows = [
        ("(v10 #x0000)", FAILS),
        ("(v1 #x0000)", refused(11, tenth + 3)),
        ("(v11 #x0000)", refused(11, tenth + 3)),
        ("(v100 #x0000)", refused(11, tenth + 4)),
        ("(v10#x0000)", refused(11, tenth + 4)),
        ("(v10 #x0001)", refused(12, 10)),
    ];
    for (last, said) in rows {
        let spans: Vec<(u64, u64)> = (0..10).map(|of| (10 + 11 * of, 4)).chain([(tenth + 7, 4)]).collect();
        let digits = if said == FAILS { &spans[..] } else { &[] };
        ask(out, "eleven variables", &sheet, (&reply(last), said, digits));
    }
}
