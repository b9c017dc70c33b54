// Document 01's cases at each edge that concern check and tally (1, 2, 3, 12), all written out by hand; and
// a small rule for each kind of node, its outcome by hand.

use crate::edges::{refused, sheet};
use crate::grower::Grower;
use crate::question::{Known, Question, Room};
use crate::random::Random;
use crate::trees::*;
use crate::trial::{Asked, Output};

const ACCEPTED: u64 = 0;
const HOLDS: u64 = 0;
const FAILS: u64 = 1;

fn tallied(held: u64, failed: u64) -> u64 {
    held * 16_777_216 + failed
}

pub fn make(random: &mut Random, out: &mut Output) {
    edge_1(out);
    edges_2_and_3(out);
    edge_12(out);
    for row in KIND_TABLE {
        kind(random, out, row);
    }
}

fn read() -> Asked {
    (Question::Read, Some(Known::said(ACCEPTED)))
}

/// The check with room for this many numbers, and the numbers that stand at the room's front afterwards.
fn check(length: usize, said: u64, case: &[i16]) -> Asked {
    let front = case.iter().flat_map(|value| value.to_le_bytes()).collect();
    (Question::Check(Room { length, pattern: 0x9e37_79b9 }), Some(Known { said, front }))
}

fn tally(said: u64) -> Asked {
    (Question::Tally, Some(Known::said(said)))
}

/// Sheet A: 4 cases, first failure (0, 1), held 2, failed 2.
fn edge_1(out: &mut Output) {
    let sheet = sheet(
        1_024,
        &[
            (0, &[1, 0, 3, 0, 2]),
            (8, &[0, 0, 1, 0, 6, 0, b's', b'e', b'a', b't', b'e', b'd']),
            (32, &[0, 0, 1, 0, 7, 0, b't', b'r', b'a', b'i', b'n', b'e', b'd']),
            (510, &[0x32, 0xa6]),
            (512, &[17]),
            (528, &[17, 0, 1, 0]),
            (544, &[8, 0, 0, 0, 1, 0]),
            (1_022, &[0x74, 0x02]),
        ],
    );
    out.ask_all(
        "accepted: edge 1, sheet A",
        &sheet,
        &[
            read(),
            check(0, refused(9, 2), &[]),
            check(1, refused(9, 2), &[]),
            check(2, FAILS, &[0, 1]),
            check(3, FAILS, &[0, 1]),
            check(16, FAILS, &[0, 1]),
            tally(tallied(2, 2)),
        ],
    );
}

fn edges_2_and_3(out: &mut Output) {
    let goal_true =
        sheet(1_024, &[(0, &[1, 0, 1, 0, 0]), (510, &[0x05, 0x00]), (512, &[1]), (1_022, &[0x03, 0x00])]);
    out.ask_all(
        "accepted: edge 2, goal true",
        &goal_true,
        &[read(), check(0, HOLDS, &[]), check(1, HOLDS, &[]), check(20, HOLDS, &[]), tally(tallied(1, 0))],
    );
    let goal_false =
        sheet(1_024, &[(0, &[1, 0, 1, 0, 0]), (510, &[0x05, 0x00]), (512, &[2]), (1_022, &[0x04, 0x00])]);
    out.ask_all(
        "accepted: edge 3, goal false",
        &goal_false,
        &[read(), check(0, FAILS, &[]), check(1, FAILS, &[]), check(20, FAILS, &[]), tally(tallied(0, 1))],
    );
}

/// x + y at most a constant, x from 0 to 999 and y from 0 to 999; then to 100 and to 9,900.
fn edge_12(out: &mut Output) {
    let with = |x: [u8; 2], y: [u8; 2], constant: [u8; 2], checks: [[u8; 2]; 2]| {
        sheet(
            1_024,
            &[
                (0, &[1, 0, 5, 0, 2]),
                (8, &[0, 0, x[0], x[1], 1, 0, b'x']),
                (32, &[0, 0, y[0], y[1], 1, 0, b'y']),
                (510, &checks[0]),
                (512, &[17]),
                (528, &[17, 0, 1, 0]),
                (544, &[19, 0, 0, 0, 1, 0]),
                (560, &[16, 0, 0, 0, 0, 0, 0, 0, constant[0], constant[1]]),
                (576, &[10, 0, 2, 0, 3, 0]),
                (1_022, &checks[1]),
            ],
        )
    };
    // At most 1,998 holds; at most 1,997 fails in the last case alone.
    let holds = with([0xe7, 0x03], [0xe7, 0x03], [0xce, 0x07], [[0xd6, 0x43], [0x42, 0x3a]]);
    out.ask_all(
        "accepted: edge 12, 1,000 by 1,000, all hold",
        &holds,
        &[read(), check(1, refused(9, 2), &[]), check(2, HOLDS, &[]), tally(tallied(1_000_000, 0))],
    );
    let fails = with([0xe7, 0x03], [0xe7, 0x03], [0xcd, 0x07], [[0xd6, 0x43], [0x09, 0x3a]]);
    out.ask_all(
        "accepted: edge 12, 1,000 by 1,000, the last fails",
        &fails,
        &[read(), check(0, refused(9, 2), &[]), check(3, FAILS, &[999, 999]), tally(tallied(999_999, 1))],
    );
    let too_many = with([0x64, 0x00], [0xac, 0x26], [0x0f, 0x27], [[0xec, 0x3a], [0xfb, 0x16]]);
    out.ask_all(
        "accepted: edge 12, 101 by 9,901",
        &too_many,
        &[
            read(),
            check(0, refused(10, 0), &[]),
            check(1, refused(10, 0), &[]),
            check(2, refused(10, 0), &[]),
            check(9, refused(10, 0), &[]),
            tally(refused(10, 0)),
        ],
    );
}

/// A kind, the domain of x and of y, a goal over them, the first failing case, held and failed.
type Row = (u8, Range, fn(Tree, Tree) -> Tree, [i16; 2], u64, u64);

const BITS: Range = (0, 1);
const SIGNS: Range = (-1, 1);

/// Of a truth value, p is x = 1 and q is y = 1.
const KIND_TABLE: [Row; 17] = [
    (1, BITS, |x, _| node(7, vec![is_1(x), node(1, vec![])]), [0, 0], 2, 2),
    (2, BITS, |x, _| node(7, vec![is_1(x), node(2, vec![])]), [1, 0], 2, 2),
    (3, BITS, |x, _| node(3, vec![is_1(x)]), [1, 0], 2, 2),
    (4, BITS, |x, y| node(4, vec![is_1(x), is_1(y)]), [0, 0], 1, 3),
    (5, BITS, |x, y| node(5, vec![is_1(x), is_1(y)]), [0, 0], 3, 1),
    (6, BITS, |x, y| node(6, vec![is_1(x), is_1(y)]), [1, 0], 3, 1),
    (7, BITS, |x, y| node(7, vec![is_1(x), is_1(y)]), [0, 1], 2, 2),
    (8, SIGNS, |x, y| node(8, vec![x, y]), [-1, 0], 3, 6),
    (9, SIGNS, |x, y| node(9, vec![x, y]), [-1, -1], 3, 6),
    (10, SIGNS, |x, y| node(10, vec![x, y]), [0, -1], 6, 3),
    (16, SIGNS, |x, _| node(9, vec![x, constant(1)]), [1, -1], 6, 3),
    (17, SIGNS, |_, y| node(9, vec![y, constant(1)]), [-1, 1], 6, 3),
    (18, SIGNS, |x, _| node(10, vec![node(18, vec![x]), constant(0)]), [-1, -1], 6, 3),
    (19, SIGNS, |x, y| node(10, vec![node(19, vec![x, y]), constant(1)]), [1, 1], 8, 1),
    (20, SIGNS, |x, y| node(10, vec![node(20, vec![x, y]), constant(1)]), [1, -1], 8, 1),
    (21, SIGNS, |x, y| node(10, vec![node(21, vec![x, y]), constant(0)]), [-1, -1], 7, 2),
    (
        22,
        SIGNS,
        |x, y| node(10, vec![node(22, vec![negative(x), y, constant(1)]), constant(0)]),
        [-1, 1],
        2,
        7,
    ),
];

fn is_1(x: Tree) -> Tree {
    node(8, vec![x, constant(1)])
}

fn negative(x: Tree) -> Tree {
    node(9, vec![x, constant(0)])
}

fn kind(random: &mut Random, out: &mut Output, (kind, domain, goal, case, held, failed): Row) {
    let grower = Grower::with_domains(random, &[domain, domain]);
    let goal = goal(variable(0, domain), variable(1, domain));
    out.ask_all(
        &format!("accepted: outcome of kind {}", kind),
        &grower.sheet(&Table::of(&goal)),
        &[read(), check(1, refused(9, 2), &[]), check(5, FAILS, &case), tally(tallied(held, failed))],
    );
}
