// Document 01's cases at each edge that concern reading (4, 7 to 11, 14, 15), its sheet A and its worked
// check. Bytes, checks and answers are all written out by hand.

use crate::question::Question;
use crate::random::Random;
use crate::trial::Output;
use Question::{Block, Name, Read};

const ACCEPTED: u64 = 0;

/// The answer of `read` that is refusal `number` at `place`.
pub const fn refused(number: u64, place: u64) -> u64 {
    number * 281_474_976_710_656 + place
}

/// A sheet of this length with these bytes at these places, and zero elsewhere.
pub fn sheet(length: usize, parts: &[(usize, &[u8])]) -> Vec<u8> {
    let mut sheet = vec![0; length];
    for (place, bytes) in parts {
        sheet[*place..place + bytes.len()].copy_from_slice(bytes);
    }
    sheet
}

pub fn make(_: &mut Random, out: &mut Output) {
    let mut edge = |label: &str, sheet: &[u8], answers: &[(Question, u64)]| {
        let known: Vec<_> = answers.iter().map(|&(question, answer)| (question, Some(answer))).collect();
        out.ask(label, sheet, &known);
    };
    sheet_a(&mut edge);
    worked_check(&mut edge);
    edge_4(&mut edge);
    edges_7_and_8(&mut edge);
    edges_9_and_10(&mut edge);
    edge_11(&mut edge);
    edges_14_and_15(&mut edge);
}

type Edge<'e> = &'e mut dyn FnMut(&str, &[u8], &[(Question, u64)]);

fn sheet_a(edge: Edge) {
    let sheet = sheet(
        1_024,
        &[
            (0, &[1, 0, 3, 0, 2]),
            (8, &[0, 0, 1, 0, 6, 0, b's', b'e', b'a', b't', b'e', b'd']),
            (32, &[0, 0, 1, 0, 7, 0, b't', b'r', b'a', b'i', b'n', b'e', b'd']),
            (510, &[0x32, 0xa6]),
            (512, &[17]),
            (528, &[17, 0, 1, 0]),
            (544, &[8, 0, 0, 0, 1, 0]),
            (1_022, &[0x74, 0x02]),
        ],
    );
    edge(
        "accepted: sheet A",
        &sheet,
        &[
            (Read, ACCEPTED),
            (Name(0), 14 * 65_536 + 6),
            (Name(1), 38 * 65_536 + 7),
            (Name(2), 0),
            (Name(65_535), 0),
            (Block(0), 510),
            (Block(1), 510),
            (Block(2), 0),
            (Block(18_446_744_073_709_551_615), 0),
        ],
    );
}

/// Byte 0 = 1 and byte 509 = 255: check 64,531 in block 0, so 64,532 in block 1.
fn worked_check(edge: Edge) {
    let right =
        sheet(1_024, &[(0, &[1]), (509, &[255, 0x13, 0xfc]), (512, &[1]), (1_021, &[255, 0x14, 0xfc])]);
    edge(
        "4: worked check",
        &right,
        &[(Read, refused(4, 0)), (Block(0), 510), (Block(1), 510), (Block(2), 0)],
    );
    // Block 0 stores block 1's check and the other way round.
    let wrong =
        sheet(1_024, &[(0, &[1]), (509, &[255, 0x14, 0xfc]), (512, &[1]), (1_021, &[255, 0x13, 0xfc])]);
    edge("2: worked check, one off", &wrong, &[(Read, refused(2, 0)), (Block(0), 0), (Block(1), 0)]);
    edge("1: worked check, a byte short", &right[..511], &[(Read, refused(1, 0)), (Block(0), 0)]);
    edge(
        "1: worked check, a byte over",
        &right[..513],
        &[(Read, refused(1, 0)), (Block(0), 510), (Block(1), 0)],
    );
}

/// Of the sheet with 1,984 nodes: true, then not, 1,983 times.
const CHECKS_OF_EDGE_4: [u16; 65] = [
    0x025e, 0x8ea4, 0x1f13, 0xaf74, 0x3fe4, 0xd045, 0x60b5, 0xf116, 0x8186, 0x1989, 0x5130, 0xe191, 0x7201,
    0x0271, 0x92d2, 0x2342, 0xb3a3, 0x9da0, 0x834d, 0x13bd, 0xa41e, 0x348e, 0xc4ef, 0x555f, 0xe5c0, 0x1e02,
    0xb56a, 0x45da, 0xd63b, 0x66ab, 0xf70c, 0x877c, 0x17ec, 0xa84d, 0xfd6f, 0x77f7, 0x0867, 0x98c8, 0x2938,
    0xb999, 0x4a09, 0xda6a, 0x04e8, 0xaa14, 0x3a84, 0xcae5, 0x5b55, 0xebb6, 0x7c26, 0x0c96, 0x088e, 0xdc31,
    0x6ca1, 0xfd02, 0x8d72, 0x1de2, 0xae43, 0x3eb3, 0x0870, 0x0e5d, 0x9ebe, 0x2f2e, 0xbf8f, 0x4fff, 0xe060,
];

/// 33,280 bytes: 1,984 nodes (C0 07) in 65 blocks.
fn edge_4(edge: Edge) {
    edge("1: edge 4, empty", &[], &[(Read, refused(1, 0)), (Name(0), 0), (Block(0), 0)]);
    let mut full = sheet(33_280, &[(0, &[1, 0, 0xc0, 0x07, 0]), (512, &[1])]);
    for node in 1..1_984 {
        let record = 512 + 512 * (node / 31) + 16 * (node % 31);
        full[record] = 3;
        full[record + 2..record + 4].copy_from_slice(&(node as u16 - 1).to_le_bytes());
    }
    for (k, check) in CHECKS_OF_EDGE_4.iter().enumerate() {
        full[512 * k + 510..512 * k + 512].copy_from_slice(&check.to_le_bytes());
    }
    edge(
        "accepted: edge 4, 33,280 bytes",
        &full,
        &[(Read, ACCEPTED), (Name(0), 0), (Block(8), 510), (Block(9), 510), (Block(64), 510), (Block(65), 0)],
    );
    edge(
        "4: edge 4, 32,768 bytes",
        &full[..32_768],
        &[(Read, refused(4, 0)), (Name(0), 0), (Block(63), 510), (Block(64), 0)],
    );
    full.push(0);
    edge("1: edge 4, 33,281 bytes", &full, &[(Read, refused(1, 0)), (Block(64), 510), (Block(65), 0)]);
    full.resize(33_792, 0);
    full[33_790] = 66;
    edge(
        "1: edge 4, 33,792 bytes",
        &full,
        &[(Read, refused(1, 0)), (Block(64), 510), (Block(65), 510), (Block(66), 0)],
    );
}

/// 16,384 + 16,383 = 0, and 16,384 + 16,384 = 0: the sum is node 2.
fn edges_7_and_8(edge: Edge) {
    let passes = sheet(
        1_024,
        &[
            (0, &[1, 0, 5, 0, 0]),
            (510, &[0x11, 0x00]),
            (512, &[16, 0, 0, 0, 0, 0, 0, 0, 0x00, 0x40]),
            (528, &[16, 0, 0, 0, 0, 0, 0, 0, 0xff, 0x3f]),
            (544, &[19, 0, 0, 0, 1, 0]),
            (560, &[16]),
            (576, &[8, 0, 2, 0, 3, 0]),
            (1_022, &[0xf4, 0x2b]),
        ],
    );
    edge("accepted: edge 7", &passes, &[(Read, ACCEPTED)]);
    let leaves = sheet(
        1_024,
        &[
            (0, &[1, 0, 5, 0, 0]),
            (510, &[0x11, 0x00]),
            (512, &[16, 0, 0, 0, 0, 0, 0, 0, 0x00, 0x40]),
            (528, &[16, 0, 0, 0, 0, 0, 0, 0, 0x00, 0x40]),
            (544, &[19, 0, 0, 0, 1, 0]),
            (560, &[16]),
            (576, &[8, 0, 2, 0, 3, 0]),
            (1_022, &[0x27, 0x13]),
        ],
    );
    edge("8: edge 8", &leaves, &[(Read, refused(8, 2))]);
}

/// Minus x, at most 0; then minus x with constants added that its range 0..32,767 allows or not.
fn edges_9_and_10(edge: Edge) {
    let minus = sheet(
        1_024,
        &[
            (0, &[1, 0, 4, 0, 1]),
            (8, &[0x01, 0x80, 0, 0, 1, 0, b'x']),
            (510, &[0x31, 0x0c]),
            (512, &[17]),
            (528, &[18]),
            (544, &[16]),
            (560, &[10, 0, 1, 0, 2, 0]),
            (1_022, &[0xdc, 0x05]),
        ],
    );
    edge("accepted: edge 9", &minus, &[(Read, ACCEPTED), (Name(0), 14 * 65_536 + 1), (Name(1), 0)]);
    let with_1 = sheet(
        1_024,
        &[
            (0, &[1, 0, 6, 0, 1]),
            (8, &[0x01, 0x80, 0, 0, 1, 0, b'x']),
            (510, &[0x37, 0x0c]),
            (512, &[17]),
            (528, &[18]),
            (544, &[16, 0, 0, 0, 0, 0, 0, 0, 1, 0]),
            (560, &[19, 0, 1, 0, 2, 0]),
            (576, &[16]),
            (592, &[10, 0, 3, 0, 4, 0]),
            (1_022, &[0x45, 0x11]),
        ],
    );
    edge("8: edge 9, and 1", &with_1, &[(Read, refused(8, 3)), (Name(0), 0)]);
    let less_32_768 = sheet(
        1_024,
        &[
            (0, &[1, 0, 6, 0, 1]),
            (8, &[0x01, 0x80, 0, 0, 1, 0, b'x']),
            (510, &[0x37, 0x0c]),
            (512, &[17]),
            (528, &[18]),
            (544, &[16, 0, 0, 0, 0, 0, 0, 0, 0x00, 0x80]),
            (560, &[19, 0, 1, 0, 2, 0]),
            (576, &[16]),
            (592, &[10, 0, 3, 0, 4, 0]),
            (1_022, &[0x1c, 0x26]),
        ],
    );
    edge("accepted: edge 9, and -32,768", &less_32_768, &[(Read, ACCEPTED)]);
    let less_32_769 = sheet(
        1_024,
        &[
            (0, &[1, 0, 8, 0, 1]),
            (8, &[0x01, 0x80, 0, 0, 1, 0, b'x']),
            (510, &[0x3d, 0x0c]),
            (512, &[17]),
            (528, &[18]),
            (544, &[16, 0, 0, 0, 0, 0, 0, 0, 0x00, 0x80]),
            (560, &[19, 0, 1, 0, 2, 0]),
            (576, &[16, 0, 0, 0, 0, 0, 0, 0, 0xff, 0xff]),
            (592, &[19, 0, 3, 0, 4, 0]),
            (608, &[16]),
            (624, &[10, 0, 5, 0, 6, 0]),
            (1_022, &[0xd9, 0xca]),
        ],
    );
    edge("8: edge 9, and -32,768, and -1", &less_32_769, &[(Read, refused(8, 5))]);
    let leaves = sheet(
        1_024,
        &[
            (0, &[1, 0, 4, 0, 1]),
            (8, &[0x00, 0x80, 0, 0, 1, 0, b'x']),
            (510, &[0x28, 0x0c]),
            (512, &[17]),
            (528, &[18]),
            (544, &[16]),
            (560, &[10, 0, 1, 0, 2, 0]),
            (1_022, &[0xdc, 0x05]),
        ],
    );
    edge("8: edge 10", &leaves, &[(Read, refused(8, 1)), (Name(0), 0)]);
}

/// x in -3..2 times y in -4..5 has range -15..12: seen by the constants that may be added to it.
fn edge_11(edge: Edge) {
    let alone = sheet(
        1_024,
        &[
            (0, &[1, 0, 5, 0, 2]),
            (8, &[0xfd, 0xff, 2, 0, 1, 0, b'x']),
            (32, &[0xfc, 0xff, 5, 0, 1, 0, b'y']),
            (510, &[0xbe, 0x6f]),
            (512, &[17]),
            (528, &[17, 0, 1, 0]),
            (544, &[21, 0, 0, 0, 1, 0]),
            (560, &[16]),
            (576, &[9, 0, 2, 0, 3, 0]),
            (1_022, &[0xcf, 0x0a]),
        ],
    );
    edge("accepted: edge 11", &alone, &[(Read, ACCEPTED), (Name(1), 38 * 65_536 + 1)]);
    let with = |constant: [u8; 2], check: [u8; 2]| {
        sheet(
            1_024,
            &[
                (0, &[1, 0, 7, 0, 2]),
                (8, &[0xfd, 0xff, 2, 0, 1, 0, b'x']),
                (32, &[0xfc, 0xff, 5, 0, 1, 0, b'y']),
                (510, &[0xc4, 0x6f]),
                (512, &[17]),
                (528, &[17, 0, 1, 0]),
                (544, &[21, 0, 0, 0, 1, 0]),
                (560, &[16, 0, 0, 0, 0, 0, 0, 0, constant[0], constant[1]]),
                (576, &[19, 0, 2, 0, 3, 0]),
                (592, &[16]),
                (608, &[9, 0, 4, 0, 5, 0]),
                (1_022, &check),
            ],
        )
    };
    edge("accepted: edge 11, and 32,755", &with([0xf3, 0x7f], [0x38, 0x6c]), &[(Read, ACCEPTED)]);
    edge("8: edge 11, and 32,756", &with([0xf4, 0x7f], [0x71, 0x6c]), &[(Read, refused(8, 4))]);
    edge("accepted: edge 11, and -32,753", &with([0x0f, 0x80], [0xae, 0x39]), &[(Read, ACCEPTED)]);
    edge("8: edge 11, and -32,754", &with([0x0e, 0x80], [0x75, 0x39]), &[(Read, refused(8, 4))]);
}

fn edges_14_and_15(edge: Edge) {
    // Block 1's right check is 03 00.
    let two_errors =
        sheet(1_024, &[(0, &[2, 0, 1, 0, 0]), (510, &[0x06, 0x00]), (512, &[1]), (1_022, &[0x04, 0x00])]);
    edge("2: edge 14", &two_errors, &[(Read, refused(2, 1)), (Block(0), 510), (Block(1), 0)]);
    let edition_alone =
        sheet(1_024, &[(0, &[2, 0, 1, 0, 0]), (510, &[0x06, 0x00]), (512, &[1]), (1_022, &[0x03, 0x00])]);
    edge(
        "3: edge 14, check right",
        &edition_alone,
        &[(Read, refused(3, 0)), (Block(0), 510), (Block(1), 510)],
    );
    let one_block = sheet(512, &[(0, &[1, 0, 1, 0, 0]), (510, &[0x05, 0x00])]);
    edge("4: edge 15", &one_block, &[(Read, refused(4, 0)), (Name(0), 0), (Block(0), 510), (Block(1), 0)]);
}
