// Sheets that are asked about every variable (`name`) and every block (`block`), the answers known.

use crate::grower::{any_size, Grower};
use crate::layout::*;
use crate::limits::*;
use crate::question::Question;
use crate::random::Random;
use crate::trees::*;
use crate::trial::*;

// ---- names

pub fn names(random: &mut Random, out: &mut Output) {
    for _ in 0..60 {
        for variables in 0..=MOST_VARIABLES {
            let mut grower = Grower::new(random, variables);
            let size = any_size(grower.random);
            let goal = grower.truth(size);
            let mut sheet = grower.sheet(&Table::of(&goal));
            let lengths: Vec<usize> = grower.variables.iter().map(|variable| variable.name.len()).collect();
            ask_names(out, "accepted: every name asked", &sheet, Accepted, &lengths);
            // Without variables there is none to spoil.
            let numbers: &[u64] =
                if variables == 0 { &[1, 2, 3, 4, 6, 7, 8] } else { &[1, 2, 3, 4, 5, 6, 7, 8] };
            let number = random.pick(numbers);
            let place = spoil(&mut sheet, number);
            ask_names(out, &format!("{}: every name asked", number), &sheet, Refused(number, place), &[]);
        }
    }
}

/// Asks for each name and for some beyond; there are names of these lengths and no others.
fn ask_names(out: &mut Output, label: &str, sheet: &[u8], expected: Expected, lengths: &[usize]) {
    let near = 0..=MOST_VARIABLES as u16 + 1;
    let answer = |variable: u16| match lengths.get(usize::from(variable)) {
        Some(&length) => (variable_at(variable.into()) + NAME) as u64 * 65_536 + length as u64,
        None => 0,
    };
    let mut questions = vec![(Question::Read, reading(expected))];
    questions
        .extend(near.chain(FAR_VARIABLES).map(|variable| (Question::Name(variable), Some(answer(variable)))));
    out.ask(label, sheet, &questions);
}

/// Makes the fault with this number, at which no name may be handed back, and gives its place.
pub fn spoil(sheet: &mut Vec<u8>, number: u64) -> usize {
    match number {
        1 => sheet.truncate(sheet.len() - 1),
        2 => sheet[CONTENT] ^= 1,
        3 => sheet[1] = 1,
        4 => sheet[6] = 1,
        5 => sheet[variable_at(0) + 23] = 1,
        6 => sheet[node_at(0) + 15] = 1,
        // Not -32,768, and minus -32,768.
        7 => begin_with(sheet, constant(LOW), 3),
        _ => begin_with(sheet, constant(LOW), MINUS),
    }
    if number > 2 {
        seal(sheet);
    }
    if number > 6 {
        1
    } else {
        0
    }
}

/// Puts a leaf and a node over it first; what follows them matters no more.
fn begin_with(sheet: &mut [u8], leaf: Tree, kind: u8) {
    let nodes = node_count(sheet).max(2);
    put(sheet, NODE_COUNT, nodes as u16);
    let table = Table::of(&misused(kind, vec![leaf]));
    for (number, record) in table.records.iter().enumerate() {
        sheet[node_at(number)..][..NODE_BYTES].copy_from_slice(record);
    }
}

// ---- blocks

/// How a block's stored check is made.
#[derive(Clone, Copy, PartialEq)]
enum Made {
    Right,
    Wrong,
    /// As for the block after it.
    Displaced,
    /// 65,521 more than the right one.
    EqualModulo,
}

pub fn blocks(random: &mut Random, out: &mut Output) {
    for _ in 0..1_500 {
        let count = random.below(MOST_BLOCKS + 5);
        let tail = if random.one_in(2) { 0 } else { random.below(BLOCK) };
        let mut bytes = random.bytes(BLOCK * count + tail);
        let made: Vec<Made> = (0..count).map(|k| make_block(random, &mut bytes, k)).collect();
        ask_blocks(out, "any: every block asked", &bytes, &made);
    }
    for _ in 0..20 {
        wrapped_blocks(random, out);
    }
    far_blocks(random, out);
    lone_bytes(random, out);
    heaviest_blocks(random, out);
}

fn make_block(random: &mut Random, bytes: &mut [u8], k: usize) -> Made {
    let made = random.pick(&[Made::Right, Made::Right, Made::Wrong, Made::Displaced, Made::EqualModulo]);
    if made == Made::EqualModulo {
        let low = random.below(15) as u16;
        bring_check_to(bytes, k, low);
    }
    let right = check(bytes, k);
    let stored = match made {
        Made::Right => right,
        Made::Wrong => right ^ (1 + random.below(65_535) as u16),
        Made::Displaced => check_from(k as u64 + 2, &bytes[BLOCK * k..]),
        Made::EqualModulo => right + MODULUS as u16,
    };
    store_check(bytes, k, stored);
    made
}

/// Bytes 0 and 255 weigh 1 and 256 in the sum, so that they can bring the check to any value.
fn bring_check_to(bytes: &mut [u8], k: usize, target: u16) {
    let block = BLOCK * k;
    bytes[block] = 0;
    bytes[block + 255] = 0;
    let off = (u32::from(target) + MODULUS - u32::from(check(bytes, k))) % MODULUS;
    bytes[block] = off as u8;
    bytes[block + 255] = (off >> 8) as u8;
}

fn ask_blocks(out: &mut Output, label: &str, bytes: &[u8], made: &[Made]) {
    let answer = |k: u64| match made.get(k as usize) {
        Some(Made::Right) => CONTENT as u64,
        _ => 0,
    };
    let near = 0..(made.len() + 3) as u64;
    let far = FAR_BLOCKS.iter().copied().filter(|&k| k >= (made.len() + 3) as u64);
    let mut questions = vec![(Question::Read, None)];
    questions.extend(near.chain(far).map(|k| (Question::Block(k), Some(answer(k)))));
    out.ask(label, bytes, &questions);
}

/// Blocks whose k + 1 reaches 65,521 and passes 65,535: it counts modulo 65,521.
fn far_blocks(random: &mut Random, out: &mut Output) {
    let count = 65_600;
    let mut bytes = vec![0; BLOCK * count];
    let mut questions = vec![(Question::Read, reading(Refused(1, 0)))];
    for k in (65_515..count).chain([0, 1, 255, 256]) {
        for byte in &mut bytes[BLOCK * k..BLOCK * k + CONTENT] {
            *byte = random.byte();
        }
        let made = make_block(random, &mut bytes, k);
        questions
            .push((Question::Block(k as u64), Some(if made == Made::Right { CONTENT as u64 } else { 0 })));
    }
    questions.push((Question::Block(count as u64), Some(0)));
    out.ask("1: blocks about number 65,521", &bytes, &questions);
}

/// Block numbers so large that their place in bytes, cut to 32 or 64 bits, is that of a block that is
/// there and has the check that the large number asks for: they are past the lent bytes all the same.
fn wrapped_blocks(random: &mut Random, out: &mut Output) {
    for wrap in [1u64 << 23, 1 << 32, 1 << 55, 1 << 56, 1 << 63] {
        let count = 1 + random.below(6);
        let mut bytes = random.bytes(BLOCK * count);
        let mut questions = vec![(Question::Read, None)];
        for k in 0..count {
            let far = wrap + k as u64;
            let check = check_from(far + 1, &bytes[BLOCK * k..]);
            store_check(&mut bytes, k, check);
            questions.push((Question::Block(far), Some(0)));
        }
        out.ask("any: every block asked by a number past all bytes", &bytes, &questions);
    }
}

/// A content with one byte that isn't zero, at each place: with its own weight the check is right, with another's not.
fn lone_bytes(random: &mut Random, out: &mut Output) {
    for place in 0..CONTENT {
        let byte = 1 + random.below(255) as u8;
        let with = |at: usize| {
            let mut block = vec![0; BLOCK];
            block[at] = byte;
            block
        };
        let others = [place + CONTENT - 1, place + 1, place + CONTENT / 2].map(|at| at % CONTENT);
        for (weighed, answer) in others.map(|at| (at, 0)).into_iter().chain([(place, CONTENT as u64)]) {
            let mut bytes = with(place);
            store_check(&mut bytes, 0, check(&with(weighed), 0));
            let questions = [(Question::Read, None), (Question::Block(0), Some(answer))];
            out.ask("any: a block with one byte alone", &bytes, &questions);
        }
    }
}

/// Contents with the greatest sum, and with one near it: the check is right, and not that of a sum cut short.
fn heaviest_blocks(random: &mut Random, out: &mut Output) {
    for below in [0, 1, 2, 255, 256, 65_535] {
        let mut bytes = vec![255; BLOCK * (MOST_BLOCKS + 1)];
        let made: Vec<Made> = (0..=MOST_BLOCKS).map(|k| heavy_block(random, &mut bytes, k, below)).collect();
        ask_blocks(out, "any: blocks of the greatest sums", &bytes, &made);
    }
}

/// Takes so much from a content's sum, at its heaviest bytes first, and makes its check.
fn heavy_block(random: &mut Random, bytes: &mut [u8], k: usize, mut below: usize) -> Made {
    let content = &mut bytes[BLOCK * k..BLOCK * k + CONTENT];
    for (i, byte) in content.iter_mut().enumerate().rev() {
        let less = (below / (i + 1)).min(255);
        *byte -= less as u8;
        below -= less * (i + 1);
    }
    let sum: u64 =
        content.iter().zip(1..).map(|(&byte, weight)| u64::from(byte) * weight).sum::<u64>() + k as u64 + 1;
    let bits = random.pick(&[16, 20, 24, 25, 32]);
    let stored = (sum % (1 << bits) % u64::from(MODULUS)) as u16;
    let right = stored == check(bytes, k);
    store_check(bytes, k, stored);
    if right {
        Made::Right
    } else {
        Made::Wrong
    }
}
