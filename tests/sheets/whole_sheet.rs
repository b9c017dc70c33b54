// Sheets spoilt as a whole: refusals 1 (length), 2 (checks), 3 (edition) and 4 (layout).

use crate::grower::{accepted, any_accepted, any_size, Grower};
use crate::layout::*;
use crate::limits::*;
use crate::random::Random;
use crate::trees::{constant, node, Table, CONSTANT};
use crate::trial::{Accepted, Output, Refused};

// ---- refusal 1

pub fn refusal_1(random: &mut Random, out: &mut Output) {
    for _ in 0..200 {
        out.put(random, "1: no bytes", &[], Refused(1, 0));
        let (part, length) = (any_accepted(random), 1 + random.below(BLOCK - 1));
        out.put(random, "1: less than a block", &part[..length], Refused(1, 0));
        let cut = part.len() - 1 - random.below(BLOCK - 1);
        out.put(random, "1: no multiple of 512", &part[..cut], Refused(1, 0));
        let blocks = MOST_BLOCKS + 1 + random.below(12);
        let long = lengthened(random, blocks * BLOCK);
        out.put(random, "1: a multiple of 512 over the most", &long, Refused(1, 0));
        let longer = MOST_BYTES + 1 + random.below(BLOCK - 1);
        let long = lengthened(random, longer);
        out.put(random, "1: no multiple of 512 over the most", &long, Refused(1, 0));
    }
    let huge = lengthened(random, 1 << 20);
    out.put(random, "1: a multiple of 512 over the most", &huge, Refused(1, 0));
    for _ in 0..10 {
        too_many_nodes(random, out);
        // Whoever keeps a length in 16 bits finds an accepted sheet.
        let sheet = any_accepted(random);
        let long = [&sheet[..], &vec![0; (1 << 16) - sheet.len()], &sheet].concat();
        out.put(random, "1: a right length and 65,536 more", &long, Refused(1, 0));
    }
}

/// Sheets that are right in all but that they have more nodes than they may.
fn too_many_nodes(random: &mut Random, out: &mut Output) {
    let variables = random.below(MOST_VARIABLES + 1);
    let mut one_more = accepted(random, MOST_NODES + 1, variables);
    out.put(random, "1: one node over the most", &one_more, Refused(1, 0));
    one_more.truncate(MOST_BYTES);
    out.put(random, "4: one node over the most, its block cut off", &one_more, Refused(4, 0));
    let block_more = accepted(random, MOST_NODES + NODES_IN_BLOCK, variables);
    out.put(random, "1: a full block of nodes over the most", &block_more, Refused(1, 0));
}

/// An accepted sheet with zero bytes after it, all checks right.
pub fn lengthened(random: &mut Random, length: usize) -> Vec<u8> {
    let mut sheet = any_accepted(random);
    sheet.resize(length, 0);
    seal(&mut sheet);
    sheet
}

// ---- refusal 2

pub fn refusal_2(random: &mut Random, out: &mut Output) {
    for k in 0..MOST_BLOCKS {
        for _ in 0..4 {
            changed_block(random, out, k);
            check_begun_elsewhere(random, out, k);
            two_wrong_blocks(random, out, k);
        }
        for _ in 0..2 {
            equal_modulo(random, out, k);
        }
    }
}

/// An accepted sheet that has block k.
pub fn accepted_with_block(random: &mut Random, k: usize) -> Vec<u8> {
    let least = if k < 2 { 1 } else { NODES_IN_BLOCK * (k - 1) + 1 };
    let most = if random.one_in(4) { MOST_NODES } else { (least + NODES_IN_BLOCK - 1).min(MOST_NODES) };
    let nodes = least + random.below(most - least + 1);
    let variables = random.below(MOST_VARIABLES + 1);
    accepted(random, nodes, variables)
}

fn changed_block(random: &mut Random, out: &mut Output, k: usize) {
    let within = random.below(CONTENT);
    for (label, byte) in
        [("content", within), ("first check byte", CONTENT), ("second check byte", CONTENT + 1)]
    {
        let mut sheet = accepted_with_block(random, k);
        let place = BLOCK * k + byte;
        sheet[place] = random.other_byte(sheet[place]);
        out.put(random, &format!("2: {} of block {}", label, k), &sheet, Refused(2, k));
    }
}

/// The sum must begin at k + 1: not at 0, 1, k or k + 2.
fn check_begun_elsewhere(random: &mut Random, out: &mut Output, k: usize) {
    for start in [0, 1, k, k + 2] {
        if start == k + 1 {
            continue;
        }
        let mut sheet = accepted_with_block(random, k);
        let check = check_from(start as u64, &sheet[BLOCK * k..]);
        store_check(&mut sheet, k, check);
        out.put(random, &format!("2: check of block {} begun at {}", k, start), &sheet, Refused(2, k));
    }
}

fn two_wrong_blocks(random: &mut Random, out: &mut Output, k: usize) {
    if k + 1 == MOST_BLOCKS {
        return;
    }
    let mut sheet = accepted_with_block(random, k + 1);
    let later = k + 1 + random.below(sheet.len() / BLOCK - k - 1);
    for block in [k, later] {
        let place = BLOCK * block + random.below(BLOCK);
        sheet[place] = random.other_byte(sheet[place]);
    }
    out.put(random, &format!("2: block {} and a later one", k), &sheet, Refused(2, k));
}

/// A stored check that is 65,521 more than the right one.
fn equal_modulo(random: &mut Random, out: &mut Output, k: usize) {
    let mut sheet = with_low_check(random, k);
    out.put(random, &format!("accepted: check of block {} at most 14", k), &sheet, Accepted);
    let check = check(&sheet, k);
    store_check(&mut sheet, k, check + MODULUS as u16);
    out.put(random, &format!("2: check of block {} equal modulo 65,521 alone", k), &sheet, Refused(2, k));
}

/// An accepted sheet whose block k has a check of at most 14, so that 65,521 more still fits 16 bits.
fn with_low_check(random: &mut Random, k: usize) -> Vec<u8> {
    let mut sheet = sheet_of_constants(random);
    let free = if k == 0 { variable_at(MOST_VARIABLES - 1) + GREATEST } else { last_constant(&sheet, k) };
    let other = if k == 0 { variable_at(MOST_VARIABLES - 2) + GREATEST } else { free - NODE_BYTES };
    // Any value does in a constant, and as max where min is -32,768.
    let places = [free, free + 1, other];
    places.iter().for_each(|&place| sheet[place] = 0);
    let without = u32::from(check(&sheet, k));
    loop {
        let bytes = [random.byte(), random.byte(), random.byte()];
        let weighed =
            places.iter().zip(bytes).map(|(place, byte)| (place % BLOCK + 1) as u32 * u32::from(byte));
        if (without + weighed.sum::<u32>()) % MODULUS <= 14 {
            places.iter().zip(bytes).for_each(|(&place, byte)| sheet[place] = byte);
            seal(&mut sheet);
            return sheet;
        }
    }
}

/// As many comparisons of two constants, joined, as there is room for; and all variables, from the lowest on.
fn sheet_of_constants(random: &mut Random) -> Vec<u8> {
    let mut grower = Grower::new(random, 0);
    for _ in 0..MOST_VARIABLES {
        let greatest = grower.value();
        grower.add_variable((LOW, greatest));
    }
    let compared = |grower: &mut Grower| node(8, vec![constant(grower.value()), constant(grower.value())]);
    let first = compared(&mut grower);
    let goal = (1..(MOST_NODES + 1) / 4).fold(first, |goal, _| node(4, vec![goal, compared(&mut grower)]));
    grower.sheet(&Table::of(&goal))
}

/// Where the value stands of the last constant of block k that comes right after another: late in the
/// block, since a byte's weight must be large to bring the check anywhere.
fn last_constant(sheet: &[u8], k: usize) -> usize {
    let kind = |slot: usize| sheet[BLOCK * k + NODE_BYTES * slot];
    let slot = (1..NODES_IN_BLOCK).rev().find(|&slot| kind(slot - 1) == CONSTANT && kind(slot) == CONSTANT);
    BLOCK * k + NODE_BYTES * slot.expect("each block has two constants side by side") + VALUE
}

// ---- refusal 3

pub fn refusal_3(random: &mut Random, out: &mut Output) {
    for _ in 0..60 {
        for edition in [0u16, 2, 256, 257, 65_535] {
            edition_spoilt(random, out, &format!("3: edition {}", edition), edition);
        }
        let edition = 2 + random.below(65_534) as u16;
        edition_spoilt(random, out, "3: edition any", edition);
    }
}

fn edition_spoilt(random: &mut Random, out: &mut Output, label: &str, edition: u16) {
    let mut sheet = any_accepted(random);
    put(&mut sheet, 0, edition);
    seal(&mut sheet);
    out.put(random, label, &sheet, Refused(3, 0));
}

// ---- refusal 4

pub fn refusal_4(random: &mut Random, out: &mut Output) {
    for _ in 0..25 {
        counts_spoilt(random, out);
        second_byte_spoilt(random, out);
        length_spoilt(random, out);
        header_zeros_spoilt(random, out);
        node_slots_spoilt(random, out);
    }
    for _ in 0..3 {
        node_zeros_spoilt(random, out);
    }
    counts_over_the_most(random, out);
}

fn put_4(random: &mut Random, out: &mut Output, label: &str, mut sheet: Vec<u8>) {
    seal(&mut sheet);
    out.put(random, label, &sheet, Refused(4, 0));
}

fn counts_spoilt(random: &mut Random, out: &mut Output) {
    let mut header = any_accepted(random);
    header.truncate(BLOCK);
    put(&mut header, NODE_COUNT, 0);
    put_4(random, out, "4: N = 0, one block", header);

    let over = MOST_NODES + 1;
    for (label, count) in [
        ("0, some nodes", 0),
        ("one over the most", over),
        // Whoever takes its first byte alone finds 0.
        ("over the most, first byte 0", 256 * (over / 256 + 1)),
        ("65,535", 65_535),
        ("any over the most", over + random.below(65_536 - over)),
    ] {
        let mut sheet = if random.one_in(2) { accepted(random, MOST_NODES, 1) } else { any_accepted(random) };
        put(&mut sheet, NODE_COUNT, count as u16);
        put_4(random, out, &format!("4: N = {}", label), sheet);
    }

    let over = MOST_VARIABLES + 1;
    let any = over + random.below(256 - over);
    for (label, count) in [("one over the most", over), ("255", 255), ("any over the most", any)] {
        let mut sheet =
            if random.one_in(2) { accepted(random, 5, MOST_VARIABLES) } else { any_accepted(random) };
        sheet[VARIABLE_COUNT] = count as u8;
        put_4(random, out, &format!("4: V = {}", label), sheet);
    }
}

/// The length is then that of many nodes fewer or more.
fn second_byte_spoilt(random: &mut Random, out: &mut Output) {
    let mut sheet = any_accepted(random);
    sheet[NODE_COUNT + 1] = random.other_byte(sheet[NODE_COUNT + 1]);
    put_4(random, out, "4: second byte of N", sheet);
    // Whoever takes the first byte alone finds just the nodes that are there.
    let nodes = 1 + random.below(255);
    let mut sheet = accepted(random, nodes, 3);
    sheet[NODE_COUNT + 1] = random.nonzero();
    put_4(random, out, "4: first byte of N right, second too high", sheet);
    let nodes = 256 + random.below(MOST_NODES - 255);
    let mut sheet = accepted(random, nodes, 3);
    sheet[NODE_COUNT + 1] = 0;
    put_4(random, out, "4: first byte of N right, second cut off", sheet);
}

/// Too many nodes for any sheet, in a longest one: the next few, those with the most's first byte, those at the edge of
/// one width of number or another, and any.
fn counts_over_the_most(random: &mut Random, out: &mut Output) {
    let full = accepted(random, MOST_NODES, 1);
    let near = (1..=2 * NODES_IN_BLOCK).map(|more| MOST_NODES + more);
    let same_first = (1..8).map(|more| MOST_NODES + 256 * more);
    let edges = (11..16).flat_map(|bits| [(1 << bits) - 1, 1 << bits, (1 << bits) + 1]);
    let any: Vec<usize> = (0..40).map(|_| MOST_NODES + 1 + random.below(65_535 - MOST_NODES)).collect();
    for count in near.chain(same_first).chain(edges).chain(any) {
        let mut sheet = full.clone();
        put(&mut sheet, NODE_COUNT, count as u16);
        put_4(random, out, "4: N over the most in a longest sheet", sheet);
    }
}

fn length_spoilt(random: &mut Random, out: &mut Output) {
    let mut short = any_accepted(random);
    short.truncate(short.len() - BLOCK);
    put_4(random, out, "4: one block too short", short);

    let nodes = 1 + random.below(MOST_NODES - NODES_IN_BLOCK);
    let mut long = accepted(random, nodes, 2);
    long.resize(long.len() + BLOCK, 0);
    put_4(random, out, "4: one block too long", long);

    let sheet = accepted(random, nodes, 2);
    let blocks = 1 + random.below(MOST_BLOCKS);
    let mut other = sheet.clone();
    other.resize(BLOCK * blocks, 0);
    if other.len() != sheet.len() {
        put_4(random, out, "4: length any other", other);
    }

    // Just where a block more begins to be needed, the count of the other side.
    let full = NODES_IN_BLOCK * (1 + random.below(MOST_BLOCKS - 2));
    let mut sheet = accepted(random, full, 2);
    put(&mut sheet, NODE_COUNT, full as u16 + 1);
    put_4(random, out, "4: a full last block, N one more", sheet);
    let mut sheet = accepted(random, full + 1, 2);
    put(&mut sheet, NODE_COUNT, full as u16);
    put_4(random, out, "4: one node in the last block, N one less", sheet);
}

/// Spoils the first, the last and any byte of a zone of zero bytes.
fn zone_spoilt(random: &mut Random, out: &mut Output, zone: &str, sheet: &[u8], from: usize, to: usize) {
    let any = from + random.below(to - from);
    for (which, place) in [("first", from), ("last", to - 1), ("any", any)] {
        let mut spoilt = sheet.to_vec();
        spoilt[place] = random.nonzero();
        put_4(random, out, &format!("4: {}, {} byte", zone, which), spoilt);
    }
}

fn header_zeros_spoilt(random: &mut Random, out: &mut Output) {
    for byte in 5..8 {
        let mut sheet = any_accepted(random);
        sheet[byte] = random.nonzero();
        put_4(random, out, &format!("4: byte {}", byte), sheet);
    }
    let (nodes, variables) = (any_size(random), random.below(MOST_VARIABLES));
    let sheet = accepted(random, nodes, variables);
    zone_spoilt(
        random,
        out,
        "variable slots from V on",
        &sheet,
        variable_at(variables),
        variable_at(MOST_VARIABLES),
    );
    let sheet = any_accepted(random);
    zone_spoilt(random, out, "bytes behind the variables", &sheet, AFTER_VARIABLES, CONTENT);
}

fn node_slots_spoilt(random: &mut Random, out: &mut Output) {
    let nodes = NODES_IN_BLOCK * random.below(MOST_BLOCKS - 1) + 1 + random.below(NODES_IN_BLOCK - 1);
    let sheet = accepted(random, nodes, 3);
    let slots_end = sheet.len() - BLOCK + AFTER_NODES;
    zone_spoilt(random, out, "node slots from N on", &sheet, node_at(nodes), slots_end);
}

fn node_zeros_spoilt(random: &mut Random, out: &mut Output) {
    for k in 1..MOST_BLOCKS {
        let sheet = accepted_with_block(random, k);
        let zone = format!("bytes behind the nodes of block {}", k);
        zone_spoilt(random, out, &zone, &sheet, BLOCK * k + AFTER_NODES, BLOCK * k + CONTENT);
    }
}
