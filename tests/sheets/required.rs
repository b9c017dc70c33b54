// What a run must have met: every class of sheet, by its label, and every kind of answer. A list of its
// own, apart from the code that makes the sheets: a class that is left out there is missed here.

use crate::case_required;
use crate::limits::*;
use crate::reply_required;
use crate::script_required;
use crate::text_required;
use crate::trial::Part;
use std::collections::BTreeSet;

pub const KINDS: [u8; 17] = [1, 2, 3, 4, 5, 6, 7, 8, 9, 10, 16, 17, 18, 19, 20, 21, 22];

/// All that a run over these parts must have met.
pub fn of(parts: &[Part]) -> BTreeSet<String> {
    let mut all = Vec::new();
    for part in parts {
        match part {
            Part::Reading => of_reading(&mut all),
            Part::Cases => case_required::of_cases(&mut all),
            Part::Script => script_required::of_script(&mut all),
            Part::Ask => reply_required::of_ask(&mut all),
            Part::Replies => reply_required::of_replies(&mut all),
            Part::Make => text_required::of_make(&mut all),
            Part::Text => text_required::of_text(&mut all),
        }
    }
    all.into_iter().collect()
}

fn of_reading(all: &mut All) {
    accepted(all);
    whole_sheet(all);
    layout(all);
    variables(all);
    nodes(all);
    types(all);
    ranges(all);
    at_once(all);
    places(all);
    bulk(all);
    edges(all);
    shapes(all, "accepted: ");
    all.extend((2..=MOST_BLOCKS).map(|blocks| format!("read: accepted, {} blocks", blocks)));
    refusals(all, "read");
    names_and_blocks(all);
}

pub type All = Vec<String>;

pub fn add(all: &mut All, prefix: &str, words: &str) {
    all.extend(words.split('|').map(|word| format!("{}{}", prefix, word)));
}

fn accepted(all: &mut All) {
    let near_full =
        |nodes: &usize| [0, 1, NODES_IN_BLOCK - 1].contains(&(nodes % NODES_IN_BLOCK)) || *nodes <= 3;
    all.extend((1..=MOST_NODES).filter(near_full).map(|nodes| format!("accepted: N = {}", nodes)));
    add(all, "accepted: ", "N and V at their most");
    all.extend((0..=MOST_VARIABLES).map(|variables| format!("accepted: V = {}", variables)));
    all.extend(KINDS.iter().map(|kind| format!("accepted: a node of kind {}", kind)));
    all.extend((1..=10).map(|kind| format!("accepted: goal of kind {}", kind)));
    all.extend([1, LONGEST_NAME].map(|length| format!("accepted: names of length {}", length)));
    add(all, "accepted: constant ", "-32768|-1|0|32767");
    add(all, "accepted: domain ", "-32768..32767|-32768..-32768|32767..32767|-1..0");
    add(all, "accepted: ", "any|every name asked");
}

fn whole_sheet(all: &mut All) {
    add(all, "1: ", "no bytes|less than a block|no multiple of 512|a multiple of 512 over the most");
    add(
        all,
        "1: ",
        "no multiple of 512 over the most|every length, bytes at random|every length, checks right",
    );
    add(all, "1: ", "blocks about number 65,521|a right length and 65,536 more");
    add(all, "1: ", "one node over the most|a full block of nodes over the most");
    for k in 0..MOST_BLOCKS {
        add(
            all,
            "2: ",
            &format!("content of block {0}|first check byte of block {0}|second check byte of block {0}", k),
        );
        add(all, &format!("2: check of block {} ", k), "begun at 0|equal modulo 65,521 alone");
        all.push(format!("2: check of block {0} begun at {1}", k, k + 2));
        all.push(format!("accepted: check of block {} at most 14", k));
    }
    for k in 1..MOST_BLOCKS {
        all.push(format!("2: check of block {} begun at 1", k));
        all.push(format!("2: check of block {0} begun at {0}", k));
        all.push(format!("2: block {} and a later one", k - 1));
    }
    all.extend((0..MOST_BLOCKS).map(|k| format!("2: each byte changed in turn, block {}", k)));
    add(all, "2: ", "any byte changed");
    add(all, "3: edition ", "0|2|256|257|65535|any");
    all.extend((1..=8).map(|number| format!("{}: every name asked", number)));
}

fn layout(all: &mut All) {
    add(all, "4: N = ", "0, one block|0, some nodes|one over the most|over the most, first byte 0|65,535");
    add(all, "4: ", "N = any over the most|V = one over the most|V = 255|V = any over the most");
    add(all, "4: ", "N over the most in a longest sheet|one node over the most, its block cut off");
    add(all, "4: first byte of N right, second ", "too high|cut off");
    add(all, "4: ", "second byte of N|one block too short|one block too long|length any other");
    add(all, "4: ", "a full last block, N one more|one node in the last block, N one less");
    add(all, "4: ", "byte 5|byte 6|byte 7");
    let node_tails = (1..MOST_BLOCKS).map(|k| format!("bytes behind the nodes of block {}", k));
    let zones = ["variable slots from V on", "bytes behind the variables", "node slots from N on"];
    for zone in zones.iter().map(|zone| zone.to_string()).chain(node_tails) {
        add(all, &format!("4: {}, ", zone), "first byte|last byte|any byte");
    }
}

fn variables(all: &mut All) {
    add(all, "5: ", "min = max + 1|min over max|min = 0 and max = -1|min = 32,767 and max = -32,768");
    add(all, "5: ", "length 0|length 0 and no name|length one over the most|length any over the most");
    add(all, "5: ", "length one over the most and a letter after the name");
    add(all, "5: ", "byte 5 of the record|byte 22 of the record|byte 23 of the record");
    add(all, "5: ", "first byte past the length|last byte past the length|any byte past the length");
    add(all, "5: ", "equal names|three equal names|a faulty record and a later equal name");
    for byte in 0..=255u8 {
        let (letter, later) = (byte.is_ascii_alphabetic(), byte.is_ascii_alphanumeric() || byte == b'_');
        let answer = |right: bool| if right { "accepted" } else { "5" };
        all.push(format!("{}: first character {}", answer(letter), byte));
        all.push(format!("{}: later character {}", answer(later), byte));
    }
}

/// The fields that a kind leaves zero, and those that hold its operands.
const USES: [(&[u8], &str, &str); 6] = [
    (&[1, 2], "a|b|c|value", ""),
    (&[3, 18], "b|c|value", "a"),
    (&[4, 5, 6, 7, 8, 9, 10, 19, 20, 21], "c|value", "a|b"),
    (&[16], "a|b|c", ""),
    (&[17], "b|c|value", ""),
    (&[22], "value", "a|b|c"),
];

fn nodes(all: &mut All) {
    for byte in [0, 11, 12, 13, 14, 15].iter().copied().chain(23..=255) {
        all.push(format!("6: unknown kind {}", byte));
    }
    for (kinds, unused, operands) in USES {
        for kind in kinds {
            for field in unused.split('|') {
                add(all, &format!("6: unused {} of kind {}, ", field, kind), "low byte|high byte");
            }
            for operand in operands.split('|').filter(|operand| !operand.is_empty()) {
                let which = "one too low|one too high|256 off|elsewhere|missing";
                add(all, &format!("6: operand {} of kind {} ", operand, kind), which);
            }
            for byte in [1, 10, 11, 12, 13, 14, 15] {
                all.push(format!("6: byte {} of kind {}", byte, kind));
            }
        }
    }
    add(all, "6: variable ", "V|V + 1|the most|65,535|256 more than a right one|0 of none");
    add(all, "6: goal subtree not the whole table, goal ", "a truth value|an integer");
}

fn types(all: &mut All) {
    for (kinds, _, operands) in USES {
        for kind in kinds {
            for operand in operands.split('|').filter(|operand| !operand.is_empty()) {
                all.push(format!("7: operand {} of kind {}", operand, kind));
            }
            if operands.len() > 1 {
                all.push(format!("7: every operand of kind {}", kind));
            }
        }
    }
    all.extend((16..=22).map(|kind| format!("7: goal of kind {}", kind)));
}

fn ranges(all: &mut All) {
    for (answer, how) in [("accepted", "exactly"), ("8", "by one")] {
        for end in ["low", "high"] {
            all.push(format!("{}: kind 19 at the {} end, {}", answer, end, how));
            all.push(format!("{}: kind 20 at the {} end, {}", answer, end, how));
            all.extend(
                (16..=22).map(|kind| format!("{}: {} end of a range of kind {}, {}", answer, end, kind, how)),
            );
        }
        all.push(format!("{}: kind 18 at the high end, {}", answer, how));
        let corners = [
            "high end by low times low",
            "high end by high times high",
            "low end by low times high",
            "low end by high times low",
        ];
        all.extend(corners.iter().map(|corner| format!("{}: kind 21 at the {}, {}", answer, corner, how)));
    }
    add(all, "accepted: ", "kind 18 down to -32,767");
    add(
        all,
        "8: kind ",
        "19 of the widest ranges|20 of the widest ranges|21 of the widest ranges|21 far out",
    );
}

fn at_once(all: &mut All) {
    add(all, "1: and fault ", "2|3|4|5|6|7|8");
    add(all, "2: and fault ", "3|4|5|6|7|8");
    add(all, "3: and fault ", "4|5|6|7|8");
    add(all, "4: and fault ", "5|6|7|8");
    add(all, "5: and fault ", "6|7|8");
    for first in [6, 7, 8] {
        all.extend([6, 7, 8].map(|second| format!("{}: before fault {} at a later node", first, second)));
        add(all, &format!("{}: and the goal is ", first), "not the whole table|an integer");
        all.extend((1..MOST_BLOCKS).map(|k| format!("{}: in block {}", first, k)));
    }
    add(all, "6: and fault ", "7 at the same node|8 at the same node");
    add(all, "", "7: at a goal that is not the whole table|8: at a goal that is not the whole table");
    add(all, "any: ", "several faults");
}

fn places(all: &mut All) {
    let low = [247, 248, 249, 252, 254, 255, 256, 257, 258, 511, 512, 513, 768, 1_023, 1_024, 1_025];
    let high = [1_280, 1_536, 1_792, MOST_NODES - 3, MOST_NODES - 2, MOST_NODES - 1];
    for node in low.into_iter().chain(high) {
        all.extend([6, 7, 8].map(|number| format!("{}: at node {}", number, node)));
        all.push(format!("6: goal subtree not the whole table, N = {}", node + 1));
        all.push(format!("7: an integer for a goal, N = {}", node + 1));
    }
    add(all, "6: goal subtree from node ", "256 on|512 on|1024 on|1792 on");
    for (kind, operand) in operands() {
        let wrong = "cut off|one too high|one too low";
        add(all, &format!("6: second byte of operand {} of kind {} ", operand, kind), wrong);
    }
}

/// Each kind with the name of each of its operands.
fn operands() -> Vec<(u8, &'static str)> {
    let named = |&(kinds, _, names): &(&'static [u8], _, &'static str)| {
        kinds.iter().flat_map(move |&kind| names.split('|').map(move |name| (kind, name)))
    };
    USES.iter().flat_map(named).filter(|(_, name)| !name.is_empty()).collect()
}

/// Rules of which the deepest nodes alone decide, as a part labels them.
pub fn deep(all: &mut All, label: &str) {
    for size in [255, 256, 257, 512, 1_024, MOST_NODES - 1, MOST_NODES] {
        all.push(format!("{}a deep rule, N = {}", label, size));
    }
}

/// Sheets of every shape and size, as a part labels them.
pub fn shapes(all: &mut All, label: &str) {
    for (kind, operand) in operands() {
        let shape = format!("{}a chain through operand {} of kind {}, ", label, operand, kind);
        add(all, &shape, "the most nodes|other sizes");
    }
    for kind in [4, 5, 6, 7, 8, 9, 10, 19, 20, 21, 22] {
        add(all, &format!("{}a balanced tree of kind {}, ", label, kind), "the most nodes|other sizes");
    }
    let low = [30, 31, 32, 62, 247, 248, 249, 255, 256, 257, 279, 280, 511, 512, 1_024, 1_025];
    let high = [31, 30, 1, 0].map(|fewer| MOST_NODES - fewer);
    for size in low.into_iter().chain(high) {
        all.push(format!("{}a mixed chain, N = {}", label, size));
        all.push(format!("{}a balanced tree, N = {}", label, size));
    }
    all.extend((2..=MOST_BLOCKS).map(|blocks| format!("{}any shape of {} blocks", label, blocks)));
}

fn bulk(all: &mut All) {
    add(all, "any: ", "right length, bytes at random|right length, checks right");
    add(all, "any: ", "bytes at random|bytes at random, checks right|header right, then bytes at random");
    add(all, "any: ", "accepted but for some bytes, checks made anew|nodes at random, mostly right");
    add(all, "any: ", "every block asked|every block asked by a number past all bytes");
    add(all, "any: ", "a block with one byte alone|blocks of the greatest sums");
}

fn edges(all: &mut All) {
    add(all, "accepted: ", "sheet A|edge 4, 33,280 bytes|edge 7|edge 9|edge 9, and -32,768|edge 11");
    add(all, "accepted: edge 11, and ", "32,755|-32,753");
    add(
        all,
        "",
        "4: worked check|2: worked check, one off|1: worked check, a byte short|1: worked check, a byte over",
    );
    add(all, "", "1: edge 4, empty|1: edge 4, 33,281 bytes|1: edge 4, 33,792 bytes|4: edge 4, 32,768 bytes");
    add(
        all,
        "8: ",
        "edge 8|edge 9, and 1|edge 9, and -32,768, and -1|edge 10|edge 11, and 32,756|edge 11, and -32,754",
    );
    add(all, "", "2: edge 14|3: edge 14, check right|4: edge 15");
}

/// Refusals 1 to 8 at each kind of place, as a call has them.
pub fn refusals(all: &mut All, call: &str) {
    add(all, &format!("{}: 1 at 0, ", call), "no bytes|no multiple of 512|over the most");
    all.extend((0..MOST_BLOCKS).map(|k| format!("{}: 2 at block {}", call, k)));
    add(all, &format!("{}: ", call), "3 at 0|4 at 0");
    all.extend((0..MOST_VARIABLES).map(|variable| format!("{}: 5 at variable {}", call, variable)));
    // No range leaves, and no operand is wrong, at a node that has nothing before it.
    add(all, &format!("{}: 6 at ", call), "the only node|node 0 of more|a node between|N - 1|no kind");
    add(all, &format!("{}: 7 at ", call), "the only node|a node between|N - 1");
    add(all, &format!("{}: 8 at ", call), "a node between|N - 1");
    for number in [6, 7, 8] {
        all.extend((1..MOST_BLOCKS).map(|k| format!("{}: {} in block {}", call, number, k)));
        let nodes = "up to 248|of 249 to 254|of 258 to 1,023|from 1,024 on";
        add(all, &format!("{}: {} at a node ", call, number), nodes);
        add(all, &format!("{}: {} at node ", call, number), "255|256|257|511|512");
        add(
            all,
            &format!("{}: {} at the last ", call, number),
            "of the most nodes|but one of the most nodes",
        );
    }
    all.extend(KINDS.iter().map(|kind| format!("{}: 6 at kind {}", call, kind)));
    all.extend(KINDS[2..].iter().map(|kind| format!("{}: 7 at kind {}", call, kind)));
    all.extend((18..=21).map(|kind| format!("{}: 8 at kind {}", call, kind)));
}

fn names_and_blocks(all: &mut All) {
    all.extend((0..MOST_VARIABLES).map(|variable| format!("name: of variable {}", variable)));
    all.extend((1..=LONGEST_NAME).map(|length| format!("name: of length {}", length)));
    all.extend((1..=8).map(|number| format!("name: empty, refusal {}", number)));
    add(all, "name: empty, ", "not below V");
    all.extend((0..=MOST_BLOCKS).map(|k| format!("block: {}", k)));
    add(all, "block: ", "of a number over the most|of a number over 65,520|of the greatest sum");
    all.extend((0..CONTENT).map(|place| format!("block: of byte {} alone", place)));
    add(all, "block: empty, ", "past the lent bytes|partly inside|check wrong");
}
