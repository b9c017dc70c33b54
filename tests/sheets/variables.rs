// Variable records spoilt in each way (refusal 5).

use crate::grower::{accepted, any_size};
use crate::layout::*;
use crate::limits::*;
use crate::random::Random;
use crate::trial::{Accepted, Output, Refused};

/// The offsets of a variable record's bytes that are always zero.
const ZERO: [usize; 3] = [5, 22, 23];

pub fn make(random: &mut Random, out: &mut Output) {
    for _ in 0..2 {
        characters(random, out);
    }
    for _ in 0..3 {
        for variable in 0..MOST_VARIABLES {
            domains(random, out, variable);
            lengths(random, out, variable);
            zero_bytes(random, out, variable);
            equal_names(random, out, variable);
        }
    }
}

/// A sheet with the variable spoilt by `spoil`, which gets the variable's record.
fn spoilt(random: &mut Random, variable: usize, spoil: impl FnOnce(&mut Random, &mut [u8])) -> Vec<u8> {
    let mut sheet = with_variable(random, variable);
    let at = variable_at(variable);
    spoil(random, &mut sheet[at..at + VARIABLE_BYTES]);
    seal(&mut sheet);
    sheet
}

/// An accepted sheet that has this variable.
fn with_variable(random: &mut Random, variable: usize) -> Vec<u8> {
    let variables = variable + 1 + random.below(MOST_VARIABLES - variable);
    let nodes = any_size(random);
    accepted(random, nodes, variables)
}

fn set_domain(record: &mut [u8], min: i64, max: i64) {
    put(record, LEAST, min as u16);
    put(record, GREATEST, max as u16);
}

fn set_name(record: &mut [u8], name: &[u8]) {
    record[LENGTH] = name.len() as u8;
    record[NAME..].fill(0);
    record[NAME..NAME + name.len()].copy_from_slice(name);
}

fn domains(random: &mut Random, out: &mut Output, variable: usize) {
    let max = random.between(-32_768, 32_766);
    let min = random.between(max + 1, 32_767);
    let wrong = [
        ("min = max + 1", max + 1, max),
        ("min over max", min, max),
        // An order without signs has these the other way round.
        ("min = 0 and max = -1", 0, -1),
        ("min = 32,767 and max = -32,768", 32_767, -32_768),
    ];
    for (label, min, max) in wrong {
        let sheet = spoilt(random, variable, |_, record| set_domain(record, min, max));
        out.put(random, &format!("5: {}", label), &sheet, Refused(5, variable));
    }
}

fn lengths(random: &mut Random, out: &mut Output, variable: usize) {
    let sheet = spoilt(random, variable, |_, record| record[LENGTH] = 0);
    out.put(random, "5: length 0", &sheet, Refused(5, variable));
    let sheet = spoilt(random, variable, |_, record| set_name(record, b""));
    out.put(random, "5: length 0 and no name", &sheet, Refused(5, variable));
    let over = LONGEST_NAME + 1;
    let sheet = spoilt(random, variable, |_, record| {
        set_name(record, &[b'a'; LONGEST_NAME]);
        record[LENGTH] = over as u8;
    });
    out.put(random, "5: length one over the most", &sheet, Refused(5, variable));
    let sheet = spoilt(random, variable, |_, record| {
        // Whoever takes that many bytes for the name finds a letter in each.
        set_name(record, &[b'a'; LONGEST_NAME]);
        record[LENGTH] = over as u8;
        record[NAME + LONGEST_NAME] = b'q';
    });
    out.put(random, "5: length one over the most and a letter after the name", &sheet, Refused(5, variable));
    let any = over + random.below(256 - over);
    let sheet = spoilt(random, variable, |_, record| record[LENGTH] = any as u8);
    out.put(random, "5: length any over the most", &sheet, Refused(5, variable));
}

fn zero_bytes(random: &mut Random, out: &mut Output, variable: usize) {
    for byte in ZERO {
        let sheet = spoilt(random, variable, |random, record| record[byte] = random.nonzero());
        out.put(random, &format!("5: byte {} of the record", byte), &sheet, Refused(5, variable));
    }
    let length = 1 + random.below(LONGEST_NAME - 1);
    let any = length + random.below(LONGEST_NAME - length);
    for (label, place) in [("first", length), ("last", LONGEST_NAME - 1), ("any", any)] {
        let sheet = spoilt(random, variable, |random, record| {
            set_name(record, &b"Qabcdefghijklmno"[..length]);
            // A letter half of the time: right in a name, but not past its length.
            record[NAME + place] = if random.one_in(2) { b'x' } else { random.nonzero() };
        });
        out.put(random, &format!("5: {} byte past the length", label), &sheet, Refused(5, variable));
    }
}

/// Of equal names the later is to blame; of two faulty records the lower.
fn equal_names(random: &mut Random, out: &mut Output, variable: usize) {
    if variable == 0 {
        return;
    }
    let earlier = random.below(variable);
    let copy_name = |sheet: &mut [u8], from: usize, to: usize| {
        let name = sheet[variable_at(from) + LENGTH..variable_at(from) + VARIABLE_BYTES].to_vec();
        sheet[variable_at(to) + LENGTH..variable_at(to) + VARIABLE_BYTES].copy_from_slice(&name);
    };
    let mut sheet = with_variable(random, variable);
    copy_name(&mut sheet, earlier, variable);
    seal(&mut sheet);
    out.put(random, "5: equal names", &sheet, Refused(5, variable));

    if variable + 1 < MOST_VARIABLES {
        let mut sheet = with_variable(random, variable + 1);
        copy_name(&mut sheet, earlier, variable);
        copy_name(&mut sheet, earlier, variable + 1);
        seal(&mut sheet);
        out.put(random, "5: three equal names", &sheet, Refused(5, variable));
    }

    let mut sheet = with_variable(random, variable);
    copy_name(&mut sheet, earlier, variable);
    sheet[variable_at(earlier) + ZERO[2]] = random.nonzero();
    seal(&mut sheet);
    out.put(random, "5: a faulty record and a later equal name", &sheet, Refused(5, earlier));
}

fn is_letter(byte: u8) -> bool {
    (65..=90).contains(&byte) || (97..=122).contains(&byte)
}

fn is_later(byte: u8) -> bool {
    is_letter(byte) || (48..=57).contains(&byte) || byte == 95
}

/// Each byte as the first and as a later character of a name.
fn characters(random: &mut Random, out: &mut Output) {
    for byte in 0..=255u8 {
        let length = 1 + random.below(LONGEST_NAME);
        character(random, out, "first", length, 0, byte, is_letter(byte));
        let length = 2 + random.below(LONGEST_NAME - 1);
        let place = 1 + random.below(length - 1);
        character(random, out, "later", length, place, byte, is_later(byte));
    }
}

fn character(
    random: &mut Random,
    out: &mut Output,
    which: &str,
    length: usize,
    place: usize,
    byte: u8,
    right: bool,
) {
    // A right character is tried in the only variable, whose name no other can have.
    let (variable, variables) = if right { (0, 1) } else { (random.below(4), 4) };
    let mut sheet = accepted(random, 3, variables);
    let record = &mut sheet[variable_at(variable)..][..VARIABLE_BYTES];
    set_name(record, &b"Zyxwvutsrqponmlk"[..length]);
    record[NAME + place] = byte;
    seal(&mut sheet);
    if right {
        out.put(random, &format!("accepted: {} character {}", which, byte), &sheet, Accepted);
    } else {
        out.put(random, &format!("5: {} character {}", which, byte), &sheet, Refused(5, variable));
    }
}
