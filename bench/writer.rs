// An ordinary writer of scripts, as one would write it in Rust: the lines of document 01, and of item 1 of document 02,
// one pushed behind the other, each node's text by recursion. It takes the sheet to be right.

use crate::layout::*;

/// Writes the script of either form.
pub fn write(sheet: &[u8], models: bool, text: &mut Vec<u8>) {
    let variables = usize::from(sheet[VARIABLE_COUNT]);
    if models {
        text.extend_from_slice(b"(set-option :produce-models true)\n");
    }
    text.extend_from_slice(b"(set-logic QF_UFBV)\n");
    (0..variables).for_each(|number| declaration(number, text));
    (0..variables).for_each(|number| range(sheet, number, text));
    text.extend_from_slice(b"(assert (not ");
    term(sheet, node_count(sheet) - 1, text);
    text.extend_from_slice(b"))\n(check-sat)\n");
    if models && variables > 0 {
        values(variables, text);
    }
    text.extend_from_slice(b"(exit)\n");
}

fn declaration(number: usize, text: &mut Vec<u8>) {
    text.extend_from_slice(b"(declare-fun ");
    symbol(number, text);
    text.extend_from_slice(b" () (_ BitVec 16))\n");
}

fn range(sheet: &[u8], number: usize, text: &mut Vec<u8>) {
    let at = variable_at(number);
    text.extend_from_slice(b"(assert (and (bvsle ");
    constant(number_at(sheet, at + LEAST), text);
    text.push(b' ');
    symbol(number, text);
    text.extend_from_slice(b") (bvsle ");
    symbol(number, text);
    text.push(b' ');
    constant(number_at(sheet, at + GREATEST), text);
    text.extend_from_slice(b")))\n");
}

fn values(variables: usize, text: &mut Vec<u8>) {
    text.extend_from_slice(b"(get-value (");
    symbol(0, text);
    for number in 1..variables {
        text.push(b' ');
        symbol(number, text);
    }
    text.extend_from_slice(b"))\n");
}

fn symbol(number: usize, text: &mut Vec<u8>) {
    let (tens, ones) = (number as u8 / 10, number as u8 % 10);
    if tens > 0 {
        text.extend_from_slice(&[b'v', b'0' + tens, b'0' + ones]);
    } else {
        text.extend_from_slice(&[b'v', b'0' + ones]);
    }
}

fn constant(bits: u16, text: &mut Vec<u8>) {
    let digit = |shift: u32| b"0123456789abcdef"[usize::from(bits >> shift & 15)];
    text.extend_from_slice(&[b'#', b'x', digit(12), digit(8), digit(4), digit(0)]);
}

fn term(sheet: &[u8], node: usize, text: &mut Vec<u8>) {
    let record = &sheet[node_at(node)..][..NODE_BYTES];
    let mut call = |word: &[u8], operands: usize| {
        text.extend_from_slice(word);
        for i in 0..operands {
            text.push(b' ');
            term(sheet, number_at(record, FIELDS + 2 * i).into(), text);
        }
        text.push(b')');
    };
    match record[0] {
        1 => text.extend_from_slice(b"true"),
        2 => text.extend_from_slice(b"false"),
        3 => call(b"(not", 1),
        4 => call(b"(and", 2),
        5 => call(b"(or", 2),
        6 => call(b"(=>", 2),
        7 | 8 => call(b"(=", 2),
        9 => call(b"(bvslt", 2),
        10 => call(b"(bvsle", 2),
        16 => constant(number_at(record, VALUE), text),
        17 => symbol(number_at(record, FIELDS).into(), text),
        18 => call(b"(bvneg", 1),
        19 => call(b"(bvadd", 2),
        20 => call(b"(bvsub", 2),
        21 => call(b"(bvmul", 2),
        _ => call(b"(ite", 3),
    }
}
