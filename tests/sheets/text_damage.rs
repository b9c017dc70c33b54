// Texts that are damaged: each byte changed, removed and more, bytes inserted, cut at every length, other blanks and
// ends of lines, and bytes and words at random.

use crate::grower::Grower;
use crate::plain::{written, WORDS};
use crate::random::Random;
use crate::trial::{Open, Output, Refused};

/// Bytes that are put where they don't belong.
const INTRUDERS: [(&str, &[u8]); 11] = [
    ("NUL", b"\0"),
    ("a byte above 127", b"\x80\xa0\xc3\xff"),
    ("a tab or carriage return", b"\t\r\x0b\x0c"),
    ("a sign", b"+.,;:"),
    ("a parenthesis or quote", b"()\"'`#"),
    ("a space", b" "),
    ("a line feed", b"\n"),
    ("a minus", b"-"),
    ("a digit", b"0123456789"),
    ("a letter", b"aefgilnorstuvAZ"),
    ("an underscore", b"_"),
];

/// Those that stand in no text.
const FOREIGN: usize = 5;

/// A text of a few words.
fn some_text(random: &mut Random, variables: usize, nodes: usize) -> Vec<u8> {
    let mut grower = Grower::new(random, variables);
    let goal = grower.truth(nodes);
    written(&grower, &goal).text
}

pub fn damaged(random: &mut Random, out: &mut Output) {
    for (variables, nodes) in
        [(0, 1), (0, 5), (0, 9), (1, 3), (1, 6), (2, 7), (2, 12), (3, 15), (4, 9), (16, 8)]
    {
        let text = some_text(random, variables, nodes);
        for place in 0..=text.len() {
            if place < text.len() {
                out.put(random, "18: text, cut short", &text[..place], Refused(18, place));
                changed(random, out, &text, place);
            }
            inserted(random, out, &text, place);
        }
    }
}

fn with_inserted(bytes: &[u8], place: usize, more: &[u8]) -> Vec<u8> {
    [&bytes[..place], more, &bytes[place..]].concat()
}

fn inserted(random: &mut Random, out: &mut Output, text: &[u8], place: usize) {
    for (number, (name, among)) in INTRUDERS.into_iter().enumerate() {
        let damaged = with_inserted(text, place, &[random.pick(among)]);
        if number < FOREIGN {
            out.put(random, &format!("18: text, {} inserted", name), &damaged, Refused(18, place));
        } else {
            out.put(random, &format!("any: text, {} inserted", name), &damaged, Open);
        }
    }
    let word = random.pick(&WORDS).1;
    let damaged = with_inserted(text, place, format!("{} ", word).as_bytes());
    out.put(random, "any: text, a word inserted", &damaged, Open);
}

fn changed(random: &mut Random, out: &mut Output, text: &[u8], place: usize) {
    let with = |byte: u8| {
        let mut changed = text.to_vec();
        changed[place] = byte;
        changed
    };
    let any = with(random.other_byte(text[place]));
    out.put(random, "any: text, a byte changed", &any, Open);
    let foreign = with(random.pick(b"\0\x7f\x80\xff\t\r#+"));
    out.put(random, "18: text, a byte made foreign", &foreign, Refused(18, place));
    let near = with(random.pick(b" \n-0123456789abdefgilmnoprstuv_"));
    out.put(random, "any: text, a byte made another of a text's", &near, Open);
    let removed = [&text[..place], &text[place + 1..]].concat();
    out.put(random, "any: text, a byte removed", &removed, Open);
    let doubled = with_inserted(text, place, &[text[place]]);
    out.put(random, "any: text, a byte doubled", &doubled, Open);
    if place + 1 < text.len() {
        let mut swapped = text.to_vec();
        swapped.swap(place, place + 1);
        out.put(random, "any: text, two bytes swapped", &swapped, Open);
    }
}

/// At each place of a short text each byte there is, in place of the one there and before it.
pub fn every_byte(random: &mut Random, out: &mut Output) {
    let text = random.pick(&[
        &b"var ab 0 1\ngoal lt ab 12\n"[..],
        b"var n -1 9\ngoal not eq n -3\n",
        b"var i 0 3\ngoal le i if true i 0\n",
    ]);
    for place in 0..=text.len() {
        for byte in 0..=255 {
            let inserted = with_inserted(text, place, &[byte]);
            out.put(random, "any: text, each byte inserted in turn", &inserted, Open);
            if place < text.len() {
                let mut changed = text.to_vec();
                changed[place] = byte;
                out.put(random, "any: text, each byte in place of another", &changed, Open);
            }
        }
    }
}

// ---- lines

/// Other blanks, other ends of lines, and lines that are missing, too many or elsewhere.
pub fn lines(random: &mut Random, out: &mut Output) {
    for variables in [1, 1, 1, 2, 3, 16] {
        for _ in 0..6 {
            let nodes = 3 + random.below(12);
            let text = some_text(random, variables, nodes);
            one_text(random, out, &text);
        }
    }
}

fn replaced(text: &[u8], byte: u8, by: &[u8]) -> Vec<u8> {
    text.iter().flat_map(|&own| if own == byte { by.to_vec() } else { vec![own] }).collect()
}

/// The text has a variable.
fn one_text(random: &mut Random, out: &mut Output, text: &[u8]) {
    let first = text.iter().position(|&byte| byte == b'\n').expect("a line");
    let goal = text.windows(6).rposition(|six| six == b"\ngoal ").expect("a goal") + 1;
    let line = &text[..first + 1];
    let cases: [(&str, Vec<u8>, usize); 24] = [
        ("carriage returns", replaced(text, b'\n', b"\r\n"), first),
        ("carriage returns for line feeds", replaced(text, b'\n', b"\r"), first),
        ("tabs", replaced(text, b' ', b"\t"), 3),
        ("double spaces", replaced(text, b' ', b"  "), 4),
        ("no spaces", replaced(text, b' ', b""), 3),
        ("spaces at the lines' ends", replaced(text, b'\n', b" \n"), first),
        ("blank lines", replaced(text, b'\n', b"\n\n"), first + 1),
        ("no line feeds", replaced(text, b'\n', b""), first),
        ("spaces for line feeds", replaced(text, b'\n', b" "), first),
        ("no last line feed", text[..text.len() - 1].to_vec(), text.len() - 1),
        ("a space first", [b" ", text].concat(), 0),
        ("a line feed first", [b"\n", text].concat(), 0),
        ("a byte order mark first", [b"\xef\xbb\xbf", text].concat(), 0),
        ("a comment first", [b"# seated\n", text].concat(), 0),
        ("a line feed last", [text, b"\n"].concat(), text.len()),
        ("a byte 0 last", [text, b"\0"].concat(), text.len()),
        ("a second text", [text, text].concat(), text.len()),
        ("a variable behind the goal", [text, line].concat(), text.len()),
        ("no goal", text[..goal].to_vec(), goal),
        ("a goal without words", [&text[..goal], b"goal\n"].concat(), goal + 4),
        ("a goal that goes on", replaced(text, b'\n', b"\n ")[..].to_vec(), first + 1),
        ("in capitals", text.to_ascii_uppercase(), 0),
        ("var in capitals", [b"VAR", &text[3..]].concat(), 0),
        ("a variable without numbers", [&b"var x\n"[..], text].concat(), 5),
    ];
    for (label, damaged, place) in cases {
        out.put(random, &format!("18: text, {}", label), &damaged, Refused(18, place));
    }
}

// ---- at random

pub fn at_random(random: &mut Random, out: &mut Output) {
    for _ in 0..1_200 {
        let (variables, nodes) = (random.below(4), 1 + random.below(12));
        let mut text = some_text(random, variables, nodes);
        for _ in 0..2 + random.below(3) {
            text = changed_somewhere(random, &text);
        }
        out.put(random, "any: text, several changes", &text, Open);
        let text = words_at_random(random);
        out.put(random, "any: text, words at random", &text, Open);
        let length = random.below(40);
        let bytes = random.bytes(length);
        out.put(random, "any: text, bytes at random", &bytes, Open);
        let bytes: Vec<u8> = (0..length).map(|_| random.pick(b"agolv tr01-\n")).collect();
        out.put(random, "any: text, a text's bytes at random", &bytes, Open);
    }
}

fn changed_somewhere(random: &mut Random, text: &[u8]) -> Vec<u8> {
    let place = random.below(text.len().max(1));
    let byte = random.pick(b" \n-0123456789abdefgilmnoprstuv_");
    match random.below(3) {
        _ if text.is_empty() => vec![byte],
        0 => with_inserted(text, place, &[byte]),
        1 => [&text[..place], &text[place + 1..]].concat(),
        _ => [&text[..place], &[byte], &text[place + 1..]].concat(),
    }
}

/// Two declared names, and a goal of words that are picked so that many goals are whole.
fn words_at_random(random: &mut Random) -> Vec<u8> {
    let mut text = b"var no 0 1\nvar x1 -1 3\ngoal".to_vec();
    let mut missing = 1;
    for _ in 0..30 {
        if missing == 0 {
            break;
        }
        let (word, takes) = random.pick(&[
            ("true", 0),
            ("false", 0),
            ("no", 0),
            ("x1", 0),
            ("7", 0),
            ("-32768", 0),
            ("not", 1),
            ("neg", 1),
            ("and", 2),
            ("eq", 2),
            ("sub", 2),
            ("if", 3),
        ]);
        text.push(b' ');
        text.extend(word.bytes());
        missing = missing + takes - 1;
    }
    text.extend(random.pick(&[&b"\n"[..], b"\n", b"\n", b"", b" true\n", b" no\n", b"\n\n"]));
    text
}
