// The kinds of answer about texts, by `make` and `text`; `text_required` lists all that must be met.

use crate::judge::Trial;
use crate::layout::{node_count, VARIABLE_COUNT};
use crate::limits::*;
use crate::question::Answer;
use crate::text_questions::MOST_TEXT;

pub fn kinds_of_make(trial: &Trial, answer: &Answer) -> Vec<String> {
    let place = answer.low() as usize;
    match answer.refusal() {
        0 => {
            let sheet = &answer.room[..place];
            vec![
                format!("make: written, V = {}", sheet[VARIABLE_COUNT]),
                format!("make: written, {}", blocks(sheet)),
                format!("make: written, {}", room_enough(answer, MOST_BYTES)),
            ]
        }
        9 => vec![format!("make: 9, {}", room_short(answer))],
        18 => kinds_of_18(trial.sheet, place),
        5 => vec![format!("make: 5 at variable {}", place)],
        number @ (7 | 8) => {
            let node = match place {
                0..=30 => "a node of the first block",
                31..=255 => "a node up to 255",
                _ => "a node over 255",
            };
            vec![format!("make: {} at {}", number, node)]
        }
        number => vec![format!("make: {} at {}", number, place)],
    }
}

fn blocks(sheet: &[u8]) -> &'static str {
    match (node_count(sheet), sheet.len() / BLOCK) {
        (MOST_NODES, _) => "the most nodes",
        (_, 2) => "two blocks",
        (_, 3..=8) => "up to eight blocks",
        _ => "more blocks",
    }
}

fn room_enough(answer: &Answer, enough: usize) -> &'static str {
    let (length, room) = (answer.low() as usize, answer.room.len());
    match room {
        _ if room == length => "just room",
        _ if room == length + 1 => "room for one byte more",
        _ if room == enough => "room enough for all",
        _ => "room for more",
    }
}

fn room_short(answer: &Answer) -> &'static str {
    match answer.room.len() {
        0 => "no room",
        room if room as u64 + 1 == answer.low() => "one byte short",
        _ => "less room",
    }
}

fn kinds_of_18(text: &[u8], place: usize) -> Vec<String> {
    let at = match place {
        _ if text.is_empty() => "no bytes",
        _ if place == text.len() => "the length",
        0 => "the first byte",
        _ if place + 1 == text.len() => "the last byte",
        _ => "a byte between",
    };
    let byte = text.get(place).map(|byte| match byte {
        0 => "NUL",
        b' ' => "a space",
        b'\n' => "a line feed",
        b'\t' | b'\r' => "another blank",
        b'-' => "a minus",
        b'0'..=b'9' => "a digit",
        b'a'..=b'z' => "a small letter",
        b'A'..=b'Z' => "a capital",
        128.. => "a byte above 127",
        _ => "another byte",
    });
    let at = format!("make: 18 at {}", at);
    [Some(at), byte.map(|byte| format!("make: 18, {}", byte))].into_iter().flatten().collect()
}

/// Of the text that is printed of what is made.
pub fn kinds_of_make_text(trial: &Trial, answer: &Answer) -> Vec<String> {
    match answer.refusal() {
        0 => vec![same("make, text", trial.sheet, answer, "text")],
        9 => vec![format!("make, text: 9, {}", room_short(answer))],
        number => vec![format!("make, text: {}", number)],
    }
}

pub fn kinds_of_text(trial: &Trial, answer: &Answer) -> Vec<String> {
    match answer.refusal() {
        0 => vec![
            format!("text: written, V = {}", trial.sheet[VARIABLE_COUNT]),
            format!("text: written, {} blocks", trial.sheet.len() / BLOCK),
            format!("text: written, {}", room_enough(answer, MOST_TEXT)),
        ],
        9 => vec![format!("text: 9, {}", room_short(answer))],
        19 => vec![format!("text: 19 at variable {}", answer.low())],
        number => vec![format!("text: {}", number)],
    }
}

/// Of the sheet that is made of what is printed.
pub fn kinds_of_text_make(trial: &Trial, answer: &Answer) -> Vec<String> {
    match answer.refusal() {
        0 => vec![same("text, make", trial.sheet, answer, "sheet")],
        9 => vec![format!("text, make: 9, {}", room_short(answer))],
        number => vec![format!("text, make: {}", number)],
    }
}

/// Both ways what comes back is what was lent.
fn same(calls: &str, lent: &[u8], answer: &Answer, what: &str) -> String {
    let same = answer.room[..answer.low() as usize] == *lent;
    format!("{}: {} {}", calls, if same { "the same" } else { "another" }, what)
}
