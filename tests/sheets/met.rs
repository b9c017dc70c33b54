// The kinds of answer that an answer is an instance of; `required` lists all that must be met.

use crate::judge::Trial;
use crate::layout::*;
use crate::limits::*;
use crate::question::{Answer, Question};
use crate::reply_met;
use crate::script_questions::ROOM_OF_01;
use crate::text_met;
use crate::trees::KINDS;

/// `first` is the answer to the trial's first question: the reading of the sheet, or of the reply.
pub fn kinds_of_answer(trial: &Trial, question: Question, answer: &Answer, first: &Answer) -> Vec<String> {
    let sheet = trial.sheet;
    match question {
        Question::Read => kinds_of_reading("read", sheet, answer),
        Question::Name(variable) => kinds_of_name(variable, answer.said, first.refusal()),
        Question::Block(k) => kinds_of_block(sheet, k, answer.said),
        Question::Check(_) => kinds_of_check(sheet, answer),
        Question::Tally => kinds_of_tally(sheet, answer),
        Question::Script(_) => kinds_of_script("script", sheet, answer),
        Question::Ask(_) => kinds_of_script("ask", sheet, answer),
        Question::Reply => reply_met::kinds_of_reply(trial, answer),
        Question::Digits(variable) => reply_met::kinds_of_digits(variable, answer.said, first),
        Question::Make(_) => text_met::kinds_of_make(trial, answer),
        Question::Text(_) => text_met::kinds_of_text(trial, answer),
        Question::MakeText(_) => text_met::kinds_of_make_text(trial, answer),
        Question::TextMake(_) => text_met::kinds_of_text_make(trial, answer),
    }
}

/// Accepted, or a refusal 1 to 8, as this call has it.
pub fn kinds_of_reading(call: &str, sheet: &[u8], answer: &Answer) -> Vec<String> {
    let (number, place) = (answer.refusal(), answer.low() as usize);
    match number {
        0 => vec![format!("{}: accepted, {} blocks", call, sheet.len() / BLOCK)],
        1 if sheet.is_empty() => vec![format!("{}: 1 at {}, no bytes", call, place)],
        1 if sheet.len() % BLOCK != 0 => vec![format!("{}: 1 at {}, no multiple of 512", call, place)],
        1 if sheet.len() > MOST_BYTES => vec![format!("{}: 1 at {}, over the most", call, place)],
        2 => vec![format!("{}: 2 at block {}", call, place)],
        5 => vec![format!("{}: 5 at variable {}", call, place)],
        6..=8 => kinds_of_node(call, sheet, number, place),
        _ => vec![format!("{}: {} at {}", call, number, place)],
    }
}

fn kinds_of_node(call: &str, sheet: &[u8], number: u64, node: usize) -> Vec<String> {
    let last = node_count(sheet) - 1;
    let place = match node {
        0 if last == 0 => "the only node",
        0 => "node 0 of more",
        _ if node == last => "N - 1",
        _ => "a node between",
    };
    let which = match node {
        0..=248 => "a node up to 248".to_string(),
        249..=254 => "a node of 249 to 254".to_string(),
        255 | 256 | 257 | 511 | 512 => format!("node {}", node),
        _ if node + 1 == MOST_NODES => "the last of the most nodes".to_string(),
        _ if node + 2 == MOST_NODES => "the last but one of the most nodes".to_string(),
        _ if node < 1_024 => "a node of 258 to 1,023".to_string(),
        _ => "a node from 1,024 on".to_string(),
    };
    let kind = sheet[node_at(node)];
    let kind = if KINDS.contains(&kind) { format!("kind {}", kind) } else { "no kind".to_string() };
    vec![
        format!("{}: {} at {}", call, number, place),
        format!("{}: {} at {}", call, number, which),
        format!("{}: {} in block {}", call, number, 1 + node / NODES_IN_BLOCK),
        format!("{}: {} at {}", call, number, kind),
    ]
}

fn kinds_of_name(variable: u16, answer: u64, refusal: u64) -> Vec<String> {
    match (answer, refusal) {
        (0, 0) => vec!["name: empty, not below V".to_string()],
        (0, _) => vec![format!("name: empty, refusal {}", refusal)],
        _ => vec![format!("name: of variable {}", variable), format!("name: of length {}", answer % 65_536)],
    }
}

fn kinds_of_block(sheet: &[u8], k: u64, answer: u64) -> Vec<String> {
    let mut kinds = vec![kind_of_block(sheet, k, answer)];
    if answer != 0 {
        kinds.extend(kind_of_content(&sheet[BLOCK * k as usize..][..CONTENT]));
    }
    kinds
}

fn kind_of_content(content: &[u8]) -> Option<String> {
    let mut others = content.iter().enumerate().filter(|&(_, &byte)| byte != 0);
    match (others.next(), others.next()) {
        (Some((place, _)), None) => Some(format!("block: of byte {} alone", place)),
        _ if content.iter().all(|&byte| byte == 255) => Some("block: of the greatest sum".to_string()),
        _ => None,
    }
}

fn kind_of_block(sheet: &[u8], k: u64, answer: u64) -> String {
    let (from, length) = (u128::from(k) * BLOCK as u128, sheet.len() as u128);
    match answer {
        0 if from >= length => "block: empty, past the lent bytes".to_string(),
        0 if from + BLOCK as u128 > length => "block: empty, partly inside".to_string(),
        0 => "block: empty, check wrong".to_string(),
        _ if k > 65_520 => "block: of a number over 65,520".to_string(),
        _ if k > MOST_BLOCKS as u64 => "block: of a number over the most".to_string(),
        _ => format!("block: {}", k),
    }
}

/// How many nodes an accepted sheet has.
pub fn nodes_of(sheet: &[u8]) -> &'static str {
    match node_count(sheet) {
        MOST_NODES => "the most nodes",
        0..=255 => "up to 255 nodes",
        _ => "over 255 nodes",
    }
}

fn kinds_of_check(sheet: &[u8], answer: &Answer) -> Vec<String> {
    let (variables, room) =
        (sheet.get(VARIABLE_COUNT).map_or(0, |&count| usize::from(count)), answer.room.len() / 2);
    let room = match room {
        _ if room == variables => "room for V",
        _ if room == variables + 1 => "room for V + 1",
        _ if room > variables => "room for more",
        0 => "no room",
        _ if room + 1 == variables => "room for V - 1",
        _ => "less room than V",
    };
    match (answer.refusal(), answer.low()) {
        (0, 0) => vec![
            format!("check: holds, V = {}", variables),
            format!("check: holds, {}", room),
            format!("check: holds, {}", nodes_of(sheet)),
        ],
        (0, 1) => vec![
            format!("check: fails, V = {}", variables),
            format!("check: fails, {}", room),
            format!("check: fails, {}", nodes_of(sheet)),
            format!("check: fails in {}", which_case(sheet, variables, &answer.numbers())),
        ],
        (9, place) => vec![format!("check: 9 at {}", place), format!("check: 9, {}", room)],
        (10, place) => vec![format!("check: 10 at {}, {}", place, room)],
        _ => kinds_of_reading("check", sheet, answer),
    }
}

fn which_case(sheet: &[u8], variables: usize, case: &[i64]) -> &'static str {
    let end = |at: usize| i64::from(i16::from_le_bytes([sheet[at], sheet[at + 1]]));
    let lowest = (0..variables).all(|variable| case[variable] == end(variable_at(variable)));
    let highest = (0..variables).all(|variable| case[variable] == end(variable_at(variable) + GREATEST));
    match (lowest, highest) {
        (true, true) => "the only case",
        (true, false) => "the first case",
        (false, true) => "the last case",
        (false, false) => "a case between",
    }
}

fn kinds_of_tally(sheet: &[u8], answer: &Answer) -> Vec<String> {
    let (held, failed) = (answer.low() >> 24, answer.low() % (1 << 24));
    let counts = match (held, failed) {
        _ if answer.refusal() == 10 => return vec![format!("tally: 10 at {}", answer.low())],
        _ if answer.refusal() != 0 => return kinds_of_reading("tally", sheet, answer),
        (_, 0) => "all held",
        (0, _) => "all failed",
        _ => "some held, some failed",
    };
    let count = match held + failed {
        1 => "one case",
        MOST_CASES => "the most cases",
        _ => "some cases",
    };
    let nodes = format!("tally: {}, {}", counts, nodes_of(sheet));
    vec![format!("tally: {}", counts), format!("tally: {}", count), nodes]
}

/// The labels under which the length of the longest script is told, in each form.
pub const LONGEST: &str = "script: the longest, in bytes";
pub const LONGEST_ASKING: &str = "ask: the longest, in bytes";

fn bytes_of_script(length: usize) -> &'static str {
    if length > ROOM_OF_01 {
        "over 4,096 bytes"
    } else {
        "up to 4,096 bytes"
    }
}

/// A script as this call writes it.
fn kinds_of_script(call: &str, sheet: &[u8], answer: &Answer) -> Vec<String> {
    let (length, room) = (answer.low() as usize, answer.room.len());
    match answer.refusal() {
        0 => {
            let room = match room {
                _ if room == length => "just room",
                _ if room == length + 1 => "room for one byte more",
                ENOUGH_ROOM => "room enough for all",
                _ => "room for more",
            };
            vec![
                format!("{}: written, V = {}", call, sheet[VARIABLE_COUNT]),
                format!("{}: written, {} blocks", call, sheet.len() / BLOCK),
                format!("{}: {} written, {}", call, bytes_of_script(length), room),
            ]
        }
        9 => {
            let room = match room {
                0 => "no room",
                _ if room + 1 == length => "one byte short",
                ROOM_OF_01 => "document 01's room",
                _ => "less room",
            };
            vec![format!("{}: 9 at {}, {}", call, bytes_of_script(length), room)]
        }
        _ => kinds_of_reading(call, sheet, answer),
    }
}
