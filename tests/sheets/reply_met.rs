// The kinds of answer about replies; `reply_required` lists all that must be met.

use crate::judge::Trial;
use crate::layout::VARIABLE_COUNT;
use crate::met::{kinds_of_reading, nodes_of};
use crate::question::Answer;

pub fn kinds_of_reply(trial: &Trial, answer: &Answer) -> Vec<String> {
    let variables = || trial.sheet[VARIABLE_COUNT];
    match (answer.refusal(), answer.low()) {
        (0, 0) => vec![format!("reply: unsat claimed, V = {}", variables())],
        (0, 1) => vec![
            format!("reply: fails, V = {}", variables()),
            format!("reply: fails, {}", nodes_of(trial.sheet)),
        ],
        (11, place) => kinds_of_11(trial.reply, place as usize),
        (12, place) => vec![format!("reply: 12 at variable {}", place)],
        (13, place) => vec![
            format!("reply: 13 at {}, V = {}", place, variables()),
            format!("reply: 13 at {}, {}", place, nodes_of(trial.sheet)),
        ],
        _ => kinds_of_reading("reply", trial.sheet, answer),
    }
}

fn kinds_of_11(reply: &[u8], place: usize) -> Vec<String> {
    match reply.get(place) {
        None if reply.is_empty() => vec!["reply: 11, no bytes".to_string()],
        None => vec!["reply: 11 at the length".to_string()],
        Some(&byte) => {
            let at = match place {
                0 => "the first byte",
                _ if place + 1 == reply.len() => "the last byte",
                _ => "a byte between",
            };
            vec![format!("reply: 11 at {}", at), format!("reply: 11, {}", sort_of(byte))]
        }
    }
}

fn sort_of(byte: u8) -> &'static str {
    match byte {
        0 => "NUL",
        b'\t' | b'\n' | b'\r' | b' ' => "a blank",
        b'(' => "an opening parenthesis",
        b')' => "a closing parenthesis",
        b';' => "a semicolon",
        b'#' => "a number sign",
        b'0'..=b'9' => "a digit",
        b'A'..=b'Z' | b'a'..=b'z' => "a letter",
        128.. => "a byte above 127",
        _ => "another byte",
    }
}

/// `reply` is the answer about the reply.
pub fn kinds_of_digits(variable: u16, said: u64, reply: &Answer) -> Vec<String> {
    match (said, reply.refusal(), reply.low()) {
        (0, 0, 0) => vec!["digits: empty, unsat claimed".to_string()],
        (0, 0, _) if variable == u16::MAX => vec!["digits: empty, variable 65,535".to_string()],
        (0, 0, _) => vec!["digits: empty, not below V".to_string()],
        (0, refusal, _) => vec![format!("digits: empty, refusal {}", refusal)],
        _ => {
            let far = if said / 65_536 < 65_536 { "below 65,536" } else { "at 65,536 and later" };
            vec![
                format!("digits: of variable {}", variable),
                format!("digits: {} of them", said % 65_536),
                format!("digits: {}", far),
            ]
        }
    }
}
