// Trials, as oracle/main.rs has them: a sheet, a reply and questions about them.

use crate::limits::{ENOUGH_ROOM, MOST_VARIABLES};

pub type Asked = (u8, u64);

pub const READ: Asked = (1, 0);
/// With room for a number of each variable.
pub const CHECK: Asked = (4, MOST_VARIABLES as u64);
pub const TALLY: Asked = (5, 0);
/// With room that is enough for every script.
pub const SCRIPT: Asked = (6, ENOUGH_ROOM as u64);
pub const ASK: Asked = (7, ENOUGH_ROOM as u64);
pub const REPLY: Asked = (8, 0);

pub fn digits(variable: u64) -> Asked {
    (9, variable)
}

pub fn trial(sheet: &[u8], questions: &[Asked]) -> Vec<u8> {
    with_reply(sheet, &[], questions)
}

pub fn with_reply(sheet: &[u8], reply: &[u8], questions: &[Asked]) -> Vec<u8> {
    let counts = [sheet.len(), reply.len(), questions.len()];
    let mut trial: Vec<u8> = counts.iter().flat_map(|&count| (count as u32).to_le_bytes()).collect();
    trial.extend(sheet);
    trial.extend(reply);
    for (subject, number) in questions {
        trial.push(*subject);
        trial.extend(number.to_le_bytes());
    }
    trial
}

/// The sheets of all trials.
pub fn sheets(mut trials: &[u8]) -> Vec<Vec<u8>> {
    let mut sheets = Vec::new();
    while !trials.is_empty() {
        let number = |place: usize| {
            let bytes = trials[place..place + 4].try_into().expect("four bytes");
            u32::from_le_bytes(bytes) as usize
        };
        let (length, reply, questions) = (number(0), number(4), number(8));
        sheets.push(trials[12..12 + length].to_vec());
        trials = &trials[12 + length + reply + 9 * questions..];
    }
    sheets
}
