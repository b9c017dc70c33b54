// Asks the oracle about sheets: it is run once, with a trial for each sheet (see oracle/main.rs).

use crate::answers::{failing, refused, tallied, Answers};
use crate::limits::MOST_VARIABLES;
use crate::sheet;
use crate::trials::{trial, CHECK, READ, TALLY};
use std::io::Write;
use std::process::{Command, Stdio};

/// Three answers, and a room of numbers after the second.
const ROOM: usize = 16;
const AFTER_ROOM: usize = ROOM + 2 * MOST_VARIABLES;
const BYTES: usize = AFTER_ROOM + 8;

/// What the oracle says of each sheet.
pub fn answers(oracle: &str, sheets: &[Vec<u8>]) -> Vec<Answers> {
    let trials: Vec<u8> = sheets.iter().flat_map(|sheet| trial(sheet, &[READ, CHECK, TALLY])).collect();
    let mut child =
        Command::new(oracle).stdin(Stdio::piped()).stdout(Stdio::piped()).spawn().expect("the oracle runs");
    let mut input = child.stdin.take().expect("its input");
    let writer = std::thread::spawn(move || input.write_all(&trials));
    let output = child.wait_with_output().expect("the oracle ends");
    writer.join().expect("a writer").expect("the oracle reads all trials");
    assert_eq!(output.stdout.len(), BYTES * sheets.len(), "the oracle answers every question");
    sheets.iter().zip(output.stdout.chunks_exact(BYTES)).map(|(sheet, said)| in_words(sheet, said)).collect()
}

fn in_words(sheet: &[u8], said: &[u8]) -> Answers {
    let number = |place: usize| u64::from_le_bytes(said[place..place + 8].try_into().expect("eight bytes"));
    let low = |answer: u64| answer & ((1 << 48) - 1);
    let unless_refused = |answer: u64, words: &dyn Fn() -> String| match answer >> 48 {
        0 => words(),
        refusal => refused(refusal, low(answer)),
    };
    let (check, tally) = (number(8), number(AFTER_ROOM));
    let case: Vec<i64> = said[ROOM..AFTER_ROOM]
        .chunks_exact(2)
        .map(|two| i16::from_le_bytes([two[0], two[1]]).into())
        .collect();
    Answers {
        read: unless_refused(number(0), &|| "accepted".to_string()),
        check: unless_refused(check, &|| match low(check) {
            0 => "holds".to_string(),
            _ => failing(&sheet::read_back(sheet), &case),
        }),
        tally: unless_refused(tally, &|| tallied(low(tally) >> 24, low(tally) % (1 << 24))),
    }
}
