// Questions that put a sheet to check and tally, with rooms of every length about V.

use crate::layout::{node_count, number_at, variable_at, GREATEST, LEAST, VARIABLE_COUNT};
use crate::limits::{BLOCK, MOST_CASES, MOST_NODES, MOST_VARIABLES};
use crate::question::{Known, Question, Room};
use crate::random::Random;
use crate::trial::{reading, Asked, Expected, Refused};

/// What the check and the tally of an accepted sheet come to.
pub struct Outcome {
    pub first_failure: Option<Vec<i64>>,
    pub held: u64,
    pub failed: u64,
}

impl Outcome {
    /// The answers, with V variables.
    fn answer(&self, question: Question, variables: usize) -> Known {
        match question {
            Question::Check(room) if room.length < variables => Known::refused(9, variables),
            Question::Check(_) => match &self.first_failure {
                None => Known::said(0),
                Some(case) => Known { said: 1, front: stored(case) },
            },
            Question::Tally => Known::said(self.held * 16_777_216 + self.failed),
            _ => Known::said(0),
        }
    }
}

/// A case as it stands in a room.
pub fn stored(case: &[i64]) -> Vec<u8> {
    case.iter().flat_map(|&value| (value as i16).to_le_bytes()).collect()
}

pub fn room(random: &mut Random, length: usize) -> Room {
    Room { length, pattern: random.next() as u32 }
}

/// No room, any less than V, V - 1, V, V + 1 and more.
fn room_lengths(random: &mut Random, variables: usize) -> Vec<usize> {
    let (less, more) = (random.below(variables.max(1)), variables + 2 + random.below(30));
    let mut lengths = vec![0, less, variables.saturating_sub(1), variables, variables + 1, more];
    lengths.dedup();
    lengths
}

/// The reading, the check with every length of room, and the tally.
pub fn every_room(random: &mut Random, variables: usize) -> Vec<Question> {
    let lengths = room_lengths(random, variables);
    let checks = lengths.into_iter().map(|length| Question::Check(room(random, length)));
    [Question::Read].into_iter().chain(checks).chain([Question::Tally]).collect()
}

/// These questions about an accepted sheet, with their answers where the outcome is known.
pub fn with_outcome(questions: Vec<Question>, variables: usize, outcome: Option<&Outcome>) -> Vec<Asked> {
    let known = |question| match question {
        Question::Read => Some(Known::said(0)),
        _ => outcome.map(|outcome| outcome.answer(question, variables)),
    };
    questions.into_iter().map(|question| (question, known(question))).collect()
}

/// Questions about any sheet: of a refused one all answers are known, whatever room is lent.
pub fn any(random: &mut Random, sheet: &[u8], expected: Expected) -> Vec<Asked> {
    let known = match expected {
        Refused(number, place) => Some(Known::refused(number, place)),
        _ => None,
    };
    let variables = usize::from(sheet.get(VARIABLE_COUNT).copied().unwrap_or(0)).min(MOST_VARIABLES);
    let lengths = room_lengths(random, variables);
    let mut questions = vec![(Question::Read, reading(expected).map(Known::said))];
    if known.is_some() || affordable(sheet, 20_000.0) {
        let (one, other) = (random.pick(&lengths), random.pick(&lengths));
        questions.push((Question::Check(room(random, one)), known.clone()));
        questions.push((Question::Check(room(random, other)), known.clone()));
        questions.push((Question::Tally, known));
    }
    questions
}

/// Whether to go through all cases takes fewer steps than these, a node's value in one case being one, or none since the
/// cases are too many.
pub fn affordable(sheet: &[u8], steps: f64) -> bool {
    if sheet.len() < BLOCK {
        return true;
    }
    let number = |at: usize| i64::from(number_at(sheet, at) as i16);
    let size = |at: usize| (number(at + GREATEST) - number(at + LEAST) + 1).max(1) as f64;
    let variables = usize::from(sheet[VARIABLE_COUNT]).min(MOST_VARIABLES);
    let cases: f64 = (0..variables).map(|variable| size(variable_at(variable))).product();
    let nodes = node_count(sheet).min(MOST_NODES) as f64;
    cases > MOST_CASES as f64 || cases * nodes < steps
}
