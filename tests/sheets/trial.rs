// A trial: a sheet or a plain text, a reply, the questions about them, and what is known beforehand of the answers.

use crate::case_questions;
use crate::layout::VARIABLE_COUNT;
use crate::limits::{BLOCK, MOST_BLOCKS, MOST_VARIABLES};
use crate::question::{Known, Question};
use crate::random::Random;
use crate::reply_questions;
use crate::script_questions::{self, Form};
use crate::text_questions;
use std::fs::File;
use std::io::{BufWriter, Write};

#[derive(Clone, Copy, PartialEq)]
pub enum Expected {
    Accepted,
    Refused(u64, usize),
    /// Nothing is known beforehand: the oracle alone decides.
    Open,
}

pub use Expected::{Accepted, Open, Refused};

/// The answer of `read`: the refusal's number in the high 16 bits, its place in the low 48.
pub fn reading(expected: Expected) -> Option<u64> {
    match expected {
        Accepted => Some(0),
        Refused(number, place) => Some(number << 48 | place as u64),
        Open => None,
    }
}

/// A part of the interface, which a driver of its own calls.
#[derive(Clone, Copy, PartialEq)]
pub enum Part {
    Reading,
    Cases,
    Script,
    Ask,
    Replies,
    Make,
    Text,
}

pub const PARTS: [(&str, Part); 7] = [
    ("reading", Part::Reading),
    ("cases", Part::Cases),
    ("script", Part::Script),
    ("ask", Part::Ask),
    ("replies", Part::Replies),
    ("make", Part::Make),
    ("text", Part::Text),
];

/// Block numbers whose place in bytes, or whose k + 1, leaves one width of number or another.
pub const FAR_BLOCKS: [u64; 19] = [
    MOST_BLOCKS as u64 - 1,
    MOST_BLOCKS as u64,
    MOST_BLOCKS as u64 + 1,
    255,
    256,
    65_519,
    65_520,
    65_521,
    65_535,
    65_536,
    1 << 23,
    (1 << 32) - 1,
    1 << 32,
    (1 << 55) - 1,
    1 << 55,
    (1 << 55) + 1,
    1 << 63,
    u64::MAX - 1,
    u64::MAX,
];

/// Variable numbers at the edge of one width of number or another.
pub const FAR_VARIABLES: [u16; 9] = [15, 16, 17, 255, 256, 257, 32_767, 32_768, 65_535];

/// A question and, where it is known, its answer.
pub type Asked = (Question, Option<Known>);

/// Where trials go: the sheets, replies and questions to one file, what is known of them to another.
pub struct Output {
    part: Part,
    /// One in so many sheets is put, the others are left out.
    one_in: usize,
    trials: BufWriter<File>,
    notes: BufWriter<File>,
}

impl Output {
    pub fn new(part: Part, trials: File, notes: File) -> Output {
        Output {
            part,
            one_in: 1,
            trials: BufWriter::with_capacity(1 << 20, trials),
            notes: BufWriter::new(notes),
        }
    }

    /// Puts a sheet, or a text where these are asked about, with a few questions at random.
    pub fn put(&mut self, random: &mut Random, label: &str, sheet: &[u8], expected: Expected) {
        if self.one_in > 1 && !random.one_in(self.one_in) {
            return;
        }
        let questions = match self.part {
            Part::Reading => reading_questions(random, sheet, expected),
            Part::Cases => case_questions::any(random, sheet, expected),
            Part::Script | Part::Ask => script_questions::any(random, self.form(), expected),
            Part::Make => text_questions::any_text(random, expected),
            Part::Text => text_questions::any_sheet(random, expected),
            Part::Replies => {
                let (reply, questions) = reply_questions::any(random, sheet, expected);
                return self.ask_about(label, sheet, &reply, &questions);
            }
        };
        self.ask_all(label, sheet, &questions);
    }

    /// From here on, leaves out all but one in so many of what `put` is given.
    pub fn thin(&mut self, one_in: usize) {
        self.one_in = one_in;
    }

    pub fn part(&self) -> Part {
        self.part
    }

    /// The form of the scripts that are asked for.
    pub fn form(&self) -> Form {
        match self.part {
            Part::Ask => Form::Asking,
            _ => Form::Plain,
        }
    }

    /// Puts a sheet with these questions, which lend no room, and, where they are known, their answers.
    pub fn ask(&mut self, label: &str, sheet: &[u8], questions: &[(Question, Option<u64>)]) {
        let questions: Vec<Asked> =
            questions.iter().map(|&(question, said)| (question, said.map(Known::said))).collect();
        self.ask_all(label, sheet, &questions);
    }

    /// Puts a sheet with these questions and, where they are known, their answers.
    pub fn ask_all(&mut self, label: &str, sheet: &[u8], questions: &[Asked]) {
        self.ask_about(label, sheet, &[], questions);
    }

    /// The same with a reply.
    pub fn ask_about(&mut self, label: &str, sheet: &[u8], reply: &[u8], questions: &[Asked]) {
        self.write_trial(sheet, reply, questions).expect("the trials can be written");
        let word = |known: &Option<Known>| known.as_ref().map_or("-".to_string(), Known::word);
        let known: Vec<String> = questions.iter().map(|(_, known)| word(known)).collect();
        writeln!(self.notes, "{}\t{}", label, known.join(" ")).expect("the notes can be written");
    }

    fn write_trial(&mut self, sheet: &[u8], reply: &[u8], questions: &[Asked]) -> std::io::Result<()> {
        for count in [sheet.len(), reply.len(), questions.len()] {
            self.trials.write_all(&(count as u32).to_le_bytes())?;
        }
        self.trials.write_all(sheet)?;
        self.trials.write_all(reply)?;
        for (question, _) in questions {
            let (subject, number) = question.subject_and_number();
            self.trials.write_all(&[subject])?;
            self.trials.write_all(&number.to_le_bytes())?;
        }
        Ok(())
    }

    pub fn finish(mut self) {
        self.trials.flush().expect("the trials can be written");
        self.notes.flush().expect("the notes can be written");
    }
}

fn reading_questions(random: &mut Random, sheet: &[u8], expected: Expected) -> Vec<Asked> {
    let variables = usize::from(sheet.get(VARIABLE_COUNT).copied().unwrap_or(0)).min(MOST_VARIABLES + 1);
    let near = random.below(variables + 1) as u16;
    let far = random.pick(&FAR_VARIABLES);
    let block = random.below(sheet.len() / BLOCK + 2) as u64;
    let distant = random.pick(&FAR_BLOCKS);
    let name = match expected {
        Refused(..) => Some(Known::said(0)),
        _ => None,
    };
    vec![
        (Question::Read, reading(expected).map(Known::said)),
        (Question::Name(near), name.clone()),
        (Question::Name(far), name),
        (Question::Block(block), None),
        (Question::Block(distant), None),
    ]
}
