// Questions that put a text to `make` and a sheet to `text`, alone and one after the other, with rooms of every length
// about what is written.

use crate::case_questions::room;
use crate::limits::MOST_BYTES;
use crate::plain::Written;
use crate::question::{Known, Question, Room};
use crate::random::Random;
use crate::trial::{reading, Asked, Expected, Refused};

/// A room that is enough for every text of a sheet.
pub const MOST_TEXT: usize = 65_536;

type Ask = fn(Room) -> Question;

/// As many as `other_lengths` gives.
const EVERY: usize = 6;

/// What comes of so much room where these bytes are to be written.
fn known(bytes: &[u8], room: usize) -> Known {
    if room < bytes.len() {
        Known::refused(9, bytes.len())
    } else {
        Known { said: bytes.len() as u64, front: bytes.to_vec() }
    }
}

/// Lengths other than just enough: none, less, one byte too little, one more, more, and enough for all.
fn other_lengths(random: &mut Random, length: usize, enough: usize) -> [usize; EVERY] {
    [0, random.below(length), length - 1, length + 1, length + 2 + random.below(600), enough]
}

/// Just enough room, then so many others.
fn in_rooms(random: &mut Random, ask: Ask, bytes: &[u8], enough: usize, others: usize) -> Vec<Asked> {
    // Not often, since a long room takes long to compare.
    let enough = if others == EVERY || random.one_in(8) { enough } else { bytes.len() + 2 };
    let mut lengths = other_lengths(random, bytes.len(), enough).to_vec();
    while lengths.len() > others {
        lengths.swap_remove(random.below(lengths.len()));
    }
    lengths.insert(0, bytes.len());
    lengths.into_iter().map(|length| (ask(room(random, length)), Some(known(bytes, length)))).collect()
}

/// How many rooms but the first: where much is written, one, since each takes time.
fn others(bytes: &[u8]) -> usize {
    if bytes.len() > 4_096 {
        1
    } else {
        2
    }
}

/// The sheet that is made of a text, in some rooms, and the same text printed from it.
pub fn made(random: &mut Random, rule: &Written) -> Vec<Asked> {
    let mut questions = in_rooms(random, Question::Make, &rule.sheet, MOST_BYTES, others(&rule.sheet));
    questions.extend(in_rooms(random, Question::MakeText, &rule.text, MOST_TEXT, random_other(&rule.sheet)));
    questions
}

/// The text that is printed of a sheet, in some rooms, and the same sheet made of it.
pub fn printed(random: &mut Random, rule: &Written) -> Vec<Asked> {
    let mut questions = vec![(Question::Read, Some(Known::said(0)))];
    questions.extend(in_rooms(random, Question::Text, &rule.text, MOST_TEXT, others(&rule.sheet)));
    questions.extend(in_rooms(
        random,
        Question::TextMake,
        &rule.sheet,
        MOST_BYTES,
        random_other(&rule.sheet),
    ));
    questions
}

/// One room more where little is written.
fn random_other(sheet: &[u8]) -> usize {
    usize::from(sheet.len() <= 1_024)
}

/// In every room.
pub fn made_in_every_room(random: &mut Random, rule: &Written) -> Vec<Asked> {
    let mut questions = in_rooms(random, Question::Make, &rule.sheet, MOST_BYTES, EVERY);
    questions.extend(in_rooms(random, Question::MakeText, &rule.text, MOST_TEXT, EVERY));
    questions
}

pub fn printed_in_every_room(random: &mut Random, rule: &Written) -> Vec<Asked> {
    let mut questions = vec![(Question::Read, Some(Known::said(0)))];
    questions.extend(in_rooms(random, Question::Text, &rule.text, MOST_TEXT, EVERY));
    questions.extend(in_rooms(random, Question::TextMake, &rule.sheet, MOST_BYTES, EVERY));
    questions
}

/// The answer to all questions about what is refused, whatever room is lent.
fn refused(expected: Expected) -> Option<Known> {
    match expected {
        Refused(number, place) => Some(Known::refused(number, place)),
        _ => None,
    }
}

/// Questions about any text: most of those that are accepted all the same have a sheet of 1,024 bytes.
pub fn any_text(random: &mut Random, expected: Expected) -> Vec<Asked> {
    let some = random.below(300);
    let length = random.pick(&[0, some, some, 1_023, 1_024, 1_025]);
    let mut questions = vec![(Question::Make(room(random, length)), refused(expected))];
    if random.one_in(8) {
        let length = random.below(400);
        questions.push((Question::MakeText(room(random, length)), refused(expected)));
    }
    questions
}

/// Questions about any sheet.
pub fn any_sheet(random: &mut Random, expected: Expected) -> Vec<Asked> {
    let some = random.below(300);
    let length = random.pick(&[0, some, some, 4_096]);
    let again = random.pick(&[0, some, 1_024]);
    vec![
        (Question::Read, reading(expected).map(Known::said)),
        (Question::Text(room(random, length)), refused(expected)),
        (Question::TextMake(room(random, again)), refused(expected)),
    ]
}
