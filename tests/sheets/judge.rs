// Compares the library's answers with the oracle's, and the oracle's with what is known beforehand;
// tells what was met, going by the oracle's answers alone.

use crate::met::{kinds_of_answer, LONGEST, LONGEST_ASKING};
use crate::question::{Answer, Known, Question};
use std::collections::BTreeMap;

/// How often each label and each kind of answer was met; of the longest script, its length.
pub type Met = BTreeMap<String, u64>;

pub struct Verdict {
    pub sheets: usize,
    pub answers: usize,
    /// All differences are counted, the first few told.
    pub differences: usize,
    pub told: Vec<String>,
    pub met: Met,
}

const MOST_TOLD: usize = 5;

pub struct Trial<'t> {
    pub sheet: &'t [u8],
    pub reply: &'t [u8],
    pub questions: Vec<Question>,
}

/// What the notes say of a trial.
struct Note<'t> {
    label: &'t str,
    known: Vec<Option<Known>>,
}

pub fn judge(trials: &[u8], notes: &str, mut wanted: &[u8], mut got: &[u8]) -> Verdict {
    let mut verdict = Verdict { sheets: 0, answers: 0, differences: 0, told: Vec::new(), met: Met::new() };
    let mut rest = trials;
    for note in notes.lines() {
        let trial = next_trial(&mut rest);
        judge_trial(&mut verdict, &trial, &next_note(note), &mut wanted, &mut got);
    }
    if !rest.is_empty() || !wanted.is_empty() || !got.is_empty() {
        let left = [rest.len(), wanted.len(), got.len()];
        verdict.tell(format!("left over: {} bytes of trials, {} wanted, {} got", left[0], left[1], left[2]));
    }
    verdict
}

fn judge_trial(verdict: &mut Verdict, trial: &Trial, note: &Note, wanted: &mut &[u8], got: &mut &[u8]) {
    verdict.sheets += 1;
    let mut first = None;
    for (i, (&question, known)) in trial.questions.iter().zip(&note.known).enumerate() {
        let known = known.as_ref().map(|known| Answer::known(question, known));
        let (wanted, got) = (next_answer(wanted, question), next_answer(got, question));
        if i == 0 {
            first = wanted.clone();
        }
        if known.is_some() && known != wanted {
            verdict.differ(trial, note, question, ("known", &known), ("the oracle", &wanted));
        }
        if wanted != got {
            verdict.differ(trial, note, question, ("the oracle", &wanted), ("the library", &got));
        }
        if let (Some(first), Some(wanted)) = (&first, wanted) {
            let kinds = kinds_of_answer(trial, question, &wanted, first);
            kinds.into_iter().for_each(|kind| verdict.meet(kind));
            verdict.measure(question, &wanted);
        }
        verdict.answers += 1;
    }
    match first.as_ref().map(Answer::refusal) {
        Some(refusal) if label_agrees(note.label, refusal) => verdict.meet(note.label.to_string()),
        Some(refusal) => {
            verdict.tell(format!("sheet {} '{}' got refusal {}", verdict.sheets - 1, note.label, refusal))
        }
        None => {}
    }
}

/// A label begins with the refusal's number, with 'accepted' or with 'any'.
fn label_agrees(label: &str, number: u64) -> bool {
    match label.split(':').next() {
        Some("any") => true,
        Some("accepted") => number == 0,
        Some(word) => word == number.to_string(),
        None => false,
    }
}

type Says<'s> = (&'s str, &'s Option<Answer>);

impl Verdict {
    fn tell(&mut self, difference: String) {
        self.differences += 1;
        if self.told.len() < MOST_TOLD {
            self.told.push(difference);
        }
    }

    fn meet(&mut self, what: String) {
        *self.met.entry(what).or_insert(0) += 1;
    }

    fn measure(&mut self, question: Question, answer: &Answer) {
        let longest = match question {
            Question::Script(_) => LONGEST,
            Question::Ask(_) => LONGEST_ASKING,
            _ => return,
        };
        if answer.refusal() == 0 {
            let length = self.met.entry(longest.to_string()).or_insert(0);
            *length = answer.low().max(*length);
        }
    }

    /// Tells that two say different things about a question of the trial.
    fn differ(&mut self, trial: &Trial, note: &Note, question: Question, one: Says, other: Says) {
        let at = first_difference(one.1, other.1);
        let reply = if trial.reply.is_empty() { String::new() } else { told_reply(trial.reply) };
        let sheet =
            format!("sheet {} '{}' ({} bytes){}", self.sheets - 1, note.label, trial.sheet.len(), reply);
        let both = format!(
            "{}: {}; {}: {}",
            one.0,
            in_words(question, one.1, at),
            other.0,
            in_words(question, other.1, at)
        );
        self.tell(format!("answer {}: {}, {}: {}", self.answers, sheet, question.in_words(), both));
    }
}

/// A reply's length and its beginning.
fn told_reply(reply: &[u8]) -> String {
    let begins: String =
        reply.iter().take(500).flat_map(|&byte| std::ascii::escape_default(byte)).map(char::from).collect();
    format!(", reply '{}' ({} bytes)", begins, reply.len())
}

/// Where two rooms of the same length differ first.
fn first_difference(one: &Option<Answer>, other: &Option<Answer>) -> Option<usize> {
    let (one, other) = (one.as_ref()?, other.as_ref()?);
    (0..one.room.len()).find(|&byte| one.room[byte] != other.room[byte])
}

fn in_words(question: Question, answer: &Option<Answer>, at: Option<usize>) -> String {
    match (answer, at) {
        (None, _) => "nothing".to_string(),
        (Some(answer), None) => answer.in_words(question),
        (Some(answer), Some(at)) => {
            format!("{}, byte {} of the room {}", answer.in_words(question), at, answer.room[at])
        }
    }
}

pub fn next_trial<'t>(rest: &mut &'t [u8]) -> Trial<'t> {
    let number = |bytes: &[u8]| u32::from_le_bytes(bytes.try_into().expect("four bytes")) as usize;
    let [length, reply_length, count] = [(); 3].map(|()| number(take(rest, 4)));
    let (sheet, reply) = (take(rest, length), take(rest, reply_length));
    let questions = take(rest, 9 * count).chunks_exact(9);
    let questions = questions.map(|question| Question::from(question[0], eight(&question[1..])));
    Trial { sheet, reply, questions: questions.collect() }
}

fn next_note(note: &str) -> Note<'_> {
    let (label, known) = note.split_once('\t').expect("a note is a label and the known answers");
    Note { label, known: known.split(' ').map(Known::from_word).collect() }
}

/// The next answer, if it is there whole.
pub fn next_answer(rest: &mut &[u8], question: Question) -> Option<Answer> {
    if rest.len() < 8 + question.room_bytes() {
        *rest = &[];
        return None;
    }
    let said = eight(take(rest, 8));
    Some(Answer { said, room: take(rest, question.room_bytes()).to_vec() })
}

fn eight(bytes: &[u8]) -> u64 {
    u64::from_le_bytes(bytes.try_into().expect("eight bytes"))
}

fn take<'t>(rest: &mut &'t [u8], count: usize) -> &'t [u8] {
    let (first, others) = rest.split_at(count);
    *rest = others;
    first
}
