// The answers to the questions about one sheet and one reply, as the C interface gives them.

use crate::blocks;
use crate::cases;
use crate::limits::MOST_BYTES;
use crate::making;
use crate::reading::{self, refuse, Refusal, Rule};
use crate::replies::{self, Reply};
use crate::script;

/// A lent room: how many bytes it has, and what it is filled with beforehand.
pub struct Room {
    bytes: Vec<u8>,
    /// In numbers or bytes, as the call has it.
    length: usize,
}

impl Room {
    /// `unit` bytes for each of the numbers that the question's low 32 bits count, filled by the high 32.
    fn lent(question: u64, unit: usize) -> Room {
        let (length, pattern) = ((question % (1 << 32)) as usize, (question >> 32) as u32);
        let filled = (0..length * unit).map(|i| (pattern.wrapping_mul(2 * i as u32 + 1) >> 24) as u8);
        Room { bytes: filled.collect(), length }
    }

    /// Puts bytes to the front, and leaves the rest.
    fn put(&mut self, front: &[u8]) {
        self.bytes[..front.len()].copy_from_slice(front);
    }
}

/// A sheet and a reply with what has been found out about them.
pub struct Asked {
    sheet: Vec<u8>,
    reply: Vec<u8>,
    reading: Result<Rule, Refusal>,
    /// Worked out when first asked for, as are the others.
    first_failure: Option<Option<Vec<i64>>>,
    tally: Option<(u64, u64)>,
    script: Option<String>,
    asking: Option<String>,
    replied: Option<Result<Reply, Refusal>>,
    made: Option<Result<Vec<u8>, Refusal>>,
}

impl Asked {
    pub fn about(sheet: Vec<u8>, reply: Vec<u8>) -> Asked {
        let reading = reading::read(&sheet);
        Asked {
            sheet,
            reply,
            reading,
            first_failure: None,
            tally: None,
            script: None,
            asking: None,
            replied: None,
            made: None,
        }
    }

    /// The answer's number, then the bytes of the room after it, if the question lends one.
    pub fn answer(&mut self, subject: u8, number: u64) -> Vec<u8> {
        match subject {
            1 => alone(code(self.read())),
            2 => alone(self.name(number)),
            3 => alone(blocks::content(&self.sheet, number).map_or(0, |content| content.len() as u64)),
            4 => {
                let mut room = Room::lent(number, 2);
                let said = code(self.check(&mut room));
                with_room(said, room)
            }
            5 => alone(code(self.tally())),
            6 => {
                let mut room = Room::lent(number, 1);
                let said = code(self.write_script(&mut room));
                with_room(said, room)
            }
            7 => {
                let mut room = Room::lent(number, 1);
                let said = code(self.write_asking(&mut room));
                with_room(said, room)
            }
            8 => alone(code(self.reply())),
            9 => alone(self.digits(number)),
            10..=13 => {
                let mut room = Room::lent(number, 1);
                let said = match subject {
                    10 => self.made(),
                    11 => text_of(&self.sheet),
                    12 => self.made().and_then(|sheet| text_of(&sheet)),
                    _ => text_of(&self.sheet).and_then(|text| making::make(&text)),
                };
                let said = code(said.and_then(|bytes| write(&bytes, &mut room)));
                with_room(said, room)
            }
            _ => panic!("no question has subject {}", subject),
        }
    }

    fn rule(&self) -> Result<&Rule, Refusal> {
        self.reading.as_ref().map_err(|&refusal| refusal)
    }

    fn read(&self) -> Result<u64, Refusal> {
        self.rule().map(|_| 0)
    }

    fn name(&self, variable: u64) -> u64 {
        let named = self.rule().ok().and_then(|rule| rule.variables.get(variable as usize));
        named.map_or(0, |variable| variable.name_offset as u64 * 65_536 + variable.name.len() as u64)
    }

    /// 0 holds, 1 fails.
    fn check(&mut self, room: &mut Room) -> Result<u64, Refusal> {
        let rule = self.reading.as_ref().map_err(|&refusal| refusal)?;
        let count = cases::count(rule)?;
        if room.length < rule.variables.len() {
            return refuse(9, rule.variables.len());
        }
        match self.first_failure.get_or_insert_with(|| cases::first_failure(rule, count)) {
            None => Ok(0),
            Some(case) => {
                room.put(&case.iter().flat_map(|&value| (value as i16).to_le_bytes()).collect::<Vec<u8>>());
                Ok(1)
            }
        }
    }

    fn tally(&mut self) -> Result<u64, Refusal> {
        let rule = self.reading.as_ref().map_err(|&refusal| refusal)?;
        let count = cases::count(rule)?;
        let (held, failed) = *self.tally.get_or_insert_with(|| cases::tally(rule, count));
        Ok(held * (1 << 24) + failed)
    }

    /// The bytes written.
    fn write_script(&mut self, room: &mut Room) -> Result<u64, Refusal> {
        let rule = self.reading.as_ref().map_err(|&refusal| refusal)?;
        write(self.script.get_or_insert_with(|| script::script(rule)).as_bytes(), room)
    }

    fn write_asking(&mut self, room: &mut Room) -> Result<u64, Refusal> {
        let rule = self.reading.as_ref().map_err(|&refusal| refusal)?;
        write(self.asking.get_or_insert_with(|| script::asking(rule)).as_bytes(), room)
    }

    /// The sheet that the bytes in the sheet's place say, taken as a plain text.
    fn made(&mut self) -> Result<Vec<u8>, Refusal> {
        self.made.get_or_insert_with(|| making::make(&self.sheet)).clone()
    }

    fn replied(&mut self) -> Result<&Reply, Refusal> {
        let rule = self.reading.as_ref().map_err(|&refusal| refusal)?;
        let replied = self.replied.get_or_insert_with(|| replies::judged(rule, &self.reply));
        replied.as_ref().map_err(|&refusal| refusal)
    }

    /// 0 unsat is claimed, 1 the case fails.
    fn reply(&mut self) -> Result<u64, Refusal> {
        self.replied().map(|reply| match reply {
            Reply::Unsat => 0,
            Reply::Sat(_) => 1,
        })
    }

    fn digits(&mut self, variable: u64) -> u64 {
        match self.replied() {
            Ok(Reply::Sat(digits)) => digits
                .get(variable as usize)
                .map_or(0, |digits| digits.from as u64 * 65_536 + digits.count as u64),
            _ => 0,
        }
    }
}

/// Gives the bytes written.
fn write(bytes: &[u8], room: &mut Room) -> Result<u64, Refusal> {
    if room.length < bytes.len() {
        return refuse(9, bytes.len());
    }
    room.put(bytes);
    Ok(bytes.len() as u64)
}

fn text_of(sheet: &[u8]) -> Result<Vec<u8>, Refusal> {
    making::text(&reading::read(sheet)?).map(String::into_bytes)
}

/// What the program writes about a sheet when asked with this word.
pub fn said(word: &str, input: &[u8]) -> String {
    or_refused(answer_to(word, as_far_as_read(input)))
}

/// What the program writes about a file when asked with this word: a name that ends in .rule is a text's.
pub fn said_of_file(word: &str, name: &[u8], input: &[u8]) -> Vec<u8> {
    if word != "make" && !(word != "text" && name.ends_with(b".rule")) {
        return said(word, input).into_bytes();
    }
    match making::make(input) {
        Ok(sheet) if word == "make" => sheet,
        Ok(sheet) => said(word, &sheet).into_bytes(),
        Err(refusal) => refused_text(input, refusal).into_bytes(),
    }
}

/// What the program writes about a sheet, or the text of one, and a reply to it.
pub fn said_of_reply(name: &str, input: &[u8], reply: &[u8]) -> String {
    match name.ends_with(".rule").then(|| making::make(input)) {
        None => or_refused(answer_to_reply(as_far_as_read(input), reply)),
        Some(Ok(sheet)) => or_refused(answer_to_reply(&sheet, reply)),
        Some(Err(refusal)) => refused_text(input, refusal),
    }
}

/// The refusal of a text, and where in it.
fn refused_text(text: &[u8], refusal: Refusal) -> String {
    let line = or_refused(Err(refusal));
    match making::pointed_at(text, refusal).map(|place| making::line_and_column(text, place)) {
        Some((row, column)) => format!("{} (line {} column {})\n", line.trim_end(), row, column),
        None => line,
    }
}

fn as_far_as_read(input: &[u8]) -> &[u8] {
    &input[..input.len().min(MOST_BYTES + 1)]
}

fn or_refused(answer: Result<String, Refusal>) -> String {
    answer.unwrap_or_else(|Refusal { number, place }| format!("refused {} at {}\n", number, place))
}

fn answer_to_reply(sheet: &[u8], reply: &[u8]) -> Result<String, Refusal> {
    let rule = reading::read(sheet)?;
    Ok(match replies::judged(&rule, reply)? {
        Reply::Unsat => "unsat claimed\n".to_string(),
        Reply::Sat(digits) => failing(&rule, &replies::case(reply, &digits)),
    })
}

fn answer_to(word: &str, sheet: &[u8]) -> Result<String, Refusal> {
    let rule = reading::read(sheet)?;
    match word {
        "read" => Ok("accepted\n".to_string()),
        "script" => Ok(script::script(&rule)),
        "ask" => Ok(script::asking(&rule)),
        "text" => making::text(&rule),
        "check" => Ok(checked(&rule, cases::first_failure(&rule, cases::count(&rule)?))),
        "tally" => {
            let (held, failed) = cases::tally(&rule, cases::count(&rule)?);
            Ok(format!("held {} failed {}\n", held, failed))
        }
        _ => panic!("the program knows no word '{}'", word),
    }
}

fn checked(rule: &Rule, failure: Option<Vec<i64>>) -> String {
    match failure {
        None => "holds\n".to_string(),
        Some(case) => failing(rule, &case),
    }
}

fn failing(rule: &Rule, case: &[i64]) -> String {
    let settings = rule.variables.iter().zip(case);
    let settings: String = settings.map(|(of, value)| format!(" {}={}", of.name, value)).collect();
    format!("fails{}\n", settings)
}

/// High 16 bits the refusal's number, low 48 bits its place or the answer.
fn code(answer: Result<u64, Refusal>) -> u64 {
    answer.unwrap_or_else(|refusal| refusal.number << 48 | refusal.place)
}

fn alone(said: u64) -> Vec<u8> {
    said.to_le_bytes().to_vec()
}

fn with_room(said: u64, room: Room) -> Vec<u8> {
    let mut answer = alone(said);
    answer.extend(room.bytes);
    answer
}
