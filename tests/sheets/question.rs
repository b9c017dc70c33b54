// Questions about a sheet and a reply, the rooms that some of them lend, and answers.

/// A lent room. Its bytes are first what the pattern gives, so that a store shows.
#[derive(Clone, Copy)]
pub struct Room {
    /// In numbers or bytes, as the call has it.
    pub length: usize,
    pub pattern: u32,
}

impl Room {
    fn from(number: u64) -> Room {
        Room { length: number as u32 as usize, pattern: (number >> 32) as u32 }
    }

    fn number(self) -> u64 {
        u64::from(self.pattern) << 32 | self.length as u64
    }
}

#[derive(Clone, Copy)]
pub enum Question {
    Read,
    Name(u16),
    Block(u64),
    Check(Room),
    Tally,
    Script(Room),
    Ask(Room),
    Reply,
    Digits(u16),
    Make(Room),
    Text(Room),
    /// The text of what is made of a text.
    MakeText(Room),
    /// What is made of a sheet's text.
    TextMake(Room),
}

impl Question {
    pub fn subject_and_number(self) -> (u8, u64) {
        match self {
            Question::Read => (1, 0),
            Question::Name(variable) => (2, variable.into()),
            Question::Block(k) => (3, k),
            Question::Check(room) => (4, room.number()),
            Question::Tally => (5, 0),
            Question::Script(room) => (6, room.number()),
            Question::Ask(room) => (7, room.number()),
            Question::Reply => (8, 0),
            Question::Digits(variable) => (9, variable.into()),
            Question::Make(room) => (10, room.number()),
            Question::Text(room) => (11, room.number()),
            Question::MakeText(room) => (12, room.number()),
            Question::TextMake(room) => (13, room.number()),
        }
    }

    pub fn from(subject: u8, number: u64) -> Question {
        match subject {
            1 => Question::Read,
            2 => Question::Name(number as u16),
            3 => Question::Block(number),
            4 => Question::Check(Room::from(number)),
            5 => Question::Tally,
            6 => Question::Script(Room::from(number)),
            7 => Question::Ask(Room::from(number)),
            8 => Question::Reply,
            9 => Question::Digits(number as u16),
            10 => Question::Make(Room::from(number)),
            11 => Question::Text(Room::from(number)),
            12 => Question::MakeText(Room::from(number)),
            13 => Question::TextMake(Room::from(number)),
            _ => panic!("no question has subject {}", subject),
        }
    }

    /// The lent room's bytes as they are before the call; none are lent without a room.
    pub fn filled(self) -> Vec<u8> {
        let pattern = self.room().map_or(0, |room| room.pattern);
        let byte = |place: usize| pattern.wrapping_mul(2 * place as u32 + 1).to_be_bytes()[0];
        (0..self.room_bytes()).map(byte).collect()
    }

    fn room(self) -> Option<Room> {
        match self {
            Question::Check(room) | Question::Script(room) | Question::Ask(room) => Some(room),
            Question::Make(room) | Question::Text(room) => Some(room),
            Question::MakeText(room) | Question::TextMake(room) => Some(room),
            _ => None,
        }
    }

    pub fn room_bytes(self) -> usize {
        let unit = if let Question::Check(_) = self { 2 } else { 1 };
        self.room().map_or(0, |room| unit * room.length)
    }

    pub fn in_words(self) -> String {
        match self {
            Question::Read => "read".to_string(),
            Question::Name(variable) => format!("name {}", variable),
            Question::Block(k) => format!("block {}", k),
            Question::Check(room) => format!("check with room for {}", room.length),
            Question::Tally => "tally".to_string(),
            Question::Script(room) => format!("script with room for {}", room.length),
            Question::Ask(room) => format!("ask with room for {}", room.length),
            Question::Reply => "reply".to_string(),
            Question::Digits(variable) => format!("digits {}", variable),
            Question::Make(room) => format!("make with room for {}", room.length),
            Question::Text(room) => format!("text with room for {}", room.length),
            Question::MakeText(room) => format!("make, then text with room for {}", room.length),
            Question::TextMake(room) => format!("text, then make with room for {}", room.length),
        }
    }
}

/// What is known of an answer beforehand: its number, and what stands at the front of the room; the rest of
/// the room is as it was.
#[derive(Clone)]
pub struct Known {
    pub said: u64,
    pub front: Vec<u8>,
}

impl Known {
    /// With nothing written to the room.
    pub fn said(said: u64) -> Known {
        Known { said, front: Vec::new() }
    }

    pub fn refused(number: u64, place: usize) -> Known {
        Known::said(number << 48 | place as u64)
    }

    /// As a word of the notes.
    pub fn word(&self) -> String {
        let front: String = self.front.iter().map(|byte| format!("{:02x}", byte)).collect();
        format!("{}+{}", self.said, front)
    }

    pub fn from_word(word: &str) -> Option<Known> {
        let (said, front) = word.split_once('+')?;
        let digit = |i: usize| u8::from_str_radix(&front[2 * i..2 * i + 2], 16).ok();
        Some(Known {
            said: said.parse().ok()?,
            front: (0..front.len() / 2).map(digit).collect::<Option<Vec<u8>>>()?,
        })
    }
}

/// An answer: its number, and the whole room after the call.
#[derive(Clone, PartialEq)]
pub struct Answer {
    pub said: u64,
    pub room: Vec<u8>,
}

impl Answer {
    /// The one that is known to be right.
    pub fn known(question: Question, known: &Known) -> Answer {
        let mut room = question.filled();
        room[..known.front.len()].copy_from_slice(&known.front);
        Answer { said: known.said, room }
    }

    pub fn refusal(&self) -> u64 {
        self.said >> 48
    }

    /// The refusal's place, or the answer.
    pub fn low(&self) -> u64 {
        self.said & ((1 << 48) - 1)
    }

    /// The room as signed numbers.
    pub fn numbers(&self) -> Vec<i64> {
        self.room.chunks_exact(2).map(|two| i16::from_le_bytes([two[0], two[1]]).into()).collect()
    }

    pub fn in_words(&self, question: Question) -> String {
        match question {
            Question::Read if self.said == 0 => "accepted".to_string(),
            Question::Name(_) | Question::Digits(_) if self.said != 0 => {
                format!("{} bytes at {}", self.said % 65_536, self.said / 65_536)
            }
            Question::Name(_) | Question::Block(_) | Question::Digits(_) => format!("{} bytes", self.said),
            _ if self.refusal() != 0 => format!("refused {} at {}", self.refusal(), self.low()),
            Question::Check(_) if self.low() == 0 => "holds".to_string(),
            Question::Check(_) if self.low() == 1 => "fails".to_string(),
            Question::Tally => format!("held {}, failed {}", self.low() >> 24, self.low() % (1 << 24)),
            _ if question.room().is_some() => format!("{} bytes", self.low()),
            Question::Reply if self.low() == 0 => "unsat claimed".to_string(),
            Question::Reply if self.low() == 1 => "fails".to_string(),
            _ => format!("{}", self.low()),
        }
    }
}
