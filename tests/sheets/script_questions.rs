// Questions that put a sheet to the script's writer, with rooms of every length about the script's own.

use crate::case_questions::room;
use crate::limits::ENOUGH_ROOM;
use crate::question::{Known, Question, Room};
use crate::random::Random;
use crate::trees::*;
use crate::trial::{reading, Asked, Expected, Refused};

/// The bytes that document 01 gives as enough: they are for at most 248 nodes.
pub const ROOM_OF_01: usize = 4_096;

/// Which of the two scripts a sheet has is asked for: one for a verdict, or one for the variables' values too.
#[derive(Clone, Copy, PartialEq)]
pub enum Form {
    Plain,
    Asking,
}

impl Form {
    /// The call's name.
    pub fn call(self) -> &'static str {
        match self {
            Form::Plain => "script",
            Form::Asking => "ask",
        }
    }

    pub fn question(self, room: Room) -> Question {
        match self {
            Form::Plain => Question::Script(room),
            Form::Asking => Question::Ask(room),
        }
    }

    /// The bytes that the form has more than the plain one, with symbols of so many bytes.
    fn more(self, variables: usize, symbols: usize) -> usize {
        match (self, variables) {
            (Form::Plain, _) => 0,
            (Form::Asking, 0) => "(set-option :produce-models true)\n".len(),
            // Between the symbols stands a blank.
            (Form::Asking, _) => {
                "(set-option :produce-models true)\n(get-value ())\n".len() + symbols + variables - 1
            }
        }
    }
}

/// The bytes of the script with this goal and so many variables.
pub fn script_length(form: Form, goal: &Tree, variables: usize) -> usize {
    let symbols: usize = (0..variables).map(symbol).sum();
    let declarations = "(declare-fun  () (_ BitVec 16))\n".len() * variables + symbols;
    let ranges = "(assert (and (bvsle #x0000 ) (bvsle  #x0000)))\n".len() * variables + 2 * symbols;
    let others = "(set-logic QF_UFBV)\n(assert (not ))\n(check-sat)\n(exit)\n".len();
    declarations + ranges + others + text_length(goal) + form.more(variables, symbols)
}

fn symbol(variable: usize) -> usize {
    if variable < 10 {
        2
    } else {
        3
    }
}

fn text_length(tree: &Tree) -> usize {
    let own = match tree.kind {
        1 => "true",
        2 => "false",
        3 => "(not )",
        4 => "(and  )",
        5 => "(or  )",
        6 => "(=>  )",
        7 | 8 => "(=  )",
        CONSTANT => "#x0000",
        VARIABLE => return symbol(tree.leaf.into()),
        MINUS => "(bvneg )",
        CHOICE => "(ite   )",
        _ => "(bvxxx  )",
    };
    own.len() + tree.operands.iter().map(text_length).sum::<usize>()
}

/// Lengths other than one byte too little and just enough: none, less, one byte more, enough for all, and document 01's
/// where that is too little.
fn other_lengths(random: &mut Random, length: usize) -> Vec<usize> {
    let mut lengths = vec![0, random.below(length), length + 1, ENOUGH_ROOM];
    if length > ROOM_OF_01 {
        lengths.push(ROOM_OF_01);
    }
    lengths
}

/// The reading, and the script with every length of room.
pub fn every_room(random: &mut Random, form: Form, length: usize) -> Vec<Asked> {
    let others = other_lengths(random, length);
    in_rooms(random, form, length, &others)
}

/// The reading, and the script with one byte too little, just enough, and one other length, since each takes time.
pub fn some_rooms(random: &mut Random, form: Form, length: usize) -> Vec<Asked> {
    let others = other_lengths(random, length);
    let other = random.pick(&others);
    in_rooms(random, form, length, &[other])
}

fn in_rooms(random: &mut Random, form: Form, length: usize, others: &[usize]) -> Vec<Asked> {
    let known = |room: usize| (room < length).then(|| Known::refused(9, length));
    let lengths = [length - 1, length].into_iter().chain(others.iter().copied());
    let scripts = lengths.map(|bytes| (form.question(room(random, bytes)), known(bytes)));
    [(Question::Read, Some(Known::said(0)))].into_iter().chain(scripts).collect()
}

/// Questions about any sheet: of a refused one all answers are known, whatever room is lent.
pub fn any(random: &mut Random, form: Form, expected: Expected) -> Vec<Asked> {
    let known = match expected {
        Refused(number, place) => Some(Known::refused(number, place)),
        _ => None,
    };
    let any_length = random.below(600);
    let length = random.pick(&[0, 1, any_length, any_length]);
    let long = random.one_in(10);
    vec![
        (Question::Read, reading(expected).map(Known::said)),
        (form.question(room(random, length)), known.clone()),
        // Not often, since a long room takes long to compare.
        (form.question(room(random, if long { ENOUGH_ROOM } else { 200 })), known),
    ]
}
