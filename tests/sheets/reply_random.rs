// Replies at random: several changes to a good one, a good beginning with words at random behind it, and any bytes.

use crate::limits::MOST_VARIABLES;
use crate::random::Random;
use crate::reply_questions::{all, Replied};
use crate::reply_subjects::Subject;
use crate::reply_text::{any, joined, words, Word, BLANKS, DIGITS};
use crate::trial::Output;

pub fn make(random: &mut Random, out: &mut Output) {
    for _ in 0..150 {
        for variables in 0..=MOST_VARIABLES {
            let subject = Subject::fails_once(random, variables);
            for (label, reply) in [
                ("any: reply, several changes", several_changes(random, &subject)),
                ("any: reply, words at random", words_at_random(random, &subject)),
                ("any: reply, bytes at random", bytes_at_random(random)),
            ] {
                out.ask_about(label, &subject.sheet, &reply, &all(variables, &Replied::Unknown));
            }
        }
    }
}

/// Bytes that replies are made of, most of them.
const LIKELY: &[u8] = b"sat unsat (v0 #x0123) (v1 #b0101) \t\r\n09afAF;\0\xff";

fn several_changes(random: &mut Random, subject: &Subject) -> Vec<u8> {
    let mut reply = any(random, &subject.case).bytes;
    for _ in 0..2 + random.below(3) {
        let (from, to) = (random.below(reply.len() + 1), random.below(reply.len() + 1));
        let (from, to) = (from.min(to), from.max(to).min(from.min(to) + 8));
        let part = reply[from..to].to_vec();
        match random.below(4) {
            0 => drop(reply.splice(from..to, [])),
            1 => drop(reply.splice(from..from, [random.pick(LIKELY)])),
            2 if from < reply.len() => reply[from] = random.pick(LIKELY),
            _ => {
                let elsewhere = random.below(reply.len() + 1);
                drop(reply.splice(elsewhere..elsewhere, part));
            }
        }
    }
    reply
}

fn words_at_random(random: &mut Random, subject: &Subject) -> Vec<u8> {
    let digits = random.pick(&DIGITS).1;
    let mut words = words(random, digits, &subject.case);
    words.truncate(random.below(words.len() + 1));
    for _ in 0..1 + random.below(5) {
        words.push(word(random));
    }
    let blanks = random.pick(&BLANKS).1;
    joined(random, blanks, &words).bytes
}

fn word(random: &mut Random) -> Word {
    let number = random.below(MOST_VARIABLES + 2);
    match random.below(10) {
        0 => b"sat".to_vec(),
        1 => b"unsat".to_vec(),
        2 | 3 => b"(".to_vec(),
        4 | 5 => b")".to_vec(),
        6 => format!("v{}", number).into(),
        7 => format!("#x{:04x}", number).into(),
        8 => format!("#b{:016b}", number).into(),
        _ => (0..1 + random.below(5)).map(|_| random.pick(LIKELY)).collect(),
    }
}

fn bytes_at_random(random: &mut Random) -> Vec<u8> {
    let length = random.below(30);
    if random.one_in(3) {
        return random.bytes(length);
    }
    (0..length).map(|_| random.pick(LIKELY)).collect()
}
