// Questions that put a sheet and a reply to the library: what the reply comes to, and the digits of every variable.

use crate::layout::VARIABLE_COUNT;
use crate::limits::{HIGH, LOW, MOST_VARIABLES};
use crate::question::{Known, Question};
use crate::random::Random;
use crate::reply_text::{self, Span};
use crate::trial::{Accepted, Asked, Expected, Open, Refused};

/// What is known beforehand of a reply.
pub enum Replied {
    Unsat,
    /// With the digits of each variable.
    Fails(Vec<Span>),
    Refuses(u64, usize),
    /// The oracle alone decides.
    Unknown,
}

impl Replied {
    fn said(&self) -> Option<Known> {
        match *self {
            Replied::Unsat => Some(Known::said(0)),
            Replied::Fails(_) => Some(Known::said(1)),
            Replied::Refuses(number, place) => Some(Known::refused(number, place)),
            Replied::Unknown => None,
        }
    }

    fn digits(&self, variable: usize) -> Option<Known> {
        match self {
            Replied::Fails(spans) => {
                let span =
                    spans.get(variable).map_or(0, |&(from, count)| from as u64 * 65_536 + count as u64);
                Some(Known::said(span))
            }
            Replied::Unknown => None,
            _ => Some(Known::said(0)),
        }
    }
}

/// The reply, then the digits of variables, of some that there aren't, and of the last that can be named: of all the
/// variables where the digits are known, and otherwise of the first, the middle and the last, since each takes time.
pub fn all(variables: usize, replied: &Replied) -> Vec<Asked> {
    let count = variables as u16;
    let mut named: Vec<u16> = match replied {
        Replied::Fails(_) => (0..=count + 1).collect(),
        _ => vec![0, count / 2, count.saturating_sub(1), count],
    };
    named.dedup();
    named.push(u16::MAX);
    let digits =
        named.into_iter().map(|variable| (Question::Digits(variable), replied.digits(variable.into())));
    [(Question::Reply, replied.said())].into_iter().chain(digits).collect()
}

/// A reply to any sheet, good or not, and the questions about both.
pub fn any(random: &mut Random, sheet: &[u8], expected: Expected) -> (Vec<u8>, Vec<Asked>) {
    let variables = usize::from(sheet.get(VARIABLE_COUNT).copied().unwrap_or(0)).min(MOST_VARIABLES);
    let replied = match expected {
        Refused(number, place) => Replied::Refuses(number, place),
        Accepted => Replied::Unsat,
        Open => Replied::Unknown,
    };
    let reply = match random.below(8) {
        _ if expected == Accepted => b"unsat".to_vec(),
        0 => Vec::new(),
        1 => b"unsat\n".to_vec(),
        2 => b"unknown\n".to_vec(),
        3 => {
            let length = random.below(40);
            random.bytes(length)
        }
        _ => {
            let case: Vec<i64> = (0..variables).map(|_| random.between(LOW, HIGH)).collect();
            reply_text::any(random, &case).bytes
        }
    };
    (reply, all(variables.min(2), &replied))
}
