// Times reply and digits on ever longer replies, in ns per byte, to show that the time is linear in the length. Of
// several calls the quickest counts, since the machine may be busy with other work. With the word 'once', the
// shortest replies are all: that shows that it works, and measures nothing.

#[path = "../tests/layout.rs"]
mod layout;
#[path = "../tests/limits.rs"]
mod limits;
mod tables;

use layout::*;
use std::time::{Duration, Instant};

extern "C" {
    fn ragwashin_reply(sheet: *const u8, sheet_len: usize, reply: *const u8, reply_len: usize) -> u64;
    fn ragwashin_digits(
        sheet: *const u8,
        sheet_len: usize,
        reply: *const u8,
        reply_len: usize,
        variable: u16,
    ) -> u64;
}

const LENGTHS: [usize; 4] = [10_000, 100_000, 1_000_000, 10_000_000];
/// All calls on a reply take about so long.
const SHARE: Duration = Duration::from_millis(300);
const UNSAT: u64 = 0;
const FAILS: u64 = 1;

/// A sort of reply: its name, how one of a length is made, and what it comes to.
type Sort = (&'static str, fn(usize) -> Vec<u8>, fn(usize) -> u64);

const SORTS: [Sort; 5] = [
    ("blanks before the words", |length| spread(length, |gap| gap == 0), |_| FAILS),
    ("blanks between all words", |length| spread(length, |_| true), |_| FAILS),
    ("blanks, then a byte too many", |length| spoiled(length), |length| 11 << 48 | (length as u64 - 1)),
    ("blanks before unsat", |length| [vec![b' '; length - 5], b"unsat".to_vec()].concat(), |_| UNSAT),
    ("a rest behind unsat", |length| [b"unsat ".to_vec(), vec![b'('; length - 6]].concat(), |_| UNSAT),
];

/// Sheet A of document 01: it fails where its two variables differ.
fn sheet() -> Vec<u8> {
    let variables = [variable_record(0, 1, b"seated"), variable_record(0, 1, b"trained")];
    let nodes = [node_record(17, &[0], 0), node_record(17, &[1], 0), node_record(8, &[0, 1], 0)];
    lay_out(&variables, &nodes)
}

/// A reply of this length that gives a failing case, the blanks shared out among these gaps.
fn spread(length: usize, has_blanks: fn(usize) -> bool) -> Vec<u8> {
    let words = ["", "sat", "(", "(", "v0 #x0000", ")", "(", "v1", "#b0000000000000001", ")", ")"];
    let least: usize = words.iter().map(|word| word.len()).sum::<usize>() + 1;
    let gaps: Vec<usize> = (0..words.len()).filter(|&gap| has_blanks(gap)).collect();
    let mut reply = Vec::with_capacity(length);
    for (gap, word) in words.iter().enumerate() {
        reply.extend(word.bytes());
        if *word == "v1" {
            reply.push(b' ');
        }
        if has_blanks(gap) {
            let share = (length - least) / gaps.len();
            let more = if gap == gaps[0] { (length - least) % gaps.len() } else { 0 };
            reply.resize(reply.len() + share + more, b' ');
        }
    }
    reply
}

fn spoiled(length: usize) -> Vec<u8> {
    let mut reply = spread(length - 1, |_| true);
    reply.push(b')');
    reply
}

fn main() {
    let once = std::env::args().nth(1).as_deref() == Some("once");
    let lengths = if once { &LENGTHS[..1] } else { &LENGTHS[..] };
    println!("a reply, ns per byte");
    let heads: Vec<String> = lengths.iter().map(|&length| tables::count(length)).collect();
    tables::head(&[vec!["bytes"], heads.iter().map(String::as_str).collect()].concat());
    let sheet = sheet();
    for (name, make, said) in SORTS {
        let each = lengths.iter().map(|&length| {
            let reply = make(length);
            assert_eq!(reply.len(), length, "a reply of this length");
            per_byte(once, length, &|| assert_eq!(judged(&sheet, &reply), said(length), "{}", name))
        });
        tell(name, each);
    }
    let digits = lengths.iter().map(|&length| {
        let reply = spread(length, |_| true);
        per_byte(once, length, &|| assert_eq!(digits(&sheet, &reply) % 65_536, 16, "sixteen digits"))
    });
    tell("digits, blanks between all words", digits);
}

fn tell(name: &str, each: impl Iterator<Item = f64>) {
    let figures = each.map(|time| tables::figure(time, 2)).collect();
    tables::row(&[vec![name.to_string()], figures].concat());
}

fn judged(sheet: &[u8], reply: &[u8]) -> u64 {
    unsafe { ragwashin_reply(sheet.as_ptr(), sheet.len(), reply.as_ptr(), reply.len()) }
}

/// Of the last variable.
fn digits(sheet: &[u8], reply: &[u8]) -> u64 {
    unsafe { ragwashin_digits(sheet.as_ptr(), sheet.len(), reply.as_ptr(), reply.len(), 1) }
}

/// The quickest of as many calls as take their share of time, but three at least.
fn per_byte(once: bool, length: usize, call: &dyn Fn()) -> f64 {
    let began = Instant::now();
    let mut quickest = Duration::MAX;
    for count in 0.. {
        let from = Instant::now();
        call();
        quickest = quickest.min(from.elapsed());
        if once || count > 1 && began.elapsed() > SHARE {
            break;
        }
    }
    quickest.as_nanos() as f64 / length as f64
}
