// Replies in every spelling and of every length, with cases that fail and others, put to sheets of all numbers of
// variables.

use crate::case_limits;
use crate::few_cases::{domains, telling};
use crate::grower::{any_size, Grower};
use crate::limits::{HIGH, LOW, MOST_VARIABLES};
use crate::random::Random;
use crate::reply_questions::{all, Replied};
use crate::reply_subjects::Subject;
use crate::reply_text::{self, any, joined, some_blanks, with_gaps, words, Digits, BLANKS, DIGITS};
use crate::shapes::DEEP;
use crate::trees::*;
use crate::trial::Output;

/// Puts a reply to a sheet, and asks about all variables.
pub fn put(out: &mut Output, label: &str, subject: &Subject, reply: &[u8], replied: Replied) {
    out.ask_about(label, &subject.sheet, reply, &all(subject.domains.len(), &replied));
}

// ---- spellings

/// Every spelling with every sort of blank, of a case that fails, one that holds and one outside the domains.
pub fn spelled(random: &mut Random, out: &mut Output) {
    for _ in 0..2 {
        for variables in 0..=MOST_VARIABLES {
            for (digits_word, digits) in DIGITS {
                for (blanks_word, blanks) in BLANKS {
                    let label = format!("reply, {}, {}", digits_word, blanks_word);
                    spelled_so(random, out, &label, variables, |random, case| {
                        let words = words(random, digits, case);
                        joined(random, blanks, &words)
                    });
                }
            }
        }
    }
}

fn spelled_so(
    random: &mut Random,
    out: &mut Output,
    label: &str,
    variables: usize,
    spell: impl Fn(&mut Random, &[i64]) -> reply_text::Text,
) {
    let (once, all_but_once) =
        (Subject::fails_once(random, variables), Subject::holds_once(random, variables));
    let text = spell(random, &once.case);
    put(out, &format!("accepted: {}", label), &once, &text.bytes, Replied::Fails(text.digits));
    let text = spell(random, &all_but_once.case);
    put(out, &format!("13: {}", label), &all_but_once, &text.bytes, Replied::Refuses(13, 0));
    if let Some(case) = all_but_once.other_case(random) {
        let text = spell(random, &case);
        put(out, &format!("accepted: {}", label), &all_but_once, &text.bytes, Replied::Fails(text.digits));
    }
    if variables > 0 {
        let variable = random.below(variables);
        if let Some(case) = once.leaving(random, variable) {
            let text = spell(random, &case);
            put(out, &format!("12: {}", label), &once, &text.bytes, Replied::Refuses(12, variable));
        }
    }
}

// ---- length

/// Blanks by the 100,000 in each gap between words, and other bytes as many.
pub fn long(random: &mut Random, out: &mut Output) {
    for variables in [0, 1, 2] {
        let subject = Subject::fails_once(random, variables);
        let words = words(random, Digits::Either, &subject.case);
        for gap in 0..=words.len() {
            let about_16_bits = 65_500 + random.below(60);
            for count in [1_000, about_16_bits, 100_000] {
                let mut gaps: Vec<Vec<u8>> = vec![b" ".to_vec(); words.len() + 1];
                gaps[gap] = some_blanks(random, count);
                let text = with_gaps(&words, &gaps);
                long_one(out, &subject, text);
            }
        }
    }
    longest(random, out);
    long_unsat(random, out);
}

fn long_one(out: &mut Output, subject: &Subject, text: reply_text::Text) {
    let mut spoiled = text.bytes.clone();
    put(out, "accepted: reply, many blanks", subject, &text.bytes, Replied::Fails(text.digits));
    spoiled.push(b')');
    let last = spoiled.len() - 1;
    put(out, "11: reply, a parenthesis behind many blanks", subject, &spoiled, Replied::Refuses(11, last));
}

/// A million blanks, and nothing but blanks or parentheses.
fn longest(random: &mut Random, out: &mut Output) {
    let subject = Subject::fails_once(random, 2);
    let words = words(random, Digits::Either, &subject.case);
    let mut gaps: Vec<Vec<u8>> = vec![some_blanks(random, 10); words.len() + 1];
    gaps[3] = some_blanks(random, 1_000_000);
    long_one(out, &subject, with_gaps(&words, &gaps));
    let blanks = some_blanks(random, 100_000);
    put(out, "11: reply, nothing but blanks", &subject, &blanks, Replied::Refuses(11, 100_000));
    let reply = [&b"sat"[..], &[b'('; 100_000]].concat();
    put(out, "11: reply, many parentheses", &subject, &reply, Replied::Refuses(11, 5));
    let reply = [&b"sat((v0 #b"[..], &[b'0'; 100_000]].concat();
    put(out, "11: reply, many digits", &subject, &reply, Replied::Refuses(11, 26));
    let reply = [&b"sat((v"[..], &[b'0'; 100_000]].concat();
    put(out, "11: reply, a long number", &subject, &reply, Replied::Refuses(11, 7));
}

fn long_unsat(random: &mut Random, out: &mut Output) {
    for variables in [0, 1, MOST_VARIABLES] {
        let subject = Subject::fails_once(random, variables);
        let (before, rest) = (some_blanks(random, 100_000), random.bytes(100_000));
        let reply = [&before[..], b"unsat\n", &rest].concat();
        put(out, "accepted: reply, unsat and many bytes behind it", &subject, &reply, Replied::Unsat);
        let reply = [&before[..], b"unsat;\n", &rest].concat();
        put(out, "11: reply, unsat between many bytes", &subject, &reply, Replied::Refuses(11, 100_005));
    }
}

// ---- unsat

/// 'unsat' with each byte behind it, and as much of it as is there.
pub fn unsat(random: &mut Random, out: &mut Output) {
    for variables in 0..=MOST_VARIABLES {
        let subject = Subject::fails_once(random, variables);
        for byte in 0..=255 {
            let before = random.below(3);
            let reply = [&some_blanks(random, before)[..], b"unsat", &[byte]].concat();
            if b"\t\n\r ".contains(&byte) {
                put(out, "accepted: reply, unsat and a blank", &subject, &reply, Replied::Unsat);
                let more = random.below(60);
                let reply = [&reply[..], &random.bytes(more)].concat();
                put(
                    out,
                    "accepted: reply, unsat and anything behind a blank",
                    &subject,
                    &reply,
                    Replied::Unsat,
                );
                let reply = [&reply[..], &any(random, &subject.case).bytes].concat();
                put(out, "accepted: reply, unsat and a case", &subject, &reply, Replied::Unsat);
            } else {
                let replied = Replied::Refuses(11, before + 5);
                put(out, "11: reply, unsat and another byte", &subject, &reply, replied);
            }
        }
        for length in 0..5 {
            let reply = &b"unsat"[..length];
            put(out, "11: reply, a part of unsat", &subject, reply, Replied::Refuses(11, length));
        }
        put(out, "accepted: reply, unsat", &subject, b"unsat", Replied::Unsat);
    }
}

// ---- other sheets

/// Replies to other sheets, rules of which nothing is known, and sheets with too many cases to check.
pub fn others(random: &mut Random, out: &mut Output) {
    for _ in 0..8 {
        for variables in 0..=MOST_VARIABLES {
            to_another(random, out, variables);
            any_rule(random, out, variables);
        }
    }
    for _ in 0..100 {
        many_cases(random, out);
    }
    for _ in 0..4 {
        for nodes in DEEP {
            deep_rule(random, out, nodes);
        }
    }
}

fn to_another(random: &mut Random, out: &mut Output, variables: usize) {
    let subject = Subject::fails_once(random, variables);
    let other = random.below(MOST_VARIABLES + 1);
    let case: Vec<i64> = (0..other).map(|_| random.between(LOW, HIGH)).collect();
    let text = any(random, &case);
    match other {
        _ if other < variables => {
            put(out, "11: reply, with too few variables", &subject, &text.bytes, Replied::Unknown)
        }
        _ if other > variables => {
            put(out, "11: reply, with too many variables", &subject, &text.bytes, Replied::Unknown)
        }
        _ => put(out, "any: reply, of another sheet", &subject, &text.bytes, Replied::Unknown),
    }
    let same = Subject::holds_once(random, variables);
    let text = any(random, &same.case);
    put(out, "any: reply, of another sheet", &subject, &text.bytes, Replied::Unknown);
}

fn any_rule(random: &mut Random, out: &mut Output, variables: usize) {
    let domains = domains(random, variables, 400);
    let mut grower = Grower::with_domains(random, &domains);
    let size = any_size(grower.random);
    let goal = telling(&mut grower, size);
    let sheet = grower.sheet(&Table::of(&goal));
    for _ in 0..6 {
        let case: Vec<i64> = domains.iter().map(|domain| random.between(domain.0, domain.1)).collect();
        let reply = any(random, &case).bytes;
        out.ask_about("any: reply, any rule", &sheet, &reply, &all(variables, &Replied::Unknown));
    }
}

/// The one case, and another, of a rule of exactly so many nodes.
fn deep_rule(random: &mut Random, out: &mut Output, nodes: usize) {
    let variables = random.below(5);
    let (subject, fails_once) = Subject::deep(random, variables, nodes);
    let cases = [(Some(subject.case.clone()), fails_once), (subject.other_case(random), !fails_once)];
    for (case, fails) in cases {
        let Some(case) = case else { continue };
        let text = any(random, &case);
        let (number, replied) = match fails {
            true => ("accepted", Replied::Fails(text.digits)),
            false => ("13", Replied::Refuses(13, 0)),
        };
        put(out, &format!("{}: reply, a deep rule, N = {}", number, nodes), &subject, &text.bytes, replied);
    }
}

/// A case is tried alone, however many there are.
fn many_cases(random: &mut Random, out: &mut Output) {
    let sizes = match random.below(3) {
        0 => case_limits::just_over(random),
        1 => case_limits::wrapped(random),
        _ => case_limits::far_over(random),
    };
    let grower = case_limits::grower(random, &sizes);
    let domains: Vec<Range> = grower.variables.iter().map(|variable| variable.domain).collect();
    let moving = sizes.iter().position(|&size| size > 1).expect("some variable has two values");
    // It fails where this variable has its greatest value.
    let goal = node(9, vec![variable(moving, domains[moving]), constant(domains[moving].1)]);
    let sheet = grower.sheet(&Table::of(&goal));
    let mut case: Vec<i64> = domains.iter().map(|domain| random.between(domain.0, domain.1)).collect();
    case[moving] = domains[moving].1;
    let text = any(random, &case);
    let questions = all(sizes.len(), &Replied::Fails(text.digits));
    out.ask_about("accepted: reply, too many cases to check", &sheet, &text.bytes, &questions);
    case[moving] = domains[moving].0;
    let text = any(random, &case);
    let questions = all(sizes.len(), &Replied::Refuses(13, 0));
    out.ask_about("13: reply, too many cases to check", &sheet, &text.bytes, &questions);
}
