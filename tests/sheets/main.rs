// The tests' sheets: makes the trials of each group, judges the answers to them, and sees that every
// class of sheet and every kind of answer was met. It shares no code with the oracle.
//
//   sheets groups PART                            the groups of a part of the interface, one to a line
//   sheets make GROUP SEED TRIALS NOTES           writes the group's trials and what is known of them
//   sheets judge TRIALS NOTES WANTED GOT [MET]    compares; what was met is added to MET
//   sheets alter WHAT TRIALS GOT ALTERED SEED     changes one bit of an answer or a room, and says which
//   sheets met MET PART..                         fails if something that these parts require was never met
//   sheets scripts TRIALS GOT FOLDER              writes the script of each trial to a file of its own
//   sheets inputs SEED FOLDER                     writes inputs for the program, each to a file of its own
//   sheets deepest FOLDER                         writes the sheets that take the most stack, the same way

mod accepted;
mod alter;
mod ask_edges;
mod asked;
mod at_once;
mod bulk;
mod case_edges;
mod case_limits;
mod case_questions;
mod case_required;
mod deepest;
mod edges;
mod failing;
mod few_cases;
mod grower;
mod inputs;
mod judge;
#[path = "../layout.rs"]
mod layout;
#[path = "../limits.rs"]
mod limits;
mod met;
mod nodes;
mod places;
mod plain;
mod printing;
mod question;
mod random;
mod ranges;
mod replies;
mod reply_damage;
mod reply_edges;
mod reply_met;
mod reply_questions;
mod reply_random;
mod reply_required;
mod reply_rewrites;
mod reply_subjects;
mod reply_text;
mod required;
mod script_edges;
mod script_questions;
mod script_required;
mod scripts;
mod shape_sheets;
mod shapes;
mod solver_sheets;
mod text_damage;
mod text_edges;
mod text_long;
mod text_met;
mod text_questions;
mod text_required;
mod texts;
mod trees;
mod trial;
mod variables;
mod whole_sheet;

use alter::What;
use met::{LONGEST, LONGEST_ASKING};
use question::Question;
use random::Random;
use std::collections::BTreeSet;
use std::fs::{self, File, OpenOptions};
use std::io::{self, Write};
use std::process::exit;
use trial::{Output, Part, PARTS};

type Make = fn(&mut Random, &mut Output);

/// The groups of each part; the first one of a part is small.
const GROUPS: [(Part, &str, Make); 68] = [
    (Part::Reading, "edge-cases", edges::make),
    (Part::Reading, "accepted", accepted::make),
    (Part::Reading, "every-shape", shape_sheets::make),
    (Part::Reading, "refusal-1", whole_sheet::refusal_1),
    (Part::Reading, "refusal-2", whole_sheet::refusal_2),
    (Part::Reading, "refusal-3", whole_sheet::refusal_3),
    (Part::Reading, "refusal-4", whole_sheet::refusal_4),
    (Part::Reading, "refusal-5", variables::make),
    (Part::Reading, "refusal-6", nodes::refusal_6),
    (Part::Reading, "refusal-7", nodes::refusal_7),
    (Part::Reading, "refusal-8", ranges::make),
    (Part::Reading, "refusal-places", places::make),
    (Part::Reading, "faults-at-once", at_once::make),
    (Part::Reading, "every-length", bulk::lengths),
    (Part::Reading, "one-byte-changed", bulk::changed_bytes),
    (Part::Reading, "at-random", bulk::at_random),
    (Part::Reading, "every-name", asked::names),
    (Part::Reading, "every-block", asked::blocks),
    (Part::Cases, "cases-edge-cases", case_edges::make),
    (Part::Cases, "cases-few", few_cases::make),
    (Part::Cases, "cases-failing", failing::make),
    (Part::Cases, "cases-shapes", shape_sheets::make),
    (Part::Cases, "cases-limits", case_limits::make),
    (Part::Cases, "cases-refused-sheets", refused_sheets),
    (Part::Script, "script-edge-cases", script_edges::make),
    (Part::Script, "script-any", scripts::any),
    (Part::Script, "script-kinds", scripts::kinds),
    (Part::Script, "script-numbers", scripts::numbers),
    (Part::Script, "script-long", scripts::long),
    (Part::Script, "script-shapes", shape_sheets::make),
    (Part::Script, "script-many-cases", scripts::many_cases),
    (Part::Script, "script-solvers", solver_sheets::make),
    (Part::Script, "script-refused-sheets", refused_sheets),
    (Part::Ask, "ask-edge-cases", ask_edges::make),
    (Part::Ask, "ask-any", scripts::any),
    (Part::Ask, "ask-kinds", scripts::kinds),
    (Part::Ask, "ask-long", scripts::long),
    (Part::Ask, "ask-shapes", shape_sheets::make),
    (Part::Ask, "ask-many-cases", scripts::many_cases),
    (Part::Ask, "ask-solvers", solver_sheets::make),
    (Part::Ask, "ask-refused-sheets", refused_sheets),
    (Part::Replies, "replies-edge-cases", reply_edges::make),
    (Part::Replies, "replies-spelled", replies::spelled),
    (Part::Replies, "replies-damaged", reply_damage::damaged),
    (Part::Replies, "replies-every-byte", reply_damage::every_byte),
    (Part::Replies, "replies-long", replies::long),
    (Part::Replies, "replies-unsat", replies::unsat),
    (Part::Replies, "replies-rewritten", reply_rewrites::make),
    (Part::Replies, "replies-others", replies::others),
    (Part::Replies, "replies-shapes", shape_sheets::make),
    (Part::Replies, "replies-at-random", reply_random::make),
    (Part::Replies, "replies-refused-sheets", refused_sheets),
    (Part::Make, "make-edge-cases", text_edges::make),
    (Part::Make, "make-printed", texts::printed_forms),
    (Part::Make, "make-refused", texts::refused_rules),
    (Part::Make, "make-numbers", texts::numbers),
    (Part::Make, "make-names", texts::names),
    (Part::Make, "make-damaged", text_damage::damaged),
    (Part::Make, "make-every-byte", text_damage::every_byte),
    (Part::Make, "make-lines", text_damage::lines),
    (Part::Make, "make-at-random", text_damage::at_random),
    (Part::Make, "make-shapes", text_long::shapes),
    (Part::Make, "make-long", text_long::long),
    (Part::Text, "text-edge-cases", text_edges::print),
    (Part::Text, "text-any", printing::any),
    (Part::Text, "text-word-names", printing::word_names),
    (Part::Text, "text-shapes", shape_sheets::make),
    (Part::Text, "text-refused-sheets", some_refused_sheets),
];

/// Sheets refused with 1 to 8, put to the calls of another part.
fn refused_sheets(random: &mut Random, out: &mut Output) {
    let makes: [Make; 10] = [
        whole_sheet::refusal_1,
        whole_sheet::refusal_2,
        whole_sheet::refusal_3,
        whole_sheet::refusal_4,
        variables::make,
        nodes::refusal_6,
        nodes::refusal_7,
        ranges::make,
        places::make,
        at_once::make,
    ];
    makes.iter().for_each(|make| make(random, out));
}

/// Some of them, each number among them, for a call that begins with the same reading.
fn some_refused_sheets(random: &mut Random, out: &mut Output) {
    out.thin(6);
    let makes: [Make; 6] = [
        whole_sheet::refusal_1,
        whole_sheet::refusal_3,
        variables::make,
        nodes::refusal_6,
        nodes::refusal_7,
        at_once::make,
    ];
    makes.iter().for_each(|make| make(random, out));
}

fn main() -> io::Result<()> {
    let words: Vec<String> = std::env::args().skip(1).collect();
    let words: Vec<&str> = words.iter().map(String::as_str).collect();
    match words[..] {
        ["groups", part] => groups(named_part(part)),
        ["make", group, seed, trials, notes] => {
            make(group, number(seed), File::create(trials)?, File::create(notes)?)
        }
        ["judge", trials, notes, wanted, got] => judge([trials, notes, wanted, got], None)?,
        ["judge", trials, notes, wanted, got, met] => judge([trials, notes, wanted, got], Some(met))?,
        ["alter", "answer", trials, got, altered, seed] => alter(What::Answer, [trials, got, altered], seed)?,
        ["alter", "room", trials, got, altered, seed] => alter(What::Room, [trials, got, altered], seed)?,
        ["met", met, ref parts @ ..] => all_met(&fs::read_to_string(met)?, parts),
        ["scripts", trials, got, folder] => scripts_to(&fs::read(trials)?, &fs::read(got)?, folder)?,
        ["deepest", folder] => deepest::write(folder)?,
        ["inputs", seed, folder] => inputs::write(number(seed), folder)?,
        _ => fail("usage: sheets groups | make | judge | alter | met; see the top of main.rs"),
    }
    Ok(())
}

fn fail(message: &str) -> ! {
    eprintln!("{}", message);
    exit(1)
}

fn number(word: &str) -> u64 {
    word.parse().unwrap_or_else(|_| fail(&format!("'{}' is no seed", word)))
}

fn named_part(word: &str) -> Part {
    let found = PARTS.iter().find(|(name, _)| *name == word);
    found.unwrap_or_else(|| fail(&format!("there is no part '{}'", word))).1
}

fn groups(part: Part) {
    GROUPS.iter().filter(|group| group.0 == part).for_each(|group| println!("{}", group.1));
}

fn make(group: &str, seed: u64, trials: File, notes: File) {
    let found = GROUPS.iter().find(|(_, name, _)| *name == group);
    let (part, _, make) = found.unwrap_or_else(|| fail(&format!("there is no group '{}'", group)));
    let mut out = Output::new(*part, trials, notes);
    make(&mut Random::new(seed, group), &mut out);
    out.finish();
}

/// Says how many sheets and answers there were; fails at any difference.
fn judge([trials, notes, wanted, got]: [&str; 4], met: Option<&str>) -> io::Result<()> {
    let verdict =
        judge::judge(&fs::read(trials)?, &fs::read_to_string(notes)?, &fs::read(wanted)?, &fs::read(got)?);
    if let Some(met) = met {
        let mut met = OpenOptions::new().create(true).append(true).open(met)?;
        verdict.met.iter().try_for_each(|(what, count)| writeln!(met, "{}\t{}", what, count))?;
    }
    if verdict.differences > 0 {
        verdict.told.iter().for_each(|difference| println!("{}", difference));
        println!("{} differences in {} answers", verdict.differences, verdict.answers);
        exit(1);
    }
    if verdict.sheets == 0 {
        fail("there were no sheets");
    }
    println!("{} {}", verdict.sheets, verdict.answers);
    Ok(())
}

fn alter(what: What, [trials, got, altered]: [&str; 3], seed: &str) -> io::Result<()> {
    let mut answers = fs::read(got)?;
    let mut random = Random::new(number(seed), "alter");
    println!("answer {}", alter::alter(&fs::read(trials)?, &mut answers, what, &mut random));
    fs::write(altered, answers)
}

/// What was met must be exactly what is required: a label that the list does not know is a fault too.
fn all_met(met: &str, parts: &[&str]) {
    let parts: Vec<Part> = parts.iter().map(|part| named_part(part)).collect();
    let required = required::of(&parts);
    let longest = [LONGEST, LONGEST_ASKING].map(|label| (label, longest_script(met, label)));
    let met: BTreeSet<String> =
        met.lines().filter_map(|line| line.split('\t').next()).map(str::to_string).collect();
    tell_first("never met", required.difference(&met));
    tell_first("not in the list of what must be met", met.difference(&required));
    if met != required {
        exit(1);
    }
    println!("{} classes of sheet and kinds of answer, all met", required.len());
    for (label, length) in longest.iter().filter_map(|(label, length)| Some((label, (*length)?))) {
        println!("{}: {}", label, length);
    }
}

/// The length of the longest script under this label, if scripts were met.
fn longest_script(met: &str, label: &str) -> Option<u64> {
    met.lines().filter_map(|line| line.strip_prefix(label)?.trim().parse().ok()).max()
}

/// Writes the script of each trial that has one, under the trial's number.
fn scripts_to(mut trials: &[u8], mut got: &[u8], folder: &str) -> io::Result<()> {
    let mut number = 0;
    while !trials.is_empty() {
        for question in judge::next_trial(&mut trials).questions {
            match (question, judge::next_answer(&mut got, question)) {
                (Question::Script(_) | Question::Ask(_), Some(answer)) if answer.refusal() == 0 => {
                    fs::write(format!("{}/{}.smt2", folder, number), &answer.room[..answer.low() as usize])?;
                }
                _ => {}
            }
        }
        number += 1;
    }
    Ok(())
}

/// Tells the first few, and how many there are.
fn tell_first<'w>(fault: &str, what: impl Iterator<Item = &'w String>) {
    let what: Vec<&String> = what.collect();
    what.iter().take(10).for_each(|what| println!("{}: {}", fault, what));
    if what.len() > 10 {
        println!("{}: {} in all", fault, what.len());
    }
}
