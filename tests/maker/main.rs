// The maker: makes sheets from rules' texts, says what answers they must get, and has solvers judge scripts. It
// shares no code with the library and the oracle, and with the tests' sheets no more than the layout.
//
//   maker sheet RULE SHEET               makes the sheet of a rule's plain text, whether a reader accepts it or not
//   maker answers ORACLE RULE..          the answers that the sheets must get, a line for each call; fails
//                                        where the oracle, asked about the sheets, says another thing
//   maker trials script|ask SHEET..      trials that ask for the script of each sheet, in one form or the other
//   maker solvers ORACLE TRIALS FOLDER   puts the scripts in FOLDER to z3 and cvc5 (see exams.rs)
//   maker replies ORACLE TRIALS FOLDER REPLIES NOTES   has them reply to the scripts in FOLDER, which ask for values,
//                                        and writes their replies as trials (see replies.rs)

mod answers;
mod cases;
mod edits;
mod exams;
#[path = "../layout.rs"]
mod layout;
#[path = "../limits.rs"]
mod limits;
mod oracle;
mod ranges;
mod replies;
mod rule;
mod script;
mod sheet;
mod text;
mod trials;

use exams::{Counts, Examiner, SOLVERS};
use replies::COMMANDS;
use rule::Rule;
use std::fs;
use std::io::{self, Write};
use std::path::Path;
use std::process::exit;

fn main() {
    let words: Vec<String> = std::env::args().skip(1).collect();
    let words: Vec<&str> = words.iter().map(String::as_str).collect();
    let done =
        match words[..] {
            ["sheet", rule, sheet] => made(rule).and_then(|(_, bytes)| write(sheet, &bytes)),
            ["answers", oracle, ref rules @ ..] => tell_answers(oracle, rules),
            ["trials", "script", ref sheets @ ..] => tell_trials(trials::SCRIPT, sheets),
            ["trials", "ask", ref sheets @ ..] => tell_trials(trials::ASK, sheets),
            ["solvers", oracle, trials, folder] => judge(oracle, trials, folder),
            ["replies", oracle, trials, folder, replies, notes] => {
                reply(oracle, trials, folder, [replies, notes])
            }
            _ => Err("usage: maker sheet | answers | trials | solvers | replies; see the top of main.rs"
                .to_string()),
        };
    if let Err(why) = done {
        eprintln!("{}", why);
        exit(1);
    }
}

fn write(file: &str, bytes: &[u8]) -> Result<(), String> {
    fs::write(file, bytes).map_err(|error| format!("{}: {}", file, error))
}

fn read(file: &str) -> Result<Vec<u8>, String> {
    fs::read(file).map_err(|error| format!("{}: {}", file, error))
}

/// A text's rule, and its sheet.
fn made(file: &str) -> Result<(Rule, Vec<u8>), String> {
    let text = fs::read_to_string(file).map_err(|error| format!("{}: {}", file, error))?;
    let rule = text::read(&text).map_err(|why| format!("{}: {}", file, why))?;
    let sheet = sheet::made(&rule);
    Ok((rule, sheet))
}

fn tell_answers(oracle: &str, rules: &[&str]) -> Result<(), String> {
    let mut own = Vec::new();
    let mut sheets = Vec::new();
    for file in rules {
        let (rule, sheet) = made(file)?;
        own.push(answers::of(&rule));
        sheets.push(sheet);
    }
    for ((file, own), said) in rules.iter().zip(&own).zip(oracle::answers(oracle, &sheets)) {
        if *own != said {
            return Err(format!("{}: {:?}, and the oracle says {:?}", file, own.lines(), said.lines()));
        }
        let name = Path::new(file).file_stem().unwrap_or_default().to_string_lossy();
        for (call, line) in answers::CALLS.iter().zip(own.lines()) {
            println!("{} {}: {}", name, call, line);
        }
    }
    Ok(())
}

fn tell_trials(asked: trials::Asked, sheets: &[&str]) -> Result<(), String> {
    for file in sheets {
        let trial = trials::trial(&read(file)?, &[asked]);
        io::stdout().write_all(&trial).map_err(|error| error.to_string())?;
    }
    Ok(())
}

/// What is done with each of both, at once.
fn with_both<T: Copy + Send, R: Send>(
    of: [T; 2],
    work: impl Fn(T) -> Result<R, String> + Sync,
) -> Result<[R; 2], String> {
    let work = &work;
    let [first, second] = std::thread::scope(|scope| {
        let threads = of.map(|one| scope.spawn(move || work(one)));
        threads.map(|thread| thread.join().expect("no solver's thread panics"))
    });
    Ok([first?, second?])
}

/// Each solver goes through all scripts.
fn judge(oracle: &str, trials: &str, folder: &str) -> Result<(), String> {
    let subjects = exams::subjects(oracle, &trials::sheets(&read(trials)?), folder)?;
    let [first, second] = with_both(SOLVERS, |solver| Examiner::new(solver, folder).examine_all(&subjects))?;
    if first != second {
        return Err("the solvers were not asked about the same scripts".to_string());
    }
    let Counts { sat, unsat, few } = first;
    println!("{} {} {}", sat, unsat, few);
    Ok(())
}

/// Each solver replies to all scripts.
fn reply(oracle: &str, trials: &str, folder: &str, [replies, notes]: [&str; 2]) -> Result<(), String> {
    let subjects = exams::subjects(oracle, &trials::sheets(&read(trials)?), folder)?;
    let [first, second] = with_both(COMMANDS, |command| replies::of(command, &subjects))?;
    let all = first.and(second);
    write(replies, &all.trials)?;
    write(notes, all.notes.as_bytes())?;
    println!("{} {}", all.sat, all.unsat);
    Ok(())
}
