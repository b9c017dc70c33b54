// Has solvers reply to the scripts that ask for values, on standard input as the front does. Each must say 'sat' with
// a failing case exactly where there is one, and else 'unsat'. The replies are written as trials, with notes on what
// they must come to (see sheets/trial.rs), so that the oracle and the library can judge them.

use crate::cases;
use crate::exams::Subject;
use crate::script;
use crate::trials::{digits, with_reply, Asked, REPLY};
use std::fs::File;
use std::process::{Command, Stdio};

/// A solver's command line.
pub const COMMANDS: [&[&str]; 2] = [&["z3", "-in"], &["cvc5", "--lang", "smt2", "-"]];

/// Trials, notes, and how many replies said 'sat' and 'unsat'.
#[derive(Default)]
pub struct Replies {
    pub trials: Vec<u8>,
    pub notes: String,
    pub sat: usize,
    pub unsat: usize,
}

/// A solver's replies to the scripts of all subjects.
pub fn of(command: &[&str], subjects: &[Subject]) -> Result<Replies, String> {
    let mut replies = Replies::default();
    for subject in subjects {
        let reply = replied(command, &subject.file).and_then(|reply| judged(subject, reply));
        let reply = reply.map_err(|why| format!("{} on {}: {}", command[0], subject.file, why))?;
        replies.put(command[0], subject, &reply);
    }
    Ok(replies)
}

fn replied(command: &[&str], file: &str) -> Result<Vec<u8>, String> {
    let script = File::open(file).map_err(|error| error.to_string())?;
    let output = Command::new("timeout").arg("120").args(command).stdin(Stdio::from(script)).output();
    output.map(|output| output.stdout).map_err(|error| format!("it can't be run: {}", error))
}

/// The reply, where it is what the rule's cases demand.
fn judged(subject: &Subject, reply: Vec<u8>) -> Result<Vec<u8>, String> {
    let text = String::from_utf8_lossy(&reply);
    match script::replied(&text, subject.rule.variables.len())? {
        None if !subject.fails() => Ok(reply),
        Some(case) if cases::in_domains(&subject.rule, &case) && cases::fails(&subject.rule, &case) => {
            Ok(reply)
        }
        _ => Err(format!("it replies '{}', and some case fails: {}", text, subject.fails())),
    }
}

impl Replies {
    fn put(&mut self, solver: &str, subject: &Subject, reply: &[u8]) {
        let fails = subject.fails();
        let variables = subject.rule.variables.len();
        let named = (0..variables as u64 + 2).chain([65_535]);
        let questions: Vec<Asked> = [REPLY].into_iter().chain(named.map(digits)).collect();
        self.trials.extend(with_reply(&subject.sheet, reply, &questions));
        // Of the digits nothing is known but that there are none where unsat is claimed.
        let digits = if fails { " -" } else { " 0+" }.repeat(variables + 3);
        self.notes += &format!("accepted: {} replies\t{}+{}\n", solver, u8::from(fails), digits);
        *(if fails { &mut self.sat } else { &mut self.unsat }) += 1;
    }

    pub fn and(self, more: Replies) -> Replies {
        Replies {
            trials: [self.trials, more.trials].concat(),
            notes: self.notes + &more.notes,
            sat: self.sat + more.sat,
            unsat: self.unsat + more.unsat,
        }
    }
}
