// Has solvers judge the scripts of accepted sheets. Of each script, as it is, they must say 'sat' exactly if
// some case fails. Asked for values too, they must give a case of the domains that fails. Where few cases fail,
// these are all there is: with every failing case shut out they must say 'unsat', and with all but one shut out
// they must give that one. What fails is found by the maker, which must agree with the oracle.

use crate::answers::{failing, tallied};
use crate::cases::{self, Case, Outcome};
use crate::edits::{self, Edit};
use crate::oracle;
use crate::rule::Rule;
use crate::script;
use crate::sheet;
use std::fs;
use std::process::Command;

pub const SOLVERS: [&str; 2] = ["z3", "cvc5"];
/// So many failing cases are shut out one by one.
const FEW: usize = 64;
/// Sheets on which each edit of a script is tried.
const EDITED: usize = 5;

type Exam = Result<(), String>;

/// A sheet, its rule, its cases and its script.
pub struct Subject {
    pub file: String,
    pub sheet: Vec<u8>,
    pub rule: Rule,
    script: String,
    outcome: Outcome,
}

impl Subject {
    pub fn fails(&self) -> bool {
        self.outcome.failed > 0
    }

    pub fn fails_in_few(&self) -> bool {
        (1..=FEW as u64).contains(&self.outcome.failed)
    }
}

/// The subjects of trials whose scripts stand in a folder under the trials' numbers.
pub fn subjects(oracle: &str, sheets: &[Vec<u8>], folder: &str) -> Result<Vec<Subject>, String> {
    let mut subjects = Vec::new();
    for (number, (sheet, said)) in sheets.iter().zip(oracle::answers(oracle, sheets)).enumerate() {
        let file = format!("{}/{}.smt2", folder, number);
        if said.read != "accepted" {
            return Err(format!("sheet {} is {}", number, said.read));
        }
        let rule = sheet::read_back(sheet);
        let outcome = cases::outcome(&rule, FEW);
        let check = outcome.failing.first().map_or("holds".to_string(), |case| failing(&rule, case));
        let tally = tallied(cases::count(&rule) - outcome.failed, outcome.failed);
        if said.check != "refused 10 at 0" && (said.check != check || said.tally != tally) {
            return Err(format!(
                "sheet {}: {}, {}; the oracle: {}, {}",
                number, check, tally, said.check, said.tally
            ));
        }
        let script = fs::read_to_string(&file).map_err(|error| format!("{}: {}", file, error))?;
        subjects.push(Subject { file, sheet: sheet.clone(), rule, script, outcome });
    }
    Ok(subjects)
}

/// How many scripts were sat, how many unsat, and of how many all failing cases were shut out.
#[derive(Default, PartialEq)]
pub struct Counts {
    pub sat: usize,
    pub unsat: usize,
    pub few: usize,
}

pub struct Examiner<'e> {
    solver: &'e str,
    folder: &'e str,
}

impl Examiner<'_> {
    pub fn new<'e>(solver: &'e str, folder: &'e str) -> Examiner<'e> {
        Examiner { solver, folder }
    }

    pub fn examine_all(&self, subjects: &[Subject]) -> Result<Counts, String> {
        let mut counts = Counts::default();
        for subject in subjects {
            let told =
                |why: String| format!("{} on {}: {}\n{}", self.solver, subject.file, why, subject.script);
            self.verdict(subject).map_err(told)?;
            if !subject.fails() {
                counts.unsat += 1;
                continue;
            }
            counts.sat += 1;
            self.model(subject, &subject.script).map_err(told)?;
            if subject.fails_in_few() {
                counts.few += 1;
                self.shut_out(subject, &subject.script).map_err(told)?;
            }
        }
        edits::ALL.iter().try_for_each(|edit| self.notices(edit, subjects))?;
        Ok(counts)
    }

    fn run(&self, file: &str) -> Result<String, String> {
        let output = Command::new("timeout").args(["120", self.solver, file]).output();
        let output = output.map_err(|error| format!("it can't be run: {}", error))?;
        Ok(String::from_utf8_lossy(&[output.stdout, output.stderr].concat()).trim().to_string())
    }

    /// The case that the solver gives for a script.
    fn case(&self, script: &str, variables: usize) -> Result<Option<Case>, String> {
        let file = format!("{}/asked-{}.smt2", self.folder, self.solver);
        fs::write(&file, script::with_values(script, variables)).map_err(|error| error.to_string())?;
        script::replied(&self.run(&file)?, variables)
    }

    /// The script's own bytes.
    fn verdict(&self, subject: &Subject) -> Exam {
        let wanted = if subject.fails() { "sat" } else { "unsat" };
        match self.run(&subject.file)? {
            said if said == wanted => Ok(()),
            said => Err(format!("it says '{}' and not '{}'", said, wanted)),
        }
    }

    fn model(&self, subject: &Subject, script: &str) -> Exam {
        match self.case(script, subject.rule.variables.len())? {
            None => Err("asked for values, it says 'unsat'".to_string()),
            Some(case) if !cases::in_domains(&subject.rule, &case) => {
                Err(format!("it gives {:?}, which leaves the domains", case))
            }
            Some(case) if !cases::fails(&subject.rule, &case) => {
                Err(format!("it gives {:?}, which does not fail", case))
            }
            Some(_) => Ok(()),
        }
    }

    fn shut_out(&self, subject: &Subject, script: &str) -> Exam {
        let variables = subject.rule.variables.len();
        let all = &subject.outcome.failing;
        if let Some(case) = self.case(&script::without(script, all), variables)? {
            return Err(format!("with all {} failing cases shut out it gives {:?}", all.len(), case));
        }
        let mut others = all.clone();
        let left = others.swap_remove(all.len() / 2);
        match self.case(&script::without(script, &others), variables)? {
            Some(case) if case == left => Ok(()),
            said => Err(format!("with all failing cases but {:?} shut out it gives {:?}", left, said)),
        }
    }

    /// A script so edited does not pass, on the first few sheets that the edit fits.
    fn notices(&self, edit: &Edit, subjects: &[Subject]) -> Exam {
        let fitting = subjects.iter().filter(|subject| subject.fails_in_few());
        let edited =
            fitting.filter_map(|subject| Some((subject, (edit.make)(&subject.rule, &subject.script)?)));
        let mut tried = 0;
        for (subject, script) in edited.take(EDITED) {
            tried += 1;
            let model_passes = edit.in_models && self.model(subject, &script).is_ok();
            if model_passes || self.shut_out(subject, &script).is_ok() {
                return Err(format!("{}: {} went unnoticed:\n{}", self.solver, edit.name, script));
            }
        }
        if tried < EDITED {
            return Err(format!("{}: only {} sheets fit it", edit.name, tried));
        }
        Ok(())
    }
}
