// Inputs for the program: accepted sheets, each refusal, and lengths about those at which it stops reading.

use crate::accepted;
use crate::case_questions::affordable;
use crate::few_cases::domains;
use crate::grower::{self, Grower};
use crate::judge::next_trial;
use crate::limits::*;
use crate::random::Random;
use crate::refused_sheets;
use crate::scripts::longest;
use crate::trees::Table;
use crate::trial::{Output, Part};
use std::fs::{self, File};
use std::io;

/// How many of each class: accepted, and refused with 1 to 8.
const OF_EACH: usize = 12;
const CLASSES: [&str; 9] = ["accepted", "1", "2", "3", "4", "5", "6", "7", "8"];

/// What the program may need to go through all cases of an input.
const MOST_STEPS: f64 = 5_000_000.0;

pub fn write(seed: u64, folder: &str) -> io::Result<()> {
    let mut random = Random::new(seed, "inputs");
    for (name, input) in of_each_length(&mut random) {
        fs::write(format!("{}/{}", folder, name), input)?;
    }
    let sheets = labelled_sheets(&mut random, folder)?;
    for class in CLASSES {
        let of_class: Vec<&Vec<u8>> = sheets
            .iter()
            .filter(|(label, sheet)| label.split(':').next() == Some(class) && affordable(sheet, MOST_STEPS))
            .map(|(_, x)| x)
            .collect();
        for number in 0..OF_EACH {
            let sheet = of_class[random.below(of_class.len())];
            fs::write(format!("{}/{}-{}", folder, class, number), sheet)?;
        }
    }
    Ok(())
}

/// Lengths at which the program must stop reading, or must not, and the longest script.
fn of_each_length(random: &mut Random) -> Vec<(String, Vec<u8>)> {
    let full = longest_sheet(random);
    let mut inputs = vec![("empty".to_string(), Vec::new()), ("full".to_string(), full.clone())];
    let of_length = |length: usize| {
        let mut input = full.clone();
        input.resize(length, 0);
        input
    };
    let lengths =
        [1, BLOCK - 1, BLOCK, BLOCK + 1, MOST_BYTES - 1, MOST_BYTES + 2, MOST_BYTES + BLOCK, 65_536];
    inputs.extend(lengths.map(|length| (format!("length-{}", length), of_length(length))));
    inputs.push(("one-too-long".to_string(), of_length(MOST_BYTES + 1)));
    inputs.push(("far-too-long".to_string(), of_length(200_000)));
    let mut grower = Grower::new(random, MOST_VARIABLES);
    let goal = longest(&mut grower);
    inputs.push(("longest-script".to_string(), grower.sheet(&Table::of(&goal))));
    let small = grower::accepted(random, 3, 2);
    inputs.push(("small-and-a-byte".to_string(), [&small[..], &[0]].concat()));
    inputs.push(("small-and-full".to_string(), [small, full].concat()));
    inputs
}

fn longest_sheet(random: &mut Random) -> Vec<u8> {
    let domains = domains(random, 5, 400);
    let mut grower = Grower::with_domains(random, &domains);
    let goal = grower.truth(MOST_NODES);
    grower.sheet(&Table::of(&goal))
}

fn labelled_sheets(random: &mut Random, folder: &str) -> io::Result<Vec<(String, Vec<u8>)>> {
    let (trials, notes) = (format!("{}/trials", folder), format!("{}/notes", folder));
    let mut out = Output::new(Part::Reading, File::create(&trials)?, File::create(&notes)?);
    accepted::make(random, &mut out);
    refused_sheets(random, &mut out);
    out.finish();
    let (bytes, labels) = (fs::read(&trials)?, fs::read_to_string(&notes)?);
    fs::remove_file(trials)?;
    fs::remove_file(notes)?;
    let mut rest = &bytes[..];
    Ok(labels.lines().map(|label| (label.to_string(), next_trial(&mut rest).sheet.to_vec())).collect())
}
