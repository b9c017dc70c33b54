// Variable records: their domains and names (refusal 5).

use crate::limits::LONGEST_NAME;
use crate::reading::{refuse, variable_offset, Refusal};

pub struct Variable {
    pub least: i64,
    pub greatest: i64,
    pub name: String,
    pub name_offset: usize,
}

/// The first `count` variables, in number order.
pub fn read(sheet: &[u8], count: usize) -> Result<Vec<Variable>, Refusal> {
    let mut variables: Vec<Variable> = Vec::new();
    for number in 0..count {
        match variable(sheet, variable_offset(number)) {
            Some(new) if variables.iter().all(|earlier| earlier.name != new.name) => variables.push(new),
            _ => return refuse(5, number),
        }
    }
    Ok(variables)
}

/// The variable whose record stands at `offset`, unless the record breaks a rule.
fn variable(sheet: &[u8], offset: usize) -> Option<Variable> {
    let record = &sheet[offset..offset + 24];
    let variable = Variable {
        least: i16::from_le_bytes([record[0], record[1]]).into(),
        greatest: i16::from_le_bytes([record[2], record[3]]).into(),
        name: String::from_utf8(record[6..6 + LONGEST_NAME].get(..record[4].into())?.to_vec()).ok()?,
        name_offset: offset + 6,
    };
    let right =
        variable.least <= variable.greatest && is_name(&variable.name) && record == written(&variable);
    right.then_some(variable)
}

fn is_name(text: &str) -> bool {
    let letter = |c: char| matches!(c, 'a'..='z' | 'A'..='Z');
    let later = |c: char| letter(c) || matches!(c, '0'..='9' | '_');
    text.starts_with(letter) && text.chars().all(later)
}

/// The one record that says this; any other byte in the sheet's record breaks a rule.
pub fn written(variable: &Variable) -> Vec<u8> {
    let mut record = vec![0; 24];
    record[..2].copy_from_slice(&(variable.least as i16).to_le_bytes());
    record[2..4].copy_from_slice(&(variable.greatest as i16).to_le_bytes());
    record[4] = variable.name.len() as u8;
    record[6..6 + variable.name.len()].copy_from_slice(variable.name.as_bytes());
    record
}
