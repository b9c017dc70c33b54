// Changes to the text of a script, line by line, and what a solver replies to it.

use crate::cases::Case;

/// The script with lines put before one of its own.
fn with(script: &str, before: &str, lines: &str) -> String {
    let at = script.find(&format!("\n{}\n", before)).map(|place| place + 1);
    let at = at.unwrap_or_else(|| panic!("a script has the line {}", before));
    [&script[..at], lines, &script[at..]].concat()
}

/// The script that asks for the variables' values too; without variables there is nothing to ask for.
pub fn with_values(script: &str, variables: usize) -> String {
    let symbols: Vec<String> = (0..variables).map(|number| format!("v{}", number)).collect();
    let asks = match variables {
        0 => String::new(),
        _ => format!("(get-value ({}))\n", symbols.join(" ")),
    };
    format!("(set-option :produce-models true)\n{}", with(script, "(exit)", &asks))
}

/// The script that shuts out these cases.
pub fn without(script: &str, cases: &[Case]) -> String {
    let lines: String = cases.iter().map(|case| format!("(assert (not {}))\n", is(case))).collect();
    with(script, "(check-sat)", &lines)
}

/// That the variables have these values.
fn is(case: &Case) -> String {
    let equal = case.iter().enumerate().map(|(i, value)| format!("(= v{} #x{:04x})", i, *value as i16));
    match case.len() {
        0 => "true".to_string(),
        1 => equal.collect(),
        _ => format!("(and {})", equal.collect::<Vec<String>>().join(" ")),
    }
}

/// The case in a reply to a script that asks for values, or None for 'unsat'.
pub fn replied(reply: &str, variables: usize) -> Result<Option<Case>, String> {
    let words: Vec<&str> = reply.split(['(', ')', ' ', '\n']).filter(|word| !word.is_empty()).collect();
    match words[..] {
        ["unsat", ..] => Ok(None),
        ["sat", ref pairs @ ..] if pairs.len() == 2 * variables => pairs
            .chunks_exact(2)
            .enumerate()
            .map(|(i, pair)| value(i, pair))
            .collect::<Result<Case, String>>()
            .map(Some),
        _ => Err(format!("it replies '{}'", reply)),
    }
}

/// A variable's value, sixteen bits in two's complement.
fn value(variable: usize, pair: &[&str]) -> Result<i64, String> {
    let bits = match (pair[1].get(..2), pair[1].get(2..)) {
        (Some("#x"), Some(digits)) if digits.len() == 4 => u16::from_str_radix(digits, 16).ok(),
        (Some("#b"), Some(digits)) if digits.len() == 16 => u16::from_str_radix(digits, 2).ok(),
        _ => None,
    };
    match bits {
        Some(bits) if pair[0] == format!("v{}", variable) => Ok((bits as i16).into()),
        _ => Err(format!("'{} {}' is no value of v{}", pair[0], pair[1], variable)),
    }
}
