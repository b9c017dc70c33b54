// Tables in the form that README.md has them.

/// The columns' names, and the line below them.
pub fn head(names: &[impl AsRef<str>]) {
    row(names);
    println!("|{}", "---|".repeat(names.len()));
}

pub fn row(cells: &[impl AsRef<str>]) {
    let spaced = |cell: &str| if cell.is_empty() { " ".to_string() } else { format!(" {} ", cell) };
    let cells: Vec<String> = cells.iter().map(|cell| spaced(cell.as_ref())).collect();
    println!("|{}|", cells.join("|"));
}

/// A number with so many digits behind the point, commas between its thousands.
pub fn figure(number: f64, digits: usize) -> String {
    let plain = format!("{:.*}", digits, number);
    let (whole, rest) = plain.split_at(plain.find('.').unwrap_or(plain.len()));
    let mut text = String::new();
    for (i, digit) in whole.char_indices() {
        let behind_a_digit = text.ends_with(|before: char| before.is_ascii_digit());
        if behind_a_digit && (whole.len() - i) % 3 == 0 {
            text.push(',');
        }
        text.push(digit);
    }
    text + rest
}

pub fn count(number: usize) -> String {
    figure(number as f64, 0)
}
