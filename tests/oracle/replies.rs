// Reading a solver's reply to a script that asks for values (document 02, item 1). Whole texts alone are judged; how
// far bytes begin a reply is found by completing them and judging what comes out.

use crate::cases;
use crate::reading::{refuse, Refusal, Rule};

/// A variable's digits: where the first one stands in the reply, and how many there are.
pub struct Digits {
    pub from: usize,
    pub count: usize,
}

pub enum Reply {
    /// A claim: nothing behind it is read.
    Unsat,
    /// With the digits of each variable.
    Sat(Vec<Digits>),
}

/// What the reply comes to: a claim, or a case that fails.
pub fn judged(rule: &Rule, bytes: &[u8]) -> Result<Reply, Refusal> {
    let reader = Reader::with(rule.variables.len());
    let Some(reply) = reader.whole(bytes) else {
        return refuse(11, reader.begun(bytes));
    };
    if let Reply::Sat(digits) = &reply {
        let case = case(bytes, digits);
        let mut pairs = rule.variables.iter().zip(&case);
        if let Some(variable) = pairs.position(|(of, value)| !(of.least..=of.greatest).contains(value)) {
            return refuse(12, variable);
        }
        if !cases::fails(rule, &case) {
            return refuse(13, 0);
        }
    }
    Ok(reply)
}

/// The values that the digits give.
pub fn case(bytes: &[u8], digits: &[Digits]) -> Vec<i64> {
    digits.iter().map(|digits| value(bytes, digits)).collect()
}

/// Sixteen bits in two's complement, from four digits or from sixteen.
fn value(bytes: &[u8], digits: &Digits) -> i64 {
    let radix = if digits.count == 4 { 16 } else { 2 };
    let digit = |&byte: &u8| i64::from(char::from(byte).to_digit(radix).expect("a digit"));
    let number =
        bytes[digits.from..][..digits.count].iter().fold(0, |sum, byte| i64::from(radix) * sum + digit(byte));
    if number < 32_768 {
        number
    } else {
        number - 65_536
    }
}

fn is_blank(byte: u8) -> bool {
    [b'\t', b'\n', b'\r', b' '].contains(&byte)
}

fn is_parenthesis(byte: u8) -> bool {
    byte == b'(' || byte == b')'
}

fn is_inside(byte: u8) -> bool {
    !is_blank(byte) && !is_parenthesis(byte)
}

/// A parenthesis, or all the other bytes that stand together.
struct Word<'b> {
    from: usize,
    text: &'b [u8],
}

fn words(bytes: &[u8]) -> Vec<Word<'_>> {
    let mut words = Vec::new();
    let mut from = 0;
    while from < bytes.len() {
        let together = bytes[from..].iter().take_while(|&&byte| is_inside(byte)).count();
        let length = together.max(1);
        if !is_blank(bytes[from]) {
            words.push(Word { from, text: &bytes[from..from + length] });
        }
        from += length;
    }
    words
}

/// What a word of a reply must be.
enum Wanted {
    Text(String),
    Value,
}

impl Wanted {
    fn allows(&self, text: &[u8]) -> bool {
        match self {
            Wanted::Text(wanted) => wanted.as_bytes() == text,
            Wanted::Value => is_value(text),
        }
    }

    /// Texts of every length that it allows.
    fn spellings(&self) -> Vec<&str> {
        match self {
            Wanted::Text(text) => vec![text],
            Wanted::Value => vec!["#x0000", "#b0000000000000000"],
        }
    }
}

fn is_value(text: &[u8]) -> bool {
    let all = |digits: &[u8], radix: u32| digits.iter().all(|&byte| char::from(byte).is_digit(radix));
    match text {
        [b'#', b'x', digits @ ..] => digits.len() == 4 && all(digits, 16),
        [b'#', b'b', digits @ ..] => digits.len() == 16 && all(digits, 2),
        _ => false,
    }
}

/// Reads the replies about so many variables.
struct Reader {
    /// The words of a reply that says 'sat'.
    wanted: Vec<Wanted>,
}

impl Reader {
    fn with(variables: usize) -> Reader {
        let pairs: Vec<String> = (0..variables).map(|number| format!("( v{} = )", number)).collect();
        let list = if variables > 0 { format!("( {} )", pairs.join(" ")) } else { String::new() };
        let text = format!("sat {}", list);
        let wanted = |word: &str| if word == "=" { Wanted::Value } else { Wanted::Text(word.to_string()) };
        Reader { wanted: text.split_whitespace().map(wanted).collect() }
    }

    /// The reply that these bytes are, if they are one.
    fn whole(&self, bytes: &[u8]) -> Option<Reply> {
        if claims_unsat(bytes) {
            return Some(Reply::Unsat);
        }
        let words = words(bytes);
        let mut pairs = words.iter().zip(&self.wanted);
        let fits = words.len() == self.wanted.len() && pairs.all(|(word, wanted)| wanted.allows(word.text));
        let values = words.iter().filter(|word| is_value(word.text));
        // The digits are all that stands behind '#x' or '#b'.
        let digits = values.map(|word| Digits { from: word.from + 2, count: word.text.len() - 2 });
        fits.then(|| Reply::Sat(digits.collect()))
    }

    /// The most bytes at the front with which some reply begins. Where so many begin one, so do fewer.
    fn begun(&self, bytes: &[u8]) -> usize {
        let (mut some, mut none) = (0, bytes.len() + 1);
        while none - some > 1 {
            let middle = some + (none - some) / 2;
            if self.begins(&bytes[..middle]) {
                some = middle;
            } else {
                none = middle;
            }
        }
        some
    }

    fn begins(&self, bytes: &[u8]) -> bool {
        self.completions(bytes).iter().any(|rest| self.whole(&[bytes, rest.as_bytes()].concat()).is_some())
    }

    /// What may be missing: nothing, or the rest of the last word and all words behind it.
    fn completions(&self, bytes: &[u8]) -> Vec<String> {
        let words = words(bytes);
        let behind: String = self
            .wanted
            .iter()
            .skip(words.len())
            .map(|wanted| " ".to_string() + wanted.spellings()[0])
            .collect();
        let mut completions = vec![String::new(), behind.clone()];
        if let (Some(last), true) = (words.last(), bytes.last().is_some_and(|&byte| is_inside(byte))) {
            let wanted = self.wanted.get(words.len() - 1).map_or(Vec::new(), Wanted::spellings);
            let longer = wanted.into_iter().chain(["unsat"]).filter_map(|text| text.get(last.text.len()..));
            completions.extend(longer.map(|rest| rest.to_string() + &behind));
        }
        completions
    }
}

/// 'unsat' before a blank or the end.
fn claims_unsat(bytes: &[u8]) -> bool {
    let first = bytes.iter().position(|&byte| !is_blank(byte)).unwrap_or(0);
    let behind = bytes[first..].strip_prefix(b"unsat");
    behind.is_some_and(|rest| rest.first().map_or(true, |&byte| is_blank(byte)))
}
