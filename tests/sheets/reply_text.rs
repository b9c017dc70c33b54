// The text of a reply that says 'sat': its words, spelled in every way, and the blanks between them.

use crate::random::Random;

/// How values are spelled.
#[derive(Clone, Copy)]
pub enum Digits {
    Lower,
    Upper,
    Mixed,
    Binary,
    Either,
}

pub const DIGITS: [(&str, Digits); 5] = [
    ("lower case", Digits::Lower),
    ("upper case", Digits::Upper),
    ("mixed case", Digits::Mixed),
    ("binary", Digits::Binary),
    ("either", Digits::Either),
];

/// What stands between words.
#[derive(Clone, Copy)]
pub enum Blanks {
    /// One of any sort where two words would run together, and none elsewhere.
    Fewest,
    /// One of this sort.
    One(u8),
    Any,
}

pub const BLANKS: [(&str, Blanks); 6] = [
    ("no needless blanks", Blanks::Fewest),
    ("tabs", Blanks::One(b'\t')),
    ("line feeds", Blanks::One(b'\n')),
    ("carriage returns", Blanks::One(b'\r')),
    ("spaces", Blanks::One(b' ')),
    ("any blanks", Blanks::Any),
];

const BLANK_BYTES: &[u8] = b"\t\n\r ";

pub type Word = Vec<u8>;

/// Where a variable's digits begin, and how many there are.
pub type Span = (usize, usize);

pub struct Text {
    pub bytes: Vec<u8>,
    /// Of each word that is a value.
    pub digits: Vec<Span>,
    /// Behind the last word.
    pub end: usize,
}

pub fn value(random: &mut Random, digits: Digits, value: i64) -> Word {
    let bits = value as u16;
    match digits {
        Digits::Lower => format!("#x{:04x}", bits).into(),
        Digits::Upper => format!("#x{:04X}", bits).into(),
        Digits::Mixed => {
            let either = |byte: u8| if random.one_in(2) { byte.to_ascii_uppercase() } else { byte };
            let digits = format!("{:04x}", bits);
            b"#x".iter().copied().chain(digits.bytes().map(either)).collect()
        }
        Digits::Binary => format!("#b{:016b}", bits).into(),
        Digits::Either => {
            let digits = random.pick(&[Digits::Lower, Digits::Upper, Digits::Mixed, Digits::Binary]);
            self::value(random, digits, value)
        }
    }
}

/// A reply's words, four for each variable: a parenthesis, the symbol, the value and a parenthesis.
pub fn words(random: &mut Random, digits: Digits, case: &[i64]) -> Vec<Word> {
    let mut words = vec![b"sat".to_vec()];
    if case.is_empty() {
        return words;
    }
    words.push(b"(".to_vec());
    for (number, &of) in case.iter().enumerate() {
        words.extend([
            b"(".to_vec(),
            format!("v{}", number).into(),
            value(random, digits, of),
            b")".to_vec(),
        ]);
    }
    words.push(b")".to_vec());
    words
}

/// The words with blanks before, between and behind them.
pub fn joined(random: &mut Random, blanks: Blanks, words: &[Word]) -> Text {
    let gaps: Vec<Vec<u8>> = (0..=words.len())
        .map(|place| {
            let together =
                place > 0 && place < words.len() && runs_together(&words[place - 1], &words[place]);
            gap(random, blanks, together)
        })
        .collect();
    with_gaps(words, &gaps)
}

/// The words with these blanks, one gap more than there are words.
pub fn with_gaps(words: &[Word], gaps: &[Vec<u8>]) -> Text {
    let mut text = Text { bytes: gaps[0].clone(), digits: Vec::new(), end: 0 };
    for (word, gap) in words.iter().zip(&gaps[1..]) {
        if word[0] == b'#' {
            text.digits.push((text.bytes.len() + 2, word.len().saturating_sub(2)));
        }
        text.bytes.extend(word);
        text.end = text.bytes.len();
        text.bytes.extend(gap);
    }
    text
}

/// Whether neither is a parenthesis.
pub fn runs_together(one: &[u8], other: &[u8]) -> bool {
    [one, other].iter().all(|word| *word != b"(" && *word != b")")
}

fn gap(random: &mut Random, blanks: Blanks, together: bool) -> Vec<u8> {
    let least = usize::from(together);
    match blanks {
        Blanks::Fewest => some_blanks(random, least),
        Blanks::One(byte) => vec![byte],
        Blanks::Any => {
            let count = least + random.below(4);
            some_blanks(random, count)
        }
    }
}

pub fn some_blanks(random: &mut Random, count: usize) -> Vec<u8> {
    (0..count).map(|_| random.pick(BLANK_BYTES)).collect()
}

/// The words, spelled and spaced in any way.
pub fn any(random: &mut Random, case: &[i64]) -> Text {
    let (digits, blanks) = (random.pick(&DIGITS).1, random.pick(&BLANKS).1);
    let words = words(random, digits, case);
    joined(random, blanks, &words)
}
