// Replies whose words are not those that a reply must have: each is one that a solver, or someone who writes replies
// by hand, may come upon.

use crate::limits::MOST_VARIABLES;
use crate::random::Random;
use crate::reply_questions::{all, Replied};
use crate::reply_subjects::Subject;
use crate::reply_text::{joined, words, Word, BLANKS, DIGITS};
use crate::trial::Output;

/// Rewrites the words of a reply; none where it doesn't fit so many variables.
type Rewrite = fn(&mut Random, &[Word]) -> Option<Vec<Word>>;

pub fn make(random: &mut Random, out: &mut Output) {
    for _ in 0..3 {
        for variables in 0..=MOST_VARIABLES {
            let subject = Subject::fails_once(random, variables);
            for (name, rewrite) in REWRITES {
                let digits = random.pick(&DIGITS).1;
                let words = words(random, digits, &subject.case);
                if let Some(words) = rewrite(random, &words) {
                    let blanks = random.pick(&BLANKS).1;
                    let reply = joined(random, blanks, &words).bytes;
                    let questions = all(variables, &Replied::Unknown);
                    out.ask_about(&format!("11: reply, {}", name), &subject.sheet, &reply, &questions);
                }
            }
        }
    }
}

/// The variables that the words list, and where the pair of one begins.
fn variables(words: &[Word]) -> usize {
    words.len().saturating_sub(3) / 4
}

fn pair(variable: usize) -> usize {
    2 + 4 * variable
}

fn symbol(variable: usize) -> usize {
    pair(variable) + 1
}

fn value(variable: usize) -> usize {
    pair(variable) + 2
}

fn any_variable(random: &mut Random, words: &[Word]) -> Option<usize> {
    (variables(words) > 0).then(|| random.below(variables(words)))
}

/// One of the symbols, or one of the values, written another way.
fn with_symbol(random: &mut Random, words: &[Word], write: impl Fn(usize) -> String) -> Option<Vec<Word>> {
    let variable = any_variable(random, words)?;
    Some(with(words, symbol(variable), &write(variable)))
}

fn with_value(random: &mut Random, words: &[Word], text: &str) -> Option<Vec<Word>> {
    let variable = any_variable(random, words)?;
    Some(with(words, value(variable), text))
}

/// The words of a text in place of one word.
fn with(words: &[Word], place: usize, text: &str) -> Vec<Word> {
    let mut words = words.to_vec();
    words.splice(place..=place, text.split(' ').map(|word| word.into()));
    words
}

/// The words of a text before the word at a place, or behind all.
fn with_more(words: &[Word], place: usize, text: &str) -> Vec<Word> {
    let mut words = words.to_vec();
    words.splice(place..place, text.split(' ').map(|word| word.into()));
    words
}

fn in_front(words: &[Word], text: &str) -> Option<Vec<Word>> {
    Some(with_more(words, 0, text))
}

fn behind(words: &[Word], text: &str) -> Option<Vec<Word>> {
    Some(with_more(words, words.len(), text))
}

fn instead(text: &str) -> Option<Vec<Word>> {
    Some(text.split(' ').map(|word| word.into()).collect())
}

fn swapped(random: &mut Random, words: &[Word]) -> Option<Vec<Word>> {
    let one = any_variable(random, words).filter(|_| variables(words) > 1)?;
    let other = (one + 1 + random.below(variables(words) - 1)) % variables(words);
    let mut words = words.to_vec();
    (0..4).for_each(|word| words.swap(pair(one) + word, pair(other) + word));
    Some(words)
}

fn twice(random: &mut Random, words: &[Word]) -> Option<Vec<Word>> {
    let variable = any_variable(random, words)?;
    let again = words[pair(variable)..][..4].to_vec();
    let mut words = words.to_vec();
    words.splice(pair(variable)..pair(variable), again);
    Some(words)
}

fn missing(random: &mut Random, words: &[Word]) -> Option<Vec<Word>> {
    let variable = any_variable(random, words)?;
    let mut words = words.to_vec();
    words.drain(pair(variable)..pair(variable) + 4);
    Some(words)
}

fn one_more(_: &mut Random, words: &[Word]) -> Option<Vec<Word>> {
    match variables(words) {
        0 => behind(words, "( ( v0 #x0000 ) )"),
        count => Some(with_more(words, pair(count), &format!("( v{} #x0000 )", count))),
    }
}

fn without_word(random: &mut Random, words: &[Word]) -> Option<Vec<Word>> {
    let mut words = words.to_vec();
    words.remove(random.below(words.len()));
    Some(words)
}

fn without_outer(_: &mut Random, words: &[Word]) -> Option<Vec<Word>> {
    let mut words = words.to_vec();
    (words.len() > 1).then(|| {
        words.pop();
        words.remove(1);
        words
    })
}

fn values_swapped(random: &mut Random, words: &[Word]) -> Option<Vec<Word>> {
    let variable = any_variable(random, words)?;
    let mut words = words.to_vec();
    words.swap(symbol(variable), value(variable));
    Some(words)
}

fn run_together(random: &mut Random, words: &[Word]) -> Option<Vec<Word>> {
    let variable = any_variable(random, words)?;
    let mut words = words.to_vec();
    let value = words.remove(value(variable));
    words[symbol(variable)].extend(value);
    Some(words)
}

/// A word of two bytes and more, in two.
fn torn(random: &mut Random, words: &[Word]) -> Option<Vec<Word>> {
    let long: Vec<usize> = (0..words.len()).filter(|&word| words[word].len() > 1).collect();
    let place = random.pick(&long);
    let mut words = words.to_vec();
    let at = 1 + random.below(words[place].len() - 1);
    let rest = words[place].split_off(at);
    words.insert(place + 1, rest);
    Some(words)
}

const REWRITES: [(&str, Rewrite); 51] = [
    ("pairs in another order", swapped),
    ("a pair twice", twice),
    ("a pair missing", missing),
    ("a pair too many", one_more),
    ("a word missing", without_word),
    ("no list", |_, words| (words.len() > 1).then(|| words[..1].to_vec())),
    ("an empty list", |_, _| instead("sat ( )")),
    ("the list alone", |_, words| (words.len() > 1).then(|| words[1..].to_vec())),
    ("the list twice", |_, words| Some([words, &words[1..]].concat()).filter(|_| words.len() > 1)),
    ("the list without its parentheses", without_outer),
    ("a symbol and its value the other way round", values_swapped),
    ("no blank between symbol and value", run_together),
    ("a blank inside a word", torn),
    ("a zero before a number", |random, words| with_symbol(random, words, |of| format!("v0{}", of))),
    ("v016", |random, words| with_symbol(random, words, |_| "v016".to_string())),
    ("another variable's symbol", |random, words| with_symbol(random, words, |of| format!("v{}", of + 1))),
    ("a capital V", |random, words| with_symbol(random, words, |of| format!("V{}", of))),
    ("a quoted symbol", |random, words| with_symbol(random, words, |of| format!("|v{}|", of))),
    ("a name for a symbol", |random, words| with_symbol(random, words, |_| "seated".to_string())),
    ("no symbol but v", |random, words| with_symbol(random, words, |_| "v".to_string())),
    ("sixteen hexadecimal digits", |random, words| with_value(random, words, "#x0000000000000001")),
    ("five hexadecimal digits", |random, words| with_value(random, words, "#x00001")),
    ("three hexadecimal digits", |random, words| with_value(random, words, "#x001")),
    ("no hexadecimal digits", |random, words| with_value(random, words, "#x")),
    ("four binary digits", |random, words| with_value(random, words, "#b0001")),
    ("fifteen binary digits", |random, words| with_value(random, words, "#b000000000000001")),
    ("seventeen binary digits", |random, words| with_value(random, words, "#b00000000000000001")),
    ("a 2 in binary", |random, words| with_value(random, words, "#b0000000000000002")),
    ("a letter in binary", |random, words| with_value(random, words, "#b000000000000000a")),
    ("a g in hexadecimal", |random, words| with_value(random, words, "#x000g")),
    ("#X", |random, words| with_value(random, words, "#X0001")),
    ("#B", |random, words| with_value(random, words, "#B0000000000000001")),
    ("#o", |random, words| with_value(random, words, "#o000001")),
    ("0x", |random, words| with_value(random, words, "0x0001")),
    ("a decimal number", |random, words| with_value(random, words, "1")),
    ("a decimal bit-vector", |random, words| with_value(random, words, "( _ bv1 16 )")),
    ("a value in parentheses", |random, words| with_value(random, words, "( #x0001 )")),
    ("two values", |random, words| with_value(random, words, "#x0001 #x0001")),
    ("sat twice", |_, words| in_front(words, "sat")),
    ("sat in capitals", |_, words| Some(with(words, 0, "SAT"))),
    ("sat in parentheses", |_, words| Some(with(words, 0, "( sat )"))),
    ("sat with a letter more", |_, words| Some(with(words, 0, "sats"))),
    ("unsat in capitals", |_, _| instead("UNSAT")),
    ("unsat in parentheses", |_, _| instead("( unsat )")),
    ("unknown", |_, _| instead("unknown")),
    ("unsat behind a case", |_, words| behind(words, "unsat")),
    ("a word behind a case", |_, words| behind(words, "ok")),
    ("success first", |_, words| in_front(words, "success")),
    ("an error first", |_, words| in_front(words, "( error \"line 9\" )")),
    ("a comment behind", |_, words| behind(words, "; by hand")),
    ("a model for a list", |_, _| instead("sat ( ( define-fun v0 ( ) ( _ BitVec 16 ) #x0000 ) )")),
];
