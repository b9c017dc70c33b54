// Long texts: chains of as many nodes as a sheet has and one more, far longer ones, which no stack would do to go down
// in, many variables, and a million bytes of operands, digits, letters, spaces and lines.

use crate::grower::Grower;
use crate::limits::*;
use crate::plain::{printed, written};
use crate::random::Random;
use crate::shapes::{balanced, chain, links, DOMAINS};
use crate::texts::put_made;
use crate::trees::*;
use crate::trial::{Output, Refused};

const OPERANDS: [&str; 3] = ["a", "b", "c"];

/// A tree of every shape with the most nodes, and with one more.
pub fn shapes(random: &mut Random, out: &mut Output) {
    for link in links() {
        let shape = format!("a chain through operand {} of kind {}", OPERANDS[link.1], link.0);
        of_sizes(random, out, &shape, |grower, nodes| chain(grower, &[link], nodes));
    }
    for kind in [4, 9, SUM, CHOICE] {
        let shape = format!("a balanced tree of kind {}", kind);
        of_sizes(random, out, &shape, |grower, nodes| balanced(grower, kind, nodes));
    }
    of_sizes(random, out, "a mixed chain", |grower, nodes| chain(grower, &links(), nodes));
}

fn of_sizes(random: &mut Random, out: &mut Output, shape: &str, grow: impl Fn(&mut Grower, usize) -> Tree) {
    let any = 12 + random.below(MOST_NODES - 12);
    for (label, nodes) in [("the most nodes", MOST_NODES), ("other sizes", any)] {
        let mut grower = small(random);
        let goal = grow(&mut grower, nodes);
        let rule = written(&grower, &goal);
        put_made(random, out, &format!("{}, {}", shape, label), &rule);
    }
    for more in [1, NODES_IN_BLOCK] {
        let mut grower = small(random);
        let goal = grow(&mut grower, MOST_NODES + more);
        let text = printed(&grower.variables, &goal);
        out.put(random, &format!("4: text, {}, over the most nodes", shape), &text, Refused(4, 0));
    }
}

fn small(random: &mut Random) -> Grower<'_> {
    let variables = random.below(MOST_VARIABLES + 1);
    let domains: Vec<Range> = (0..variables).map(|_| random.pick(&DOMAINS)).collect();
    Grower::with_domains(random, &domains)
}

pub fn long(random: &mut Random, out: &mut Output) {
    longest(random, out);
    deep(random, out);
    million(random, out);
    many_variables(random, out);
    one_long_word(random, out);
}

/// The longest text of an accepted sheet: names of 16 letters at all leaves, compared, chosen between by comparisons, and
/// five such comparisons joined by the longest word, so that the nodes come out even.
fn longest(random: &mut Random, out: &mut Output) {
    let domain = (LOW, LOW);
    let mut grower = Grower::with_domains(random, &[domain; MOST_VARIABLES]);
    for (number, variable) in grower.variables.iter_mut().enumerate() {
        variable.name = format!("longest_name_{:03}", number).into_bytes();
    }
    let name = |number: usize| variable(number % MOST_VARIABLES, domain);
    let equal = |of: Tree| node(8, vec![name(1), of]);
    let chosen = |of: Tree, number: usize| node(CHOICE, vec![equal(name(number)), name(number + 1), of]);
    let choices = (MOST_NODES - 4 - 5 * 3) / 5;
    let last = equal((0..choices).fold(name(0), chosen));
    let goal = (0..4).fold(last, |of, number| node(6, vec![equal(name(number)), of]));
    let rule = written(&grower, &goal);
    assert_eq!((goal.size(), rule.text.len()), (MOST_NODES, LONGEST_TEXT), "the longest text");
    put_made(random, out, "the longest", &rule);
}

/// So many words, each the next one's operand; what stands before and behind the deep operand is the others.
fn chained(before: &str, bottom: &str, behind: &str, links: usize) -> String {
    ["goal ", &before.repeat(links), bottom, &behind.repeat(links), "\n"].concat()
}

const LINKS: [(&str, &str, &str); 12] = [
    ("not ", "true", ""),
    ("neg ", "1", ""),
    ("and ", "true", " true"),
    ("and true ", "false", ""),
    ("implies ", "1", " 1"),
    ("eq 1 ", "1", ""),
    ("add ", "1", " 1"),
    ("sub 0 ", "1", ""),
    ("mul ", "x", " x"),
    ("if ", "true", " 1 1"),
    ("if true ", "1", " 1"),
    ("if true 1 ", "1", ""),
];

/// Whole, cut short, with an operand too few, and with one too many.
fn deep(random: &mut Random, out: &mut Output) {
    for (before, bottom, behind) in LINKS {
        let links = random.pick(&[2_000, 3_000, 5_000]);
        deep_of(random, out, before, bottom, behind, links);
    }
    let nots = chained("not ", "true", "", 100_000);
    out.put(random, "4: text, a deep chain", nots.as_bytes(), Refused(4, 0));
    let cut = &nots[..nots.len() - 1];
    out.put(random, "18: text, a deep chain, cut short", cut.as_bytes(), Refused(18, cut.len()));
    let (before, bottom, behind) = random.pick(&LINKS);
    let whole = ["var x 0 1\n", &chained(before, bottom, behind, 100_000)].concat();
    out.put(random, "4: text, a deep chain", whole.as_bytes(), Refused(4, 0));
}

fn deep_of(random: &mut Random, out: &mut Output, before: &str, bottom: &str, behind: &str, links: usize) {
    let text = ["var x 0 1\n", &chained(before, bottom, behind, links)].concat();
    out.put(random, "4: text, a deep chain", text.as_bytes(), Refused(4, 0));
    let cut = &text[..text.len() - 1];
    out.put(random, "18: text, a deep chain, cut short", cut.as_bytes(), Refused(18, cut.len()));
    let more = [cut, " true\n"].concat();
    let label = "18: text, a deep chain, an operand too many";
    out.put(random, label, more.as_bytes(), Refused(18, cut.len()));
    let last = cut.rfind(' ').expect("words");
    let fewer = [&cut[..last], "\n"].concat();
    out.put(random, "18: text, a deep chain, an operand too few", fewer.as_bytes(), Refused(18, last));
}

/// A million bytes of operands, right and with one that is off.
fn million(random: &mut Random, out: &mut Output) {
    let links = 1_000_000 / "and true ".len() + 1;
    let text = ["goal ", &"and ".repeat(links), &"true ".repeat(links), "false\n"].concat();
    assert!(text.len() > 1_000_000, "a million bytes");
    out.put(random, "4: text, a million bytes", text.as_bytes(), Refused(4, 0));
    let mut off = text.into_bytes();
    let place = "goal ".len() + "and ".len() * links + "true ".len() * random.below(links) + random.below(5);
    off[place] = b'Z';
    out.put(random, "18: text, a million bytes, one of them off", &off, Refused(18, place));
}

/// Names are looked up among all.
fn many_variables(random: &mut Random, out: &mut Output) {
    for count in [MOST_VARIABLES, MOST_VARIABLES + 1, 40, 300] {
        let lines: String = (0..count).map(|number| format!("var n{}_ 0 1\n", number)).collect();
        let name = |number: usize| format!("n{}_", number);
        for used in [0, MOST_VARIABLES - 1, MOST_VARIABLES, count - 1] {
            let text = format!("{}goal eq 1 {}\n", lines, name(used));
            if used >= count {
                // Some begin with n1, and none with n16.
                let place = text.len() - 3;
                out.put(random, "18: text, no such variable among many", text.as_bytes(), Refused(18, place));
            } else if count > MOST_VARIABLES {
                out.put(random, "4: text, many variables", text.as_bytes(), Refused(4, 0));
            }
        }
        let text = format!("{}goal eq 1 {}Z\n", lines, name(count - 1));
        let label = "18: text, a name and more among many variables";
        out.put(random, label, text.as_bytes(), Refused(18, text.len() - 2));
        let all: String = (0..count).map(|number| format!("and eq 0 {} ", name(number))).collect();
        let text = format!("{}goal {}true\n", lines, all);
        if count > MOST_VARIABLES {
            out.put(random, "4: text, many variables, all read", text.as_bytes(), Refused(4, 0));
        }
        let cut = &text[..text.len() - 1];
        out.put(random, "18: text, many variables, cut short", cut.as_bytes(), Refused(18, cut.len()));
    }
}

/// A word, a number, a blank or a line far longer than any may be, or far too often.
fn one_long_word(random: &mut Random, out: &mut Output) {
    let count = 100_000;
    let cases: [(&str, String, usize); 8] = [
        ("a name", format!("var {} 0 1\n", "a".repeat(count)), 4 + LONGEST_NAME),
        ("a number", format!("var a 0 {}\n", "1".repeat(count)), 8 + 5),
        ("zeros", format!("goal eq 0 {}\n", "0".repeat(count)), 10 + 1),
        ("minuses", format!("goal eq 0 {}\n", "-".repeat(count)), 10 + 1),
        ("a word", format!("goal not{}\n", "t".repeat(count)), 8),
        ("spaces", format!("goal {}true\n", " ".repeat(count)), 5),
        ("line feeds", format!("goal true\n{}", "\n".repeat(count)), 10),
        ("zero bytes", "\0".repeat(count), 0),
    ];
    for (label, text, place) in cases {
        out.put(random, &format!("18: text, far too long, {}", label), text.as_bytes(), Refused(18, place));
    }
    let lines = "var a 0 1\n".repeat(20_000);
    out.put(random, "18: text, many lines, no goal", lines.as_bytes(), Refused(18, lines.len()));
    let text = lines + "goal lt a 1\n";
    out.put(random, "4: text, many lines", text.as_bytes(), Refused(4, 0));
}
