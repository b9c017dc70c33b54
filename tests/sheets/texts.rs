// Texts of rules at random, right ones and such as a sheet can't be made of; numbers and names about every edge.

use crate::grower::{any_size, Grower};
use crate::layout::{lay_out, node_record, variable_record};
use crate::limits::*;
use crate::nodes::mistyped;
use crate::plain::{is_word, printed, written, Written, WORDS};
use crate::random::Random;
use crate::text_questions::made;
use crate::trees::*;
use crate::trial::{Open, Output, Refused};

pub fn put_made(random: &mut Random, out: &mut Output, label: &str, rule: &Written) {
    out.ask_all(&format!("accepted: text, {}", label), &rule.text, &made(random, rule));
}

// ---- printed forms

pub fn printed_forms(random: &mut Random, out: &mut Output) {
    for _ in 0..30 {
        for variables in 0..=MOST_VARIABLES {
            put_grown(random, out, "any", variables, |grower| {
                let size = any_size(grower.random);
                grower.truth(size)
            });
        }
    }
    for _ in 0..12 {
        for kind in KINDS {
            let variables = 1 + random.below(MOST_VARIABLES);
            put_grown(random, out, &format!("a node of kind {}", kind), variables, |grower| {
                let size = 4 + grower.random.below(12);
                let tree = grower.of_kind(kind, size);
                grower.goal_with(tree)
            });
        }
    }
}

fn put_grown(
    random: &mut Random,
    out: &mut Output,
    label: &str,
    variables: usize,
    grow: impl FnOnce(&mut Grower) -> Tree,
) {
    let mut grower = Grower::new(random, variables);
    let goal = grow(&mut grower);
    let rule = written(&grower, &goal);
    put_made(random, out, label, &rule);
}

// ---- texts that are refused as their sheets would be

pub fn refused_rules(random: &mut Random, out: &mut Output) {
    for _ in 0..6 {
        for kind in KINDS {
            wrong_operands(random, out, kind);
            if gives(kind) == Integer {
                integer_goal(random, out, kind);
            }
        }
        for kind in [MINUS, SUM, DIFFERENCE, PRODUCT] {
            for _ in 0..6 {
                leaving(random, out, kind);
            }
        }
        for nodes in [31, 200, 255, 256, 1_000, 1_900] {
            late(random, out, nodes);
        }
        for place in 0..MOST_VARIABLES {
            wrong_domain(random, out, place);
            equal_name(random, out, place);
        }
        for variables in [MOST_VARIABLES + 1, MOST_VARIABLES + 2, 40] {
            too_many_variables(random, out, variables);
        }
    }
}

fn wrong_operands(random: &mut Random, out: &mut Output, kind: u8) {
    for position in 0..operand_sorts(kind).len() {
        let mut grower = Grower::any(random);
        let tree = mistyped(&mut grower, kind, |i| i == position).marked();
        let alone = tree.sort() == Truth && grower.random.one_in(2);
        let goal = if alone { tree } else { grower.goal_with(tree) };
        let rule = written(&grower, &goal);
        let label = format!("7: text, a wrong operand of kind {}", kind);
        out.put(random, &label, &rule.text, Refused(7, rule.marked[0]));
    }
}

fn integer_goal(random: &mut Random, out: &mut Output, kind: u8) {
    let (variables, size) = (1 + random.below(MOST_VARIABLES), 4 + random.below(60));
    let mut grower = Grower::new(random, variables);
    let goal = grower.of_kind(kind, size).marked();
    let rule = written(&grower, &goal);
    out.put(random, &format!("7: text, goal of kind {}", kind), &rule.text, Refused(7, rule.marked[0]));
}

/// A node with a range that leaves 16 bits by one or by much.
fn too_wide(grower: &mut Grower, kind: u8) -> Tree {
    let more = grower.random.pick(&[1, 1, 2, 1_000, HIGH]);
    let operands = match kind {
        MINUS => vec![LOW],
        SUM if more % 2 == 0 => vec![LOW, -more],
        SUM => vec![more, HIGH],
        DIFFERENCE if more % 2 == 0 => vec![HIGH, -more],
        DIFFERENCE => vec![LOW, more],
        _ => vec![256, 128 + more / 2],
    };
    let operands = operands.into_iter().map(|value| grower.with_range((value, value))).collect();
    node(kind, operands)
}

fn leaving(random: &mut Random, out: &mut Output, kind: u8) {
    let mut grower = Grower::any(random);
    let tree = too_wide(&mut grower, kind).marked();
    let goal = grower.goal_with(tree);
    let rule = written(&grower, &goal);
    out.put(random, &format!("8: text, kind {}", kind), &rule.text, Refused(8, rule.marked[0]));
}

/// Behind a truth value of so many nodes.
fn late(random: &mut Random, out: &mut Output, nodes: usize) {
    for number in [7, 8] {
        let mut grower = Grower::any(random);
        let tree = match number {
            7 => mistyped(&mut grower, 9, |i| i == 1).marked(),
            _ => {
                let sum = too_wide(&mut grower, SUM).marked();
                node(9, vec![sum, constant(0)])
            }
        };
        let goal = node(4, vec![grower.truth(nodes), tree]);
        let rule = written(&grower, &goal);
        let label = format!("{}: text, behind {} nodes", number, nodes);
        out.put(random, &label, &rule.text, Refused(number, rule.marked[0]));
    }
}

/// A grower with a variable at this place, and a goal of a few nodes, its types right or not.
fn with_variable(random: &mut Random, place: usize) -> (Grower<'_>, Tree) {
    let variables = place + 1 + random.below(MOST_VARIABLES - place);
    let mut grower = Grower::new(random, variables);
    let goal = if grower.random.one_in(2) { grower.truth(9) } else { grower.integer(9) };
    (grower, goal)
}

fn wrong_domain(random: &mut Random, out: &mut Output, place: usize) {
    let (mut grower, goal) = with_variable(random, place);
    let least = grower.random.between(LOW + 1, HIGH);
    let below = if grower.random.one_in(2) { least - 1 } else { grower.random.between(LOW, least - 1) };
    grower.variables[place].domain = (least, below);
    let text = printed(&grower.variables, &goal);
    out.put(random, "5: text, least past greatest", &text, Refused(5, place));
}

fn equal_name(random: &mut Random, out: &mut Output, place: usize) {
    if place == 0 {
        return;
    }
    let (mut grower, goal) = with_variable(random, place);
    let earlier = grower.random.below(place);
    grower.variables[place].name = grower.variables[earlier].name.clone();
    let text = printed(&grower.variables, &goal);
    out.put(random, "5: text, equal names", &text, Refused(5, place));
}

/// Whatever else is wrong; but what is off the grammar is told first, and names are looked up among all.
fn too_many_variables(random: &mut Random, out: &mut Output, variables: usize) {
    let mut grower = Grower::new(random, variables);
    let last = variable(variables - 1, grower.variables[variables - 1].domain);
    let goal = node(8, vec![last.clone(), grower.integer(5)]);
    let text = printed(&grower.variables, &goal);
    out_of_variables(random, out, "the last one read", &text);
    let mut grower = Grower::new(random, variables);
    grower.variables[variables - 1].name = grower.variables[0].name.clone();
    grower.variables[1].domain = (1, 0);
    let goal = grower.integer(7);
    let text = printed(&grower.variables, &goal);
    out_of_variables(random, out, "other faults", &text);
}

fn out_of_variables(random: &mut Random, out: &mut Output, label: &str, text: &[u8]) {
    out.put(random, &format!("4: text, too many variables, {}", label), text, Refused(4, 0));
    let cut = &text[..text.len() - 1];
    out.put(random, "18: text, too many variables, cut short", cut, Refused(18, cut.len()));
    let unknown = [cut, b" true\n"].concat();
    out.put(random, "18: text, too many variables, an operand too many", &unknown, Refused(18, cut.len()));
}

// ---- numbers

/// Numbers that are off, and the byte at which they are.
const OFF: [(&str, usize); 27] = [
    ("-32769", 5),
    ("32768", 4),
    ("32769", 4),
    ("-0", 1),
    ("-00", 1),
    ("-01", 1),
    ("00", 1),
    ("01", 1),
    ("007", 1),
    ("+1", 0),
    ("+0", 0),
    ("99999", 4),
    ("-99999", 5),
    ("65535", 4),
    ("65536", 4),
    ("100000", 5),
    ("-100000", 6),
    ("3276700", 5),
    ("-3276800", 6),
    ("4294967296", 4),
    ("18446744073709551617", 5),
    ("99999999999999999999999999999999999999999999999999", 4),
    ("--1", 1),
    ("1-", 1),
    ("1.5", 1),
    ("0x1", 1),
    ("1e3", 1),
];

pub fn numbers(random: &mut Random, out: &mut Output) {
    for (number, off) in OFF {
        for (before, behind) in
            [("var x ", " 5\ngoal true\n"), ("var x -3 ", "\ngoal true\n"), ("goal eq 0 ", "\n")]
        {
            let text = [before, number, behind].concat();
            let place = before.len() + off;
            out.put(random, "18: text, no number", text.as_bytes(), Refused(18, place));
        }
    }
    let about = [LOW, -10_000, -1_000, -100, -10, 0, 10, 100, 1_000, 10_000, HIGH];
    let near = about.iter().flat_map(|value| value - 12..=value + 12);
    let any: Vec<i64> = (0..60).map(|_| random.between(2 * LOW, 2 * HIGH)).collect();
    for value in near.chain(any) {
        one_number(random, out, value);
    }
}

/// As a variable's least and greatest value, and in the goal.
fn one_number(random: &mut Random, out: &mut Output, value: i64) {
    let domains = [(value, HIGH), (LOW, value)];
    let lines = domains.map(|(least, greatest)| format!("var x {} {}\ngoal true\n", least, greatest));
    let goal = format!("goal eq {} 0\n", value);
    if !(LOW..=HIGH).contains(&value) {
        for text in lines.iter().chain([&goal]) {
            out.put(random, "18: text, a number past 16 bits", text.as_bytes(), Open);
        }
        return;
    }
    for (text, (least, greatest)) in lines.into_iter().zip(domains) {
        let sheet = lay_out(&[variable_record(least, greatest, b"x")], &[node_record(1, &[], 0)]);
        let rule = Written { text: text.into_bytes(), sheet, marked: Vec::new() };
        put_made(random, out, "a number of 16 bits", &rule);
    }
    let records = [node_record(16, &[], value as u16), node_record(16, &[], 0), node_record(8, &[0, 1], 0)];
    let rule = Written { text: goal.into_bytes(), sheet: lay_out(&[], &records), marked: Vec::new() };
    put_made(random, out, "a number of 16 bits", &rule);
}

// ---- names

/// Words, their beginnings, and words with something behind them or otherwise near.
fn near_words() -> Vec<String> {
    let mut names = Vec::new();
    for word in WORDS.iter().map(|row| row.1).chain(["var", "goal"]) {
        names.extend((1..=word.len()).map(|length| word[..length].to_string()));
        names.extend(["a", "s", "t", "0", "9", "_", "A", "aaaaaaaaa"].map(|more| word.to_string() + more));
        names.extend([word.to_uppercase(), word[1..].to_string(), "x".to_string() + word]);
    }
    names
}

pub fn names(random: &mut Random, out: &mut Output) {
    let near = near_words();
    for name in &near {
        declared(random, out, name);
        let other = near[random.below(near.len())].clone();
        undeclared(random, out, name, &other);
    }
    lengths(random, out);
    alike(random, out);
}

fn declared(random: &mut Random, out: &mut Output, name: &str) {
    let text = format!("var {0} 0 1\ngoal eq {0} 1\n", name);
    if is_word(name.as_bytes()) {
        let expected = Refused(18, "var ".len() + name.len());
        return out.put(random, "18: text, a word for a name", text.as_bytes(), expected);
    }
    let records = [node_record(17, &[0], 0), node_record(16, &[], 1), node_record(8, &[0, 1], 0)];
    let sheet = lay_out(&[variable_record(0, 1, name.as_bytes())], &records);
    let rule = Written { text: text.into_bytes(), sheet, marked: Vec::new() };
    put_made(random, out, "a name near a word", &rule);
}

/// A name that isn't declared, beside others that are.
fn undeclared(random: &mut Random, out: &mut Output, name: &str, other: &str) {
    let shorter = &name[..name.len() - 1];
    for beside in [other, &format!("{}x", name), &format!("{}1", name), shorter, "unlike"] {
        let lines = if is_word(beside.as_bytes()) || beside.is_empty() {
            String::new()
        } else {
            format!("var {} 0 1\n", beside)
        };
        for goal in [format!("eq 1 {}", name), format!("not eq {} 1", name), name.to_string()] {
            let text = format!("{}goal {}\n", lines, goal);
            out.put(random, "any: text, a name that isn't declared", text.as_bytes(), Open);
        }
    }
}

fn lengths(random: &mut Random, out: &mut Output) {
    for length in [1, LONGEST_NAME - 1, LONGEST_NAME, LONGEST_NAME + 1, LONGEST_NAME + 2, 255, 256, 257] {
        let name: String = "goal_post_number_".chars().cycle().take(length).collect();
        if length <= LONGEST_NAME {
            declared(random, out, &name);
        } else {
            let text = format!("var {} 0 1\ngoal true\n", name);
            let expected = Refused(18, "var ".len() + LONGEST_NAME);
            out.put(random, "18: text, a name too long", text.as_bytes(), expected);
            let (declared, used) = (&name[..LONGEST_NAME], &name);
            let text = format!("var {} 0 1\ngoal eq 1 {}\n", declared, used);
            let place = text.len() - 1 - used.len() + LONGEST_NAME;
            out.put(random, "18: text, a name with a byte too many", text.as_bytes(), Refused(18, place));
        }
    }
}

/// Names each of which is the next one's beginning; of a name that is longer or shorter than all, the place is known.
fn alike(random: &mut Random, out: &mut Output) {
    let name = "zabcdefghijklmno";
    for from in 2..=6 {
        let declared: Vec<&str> = (from..=from + 8).map(|length| &name[..length]).collect();
        let lines: String = declared.iter().map(|name| format!("var {} 0 1\n", name)).collect();
        let used = |name: &str| format!("{}goal lt {} 1\n", lines, name);
        for used_length in 1..from + 12 {
            let text = used(&name[..used_length.min(name.len())]);
            out.put(random, "any: text, names that begin alike", text.as_bytes(), Open);
        }
        let shorter = used(&name[..from - 1]);
        let behind = lines.len() + "goal lt ".len() + from - 1;
        out.put(random, "18: text, a beginning of declared names", shorter.as_bytes(), Refused(18, behind));
        let longer = used(&name[..from + 9]);
        out.put(random, "18: text, a declared name and more", longer.as_bytes(), Refused(18, behind + 9));
        let other = used(&format!("{}Z", &name[..from]));
        out.put(random, "18: text, a declared name and more", other.as_bytes(), Refused(18, behind + 1));
    }
}
