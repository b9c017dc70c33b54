//! Closed terms and scripts with the verdicts that z3 and cvc5 give, written as data for crates/smtlib/proofs.
//! Usage: vectors SCRIPTS OUT-FOLDER. It fails where a solver says of a term or a script something else than the list does.

use std::fmt::Write as _;
use std::io::Write as _;
use std::process::{exit, Command, Stdio};

fn main() {
    let args: Vec<String> = std::env::args().collect();
    if args.len() != 3 {
        eprintln!("usage: vectors SCRIPTS OUT-FOLDER");
        exit(2);
    }
    let terms = terms();
    judge_terms(&terms);
    write(&args[2], "TermData.antt", &term_data(&terms));
    let cases = read_cases(&args[1]);
    let judged: Vec<Judged> = cases.iter().map(judge).collect();
    write(&args[2], "ScriptData.antt", &script_data(&cases, &judged));
    write(&args[2], "DecisionData.antt", &decision_data(&cases, &judged));
    println!("{} terms and {} scripts: z3 and cvc5 answer as the list says", terms.len(), cases.len());
}

fn fail(message: &str) -> ! {
    eprintln!("vectors: {message}");
    exit(1)
}

fn write(folder: &str, name: &str, text: &str) {
    let path = format!("{folder}/{name}");
    if std::fs::write(&path, text).is_err() {
        fail(&format!("cannot write {path}"));
    }
}

// ---- the solvers

const SOLVERS: [(&str, &[&str]); 2] =
    [("z3", &["-in"]), ("cvc5", &["--incremental", "--lang", "smt2", "--strict-parsing"])];

/// How the solvers are called.
fn calls() -> String {
    SOLVERS.map(|s| format!("{} {}", s.0, s.1.join(" "))).join("; ")
}

/// The answers to check-sat, in order; none where the solver reports an error or leaves a check-sat or get-value unanswered.
fn ask(solver: &(&str, &[&str]), script: &[u8]) -> Option<Vec<bool>> {
    let child = Command::new(solver.0)
        .args(solver.1)
        .stdin(Stdio::piped())
        .stdout(Stdio::piped())
        .stderr(Stdio::piped())
        .spawn();
    let mut child = child.unwrap_or_else(|_| fail(&format!("{} does not start", solver.0)));
    let mut input = child.stdin.take().unwrap();
    let bytes = script.to_vec();
    let feeder = std::thread::spawn(move || {
        let _ = input.write_all(&bytes);
    });
    let out = child.wait_with_output().unwrap();
    feeder.join().unwrap();
    let (answers, values) = answered(&words(&out.stdout))?;
    let commands = words(script);
    let count = |name: &str| commands.iter().filter(|w| w.1 == name).count();
    if out.status.success() && answers.len() == count("check-sat") && values == count("get-value") {
        Some(answers)
    } else {
        None
    }
}

/// The answers to check-sat among a solver's words, and how many lists of values there are; none where it says anything else.
fn answered(said: &[(usize, String)]) -> Option<(Vec<bool>, usize)> {
    let (mut answers, mut values, mut depth) = (Vec::new(), 0, 0);
    for (i, (_, word)) in said.iter().enumerate() {
        match (depth, word.as_str()) {
            (0, "sat") => answers.push(true),
            (0, "unsat") => answers.push(false),
            // a list of values begins with a pair: an error doesn't
            (0, "(") if said.get(i + 1)?.1 == "(" => {
                values += 1;
                depth = 1;
            }
            (0, _) => return None,
            (_, "(") => depth += 1,
            (_, ")") => depth -= 1,
            _ => {}
        }
    }
    Some((answers, values))
}

/// What the solvers that accept the script answer; the others must refuse it.
fn answers_of(accepts: [bool; 2], script: &[u8]) -> Vec<bool> {
    let mut said = None;
    for (solver, accepts) in SOLVERS.iter().zip(accepts) {
        let answers = ask(solver, script);
        if answers.is_some() != accepts || (accepts && said.is_some() && said != answers) {
            fail(&format!("{} says {answers:?} of\n{}", solver.0, String::from_utf8_lossy(script)));
        }
        said = said.or(answers);
    }
    said.unwrap_or_default()
}

// ---- closed terms

#[derive(Clone, Copy, PartialEq)]
enum Value {
    Truth(bool),
    Bits(u32, u32),
}

type Term = (String, Value);

struct Random(u64);

impl Random {
    fn below(&mut self, n: usize) -> usize {
        self.0 = self.0.wrapping_mul(6364136223846793005).wrapping_add(1442695040888963407);
        ((self.0 >> 33) % n as u64) as usize
    }
    fn pick<'a, T>(&mut self, list: &'a [T]) -> &'a T {
        &list[self.below(list.len())]
    }
}

const UNARY: [&str; 2] = ["bvnot", "bvneg"];
const BINARY: [&str; 5] = ["bvand", "bvor", "bvadd", "bvmul", "bvsub"];
/// These take two or more arguments, from the left.
const FROM_LEFT: [&str; 4] = ["bvand", "bvor", "bvadd", "bvmul"];
const ORDER: [&str; 8] = ["bvult", "bvule", "bvugt", "bvuge", "bvslt", "bvsle", "bvsgt", "bvsge"];
const CORE: [&str; 6] = ["and", "or", "xor", "=>", "=", "distinct"];

fn mask(w: u32) -> u32 {
    (1 << w) - 1
}

fn unary(name: &str, w: u32, x: u32) -> u32 {
    (if name == "bvnot" { !x } else { x.wrapping_neg() }) & mask(w)
}

fn binary(name: &str, w: u32, x: u32, y: u32) -> u32 {
    let r = match name {
        "bvand" => x & y,
        "bvor" => x | y,
        "bvadd" => x.wrapping_add(y),
        "bvmul" => x.wrapping_mul(y),
        _ => x.wrapping_sub(y),
    };
    r & mask(w)
}

fn from_left(name: &str, w: u32, v: &[u32]) -> u32 {
    v[1..].iter().fold(v[0], |x, y| binary(name, w, x, *y))
}

fn order(name: &str, w: u32, x: u32, y: u32) -> bool {
    let signed = |v: u32| (((v << (32 - w)) as i32) >> (32 - w)) as i64;
    let (a, b) = if name.starts_with("bvs") { (signed(x), signed(y)) } else { (x as i64, y as i64) };
    match &name[3..] {
        "lt" => a < b,
        "le" => a <= b,
        "gt" => a > b,
        _ => a >= b,
    }
}

fn core(name: &str, v: &[bool]) -> bool {
    match name {
        "and" => v.iter().all(|x| *x),
        "or" => v.iter().any(|x| *x),
        "xor" => v.iter().filter(|x| **x).count() % 2 == 1,
        "=>" => v[..v.len() - 1].iter().any(|x| !x) || v[v.len() - 1],
        "=" => v.windows(2).all(|p| p[0] == p[1]),
        _ => v.len() == 2 && v[0] != v[1],
    }
}

fn literal(hex: bool, w: u32, n: u32) -> String {
    if hex && w % 4 == 0 {
        format!("#x{:0width$x}", n, width = (w / 4) as usize)
    } else {
        format!("#b{:0width$b}", n, width = w as usize)
    }
}

fn truth_text(b: bool) -> String {
    (if b { "true" } else { "false" }).to_string()
}

/// A random term of a width, and its number.
fn vector(r: &mut Random, w: u32, depth: u32) -> (String, u32) {
    if depth == 0 || r.below(6) == 0 {
        let n = [0, 1, mask(w), 1 << (w - 1), (1 << (w - 1)) - 1, r.below(1 << w) as u32][r.below(6)];
        return (literal(r.below(2) == 0, w, n), n);
    }
    match r.below(8) {
        0 | 1 => {
            let f = *r.pick(&UNARY);
            let (a, x) = vector(r, w, depth - 1);
            (format!("({f} {a})"), unary(f, w, x))
        }
        2 => {
            let (c, z) = truth(r, depth - 1);
            let (a, x) = vector(r, w, depth - 1);
            let (b, y) = vector(r, w, depth - 1);
            (format!("(ite {c} {a} {b})"), if z { x } else { y })
        }
        3 => {
            let f = *r.pick(&FROM_LEFT);
            let parts: Vec<(String, u32)> = (0..3 + r.below(2)).map(|_| vector(r, w, depth - 1)).collect();
            let texts: Vec<&str> = parts.iter().map(|p| p.0.as_str()).collect();
            let n: Vec<u32> = parts.iter().map(|p| p.1).collect();
            (format!("({f} {})", texts.join(" ")), from_left(f, w, &n))
        }
        _ => {
            let f = *r.pick(&BINARY);
            let (a, x) = vector(r, w, depth - 1);
            let (b, y) = vector(r, w, depth - 1);
            (format!("({f} {a} {b})"), binary(f, w, x, y))
        }
    }
}

/// A random term of sort Bool, and its value.
fn truth(r: &mut Random, depth: u32) -> (String, bool) {
    if depth == 0 {
        let b = r.below(2) == 0;
        return (truth_text(b), b);
    }
    let w = 1 + r.below(16) as u32;
    match r.below(8) {
        0 => {
            let (a, x) = truth(r, depth - 1);
            (format!("(not {a})"), !x)
        }
        1 => {
            let (c, z) = truth(r, depth - 1);
            let (a, x) = truth(r, depth - 1);
            let (b, y) = truth(r, depth - 1);
            (format!("(ite {c} {a} {b})"), if z { x } else { y })
        }
        2 => {
            let parts: Vec<(String, u32)> = (0..2 + r.below(2)).map(|_| vector(r, w, depth - 1)).collect();
            let texts: Vec<&str> = parts.iter().map(|p| p.0.as_str()).collect();
            let n: Vec<u32> = parts.iter().map(|p| p.1).collect();
            if r.below(2) == 0 {
                (format!("(= {})", texts.join(" ")), n.windows(2).all(|p| p[0] == p[1]))
            } else {
                let apart = (0..n.len()).all(|i| (0..i).all(|j| n[i] != n[j]));
                (format!("(distinct {})", texts.join(" ")), apart)
            }
        }
        3 | 4 => {
            let f = *r.pick(&CORE);
            let parts: Vec<(String, bool)> = (0..2 + r.below(3)).map(|_| truth(r, depth - 1)).collect();
            let texts: Vec<&str> = parts.iter().map(|p| p.0.as_str()).collect();
            let v: Vec<bool> = parts.iter().map(|p| p.1).collect();
            (format!("({f} {})", texts.join(" ")), core(f, &v))
        }
        _ => {
            let f = *r.pick(&ORDER);
            let (a, x) = vector(r, w, depth - 1);
            let (b, y) = vector(r, w, depth - 1);
            (format!("({f} {a} {b})"), order(f, w, x, y))
        }
    }
}

/// All of width 2 (unary: 3, three arguments: 1), all triples of truth values, and then random terms.
fn terms() -> Vec<Term> {
    let mut out = Vec::new();
    for x in 0..4 {
        for y in 0..4 {
            let (a, b) = (literal(false, 2, x), literal(false, 2, y));
            for f in BINARY {
                out.push((format!("({f} {a} {b})"), Value::Bits(2, binary(f, 2, x, y))));
            }
            for f in ORDER {
                out.push((format!("({f} {a} {b})"), Value::Truth(order(f, 2, x, y))));
            }
        }
    }
    for x in 0..8 {
        for f in UNARY {
            out.push((format!("({f} {})", literal(false, 3, x)), Value::Bits(3, unary(f, 3, x))));
        }
    }
    for k in 0..8 {
        let v = [k & 4 != 0, k & 2 != 0, k & 1 != 0];
        let n = v.map(u32::from);
        for f in FROM_LEFT {
            let texts = n.map(|x| literal(false, 1, x));
            out.push((format!("({f} {})", texts.join(" ")), Value::Bits(1, from_left(f, 1, &n))));
        }
        let texts: Vec<String> = v.iter().map(|b| truth_text(*b)).collect();
        for f in CORE {
            out.push((format!("({f} {})", texts.join(" ")), Value::Truth(core(f, &v))));
        }
    }
    let mut r = Random(2026);
    let mut count = 0;
    while count < 280 {
        let depth = 2 + r.below(2) as u32;
        let term = if r.below(2) == 0 {
            let (t, b) = truth(&mut r, depth);
            (t, Value::Truth(b))
        } else {
            let w = 1 + r.below(16) as u32;
            let (t, n) = vector(&mut r, w, depth);
            (t, Value::Bits(w, n))
        };
        if term.0.starts_with('(') && term.0.len() <= 100 && !out.contains(&term) {
            out.push(term);
            count += 1;
        }
    }
    out
}

/// Each term equals its value, and does not differ from it.
fn judge_terms(terms: &[Term]) {
    let mut script = String::from("(set-logic QF_BV)\n");
    for (t, v) in terms {
        let e = match v {
            Value::Truth(b) => truth_text(*b),
            Value::Bits(w, n) => literal(false, *w, *n),
        };
        let _ = write!(script, "(push 1)(assert (= {t} {e}))(check-sat)(pop 1)\n(push 1)(assert (not (= {t} {e})))(check-sat)(pop 1)\n");
    }
    script.push_str("(exit)\n");
    let answers = answers_of([true, true], script.as_bytes());
    for (i, (t, _)) in terms.iter().enumerate() {
        if !answers[2 * i] || answers[2 * i + 1] {
            fail(&format!("the solvers give another value to {t}"));
        }
    }
}

// ---- scripts

/// The kinds of verdicts: the heading in the list of scripts, which solvers accept these scripts, and whether they are read in crates/smtlib.
struct Section {
    heading: &'static str,
    accepts: [bool; 2],
    read: bool,
}

const ACCEPTED: usize = 0;
const REFUSED: usize = 1;
const SECTIONS: [Section; 8] = [
    Section { heading: "[accepted]", accepts: [true, true], read: true },
    Section { heading: "[refused]", accepts: [false, false], read: false },
    Section { heading: "[z3 alone]", accepts: [true, false], read: false },
    Section { heading: "[cvc5 alone]", accepts: [false, true], read: false },
    Section { heading: "[against the standard]", accepts: [true, true], read: false },
    Section { heading: "[not read]", accepts: [true, true], read: false },
    Section { heading: "[z3 alone, read]", accepts: [true, false], read: true },
    Section { heading: "[cvc5 alone, read]", accepts: [false, true], read: true },
];

struct Case {
    script: Vec<u8>,
    section: usize,
    at: Vec<Vec<u32>>,
}

enum Judged {
    /// no script here
    Refused,
    /// all the settings that satisfy it
    All(Vec<Vec<u32>>),
    /// some settings, and whether they satisfy it
    Some(Vec<(Vec<u32>, bool)>),
}

fn unescape(line: &str) -> Vec<u8> {
    let b = line.as_bytes();
    let mut out = Vec::new();
    let mut i = 0;
    while i < b.len() {
        if b[i] != b'\\' {
            out.push(b[i]);
            i += 1;
            continue;
        }
        i += 2;
        match b[i - 1] {
            b'n' => out.push(10),
            b'r' => out.push(13),
            b't' => out.push(9),
            b'\\' => out.push(92),
            b'x' => {
                out.push(u8::from_str_radix(&line[i..i + 2], 16).unwrap());
                i += 2;
            }
            _ => fail(&format!("an unknown escape in {line}")),
        }
    }
    out
}

fn read_cases(path: &str) -> Vec<Case> {
    let text = std::fs::read_to_string(path).unwrap_or_else(|_| fail(&format!("cannot read {path}")));
    let mut cases: Vec<Case> = Vec::new();
    let mut section = 0;
    for line in text.lines() {
        if line.is_empty() || line.starts_with('#') {
        } else if let Some(k) = SECTIONS.iter().position(|s| s.heading == line) {
            section = k;
        } else if let Some(numbers) = line.strip_prefix("at ") {
            let setting = numbers.split(' ').map(|n| n.parse().unwrap()).collect();
            cases.last_mut().unwrap().at.push(setting);
        } else {
            cases.push(Case { script: unescape(line), section, at: Vec::new() });
        }
    }
    cases
}

/// The words and parentheses of a script, and where each begins.
fn words(s: &[u8]) -> Vec<(usize, String)> {
    let mut out = Vec::new();
    let mut i = 0;
    while i < s.len() {
        let start = i;
        match s[i] {
            b' ' | b'\t' | b'\r' | b'\n' => {
                i += 1;
                continue;
            }
            b';' => {
                while i < s.len() && s[i] != b'\n' && s[i] != b'\r' {
                    i += 1;
                }
                continue;
            }
            b'(' | b')' => i += 1,
            b'|' => {
                i += 1;
                while i < s.len() && s[i] != b'|' {
                    i += 1;
                }
                i = s.len().min(i + 1);
            }
            _ => {
                while i < s.len() && !b" \t\r\n;()|".contains(&s[i]) {
                    i += 1;
                }
            }
        }
        out.push((start, s[start..i].iter().map(|c| *c as char).collect()));
    }
    out
}

/// The declared symbols with their widths (0: Bool), and where the last command, exit, begins.
fn declared(s: &[u8]) -> (Vec<(String, u32)>, usize) {
    let w = words(s);
    let mut symbols = Vec::new();
    let mut end = 0;
    for i in 0..w.len() {
        if w[i].1 == "declare-fun" {
            let width = if w[i + 4].1 == "(" { w[i + 7].1.parse().unwrap() } else { 0 };
            symbols.push((w[i + 1].1.clone(), width));
        }
        if w[i].1 == "exit" {
            end = w[i - 1].0;
        }
    }
    (symbols, end)
}

fn latin1(text: &str) -> Vec<u8> {
    text.chars().map(|c| c as u8).collect()
}

fn pinned(symbols: &[(String, u32)], setting: &[u32]) -> Vec<u8> {
    let mut out = String::from("(push 1)");
    for ((name, width), n) in symbols.iter().zip(setting) {
        let _ = match (width, n) {
            (0, 0) => write!(out, "(assert (not {name}))"),
            (0, _) => write!(out, "(assert {name})"),
            _ => write!(out, "(assert (= {name} (_ bv{n} {width})))"),
        };
    }
    out.push_str("(check-sat)(pop 1)\n");
    latin1(&out)
}

fn all_settings(symbols: &[(String, u32)]) -> Vec<Vec<u32>> {
    let mut out = vec![Vec::new()];
    for (_, width) in symbols {
        let size = 1u32 << (*width).max(1);
        out = out.iter().flat_map(|s| (0..size).map(move |n| [s.as_slice(), &[n]].concat())).collect();
    }
    out
}

fn judge(case: &Case) -> Judged {
    let shown = String::from_utf8_lossy(&case.script).to_string();
    let section = &SECTIONS[case.section];
    let answers = answers_of(section.accepts, &case.script);
    if !section.read {
        return Judged::Refused;
    }
    let (symbols, end) = declared(&case.script);
    let settings = if case.at.is_empty() { all_settings(&symbols) } else { case.at.clone() };
    if case.at.is_empty() && settings.len() > 64 {
        fail(&format!("more than 64 settings: name some by `at` lines\n{shown}"));
    }
    let mut script = case.script[..end].to_vec();
    for s in &settings {
        if s.len() != symbols.len() {
            fail(&format!("a setting of another length\n{shown}"));
        }
        script.extend(pinned(&symbols, s));
    }
    script.extend(b"(exit)\n");
    let pins = answers_of(section.accepts, &script);
    let pins = &pins[pins.len() - settings.len()..];
    if case.at.is_empty() {
        let met: Vec<Vec<u32>> = settings.iter().zip(pins).filter(|p| *p.1).map(|p| p.0.clone()).collect();
        if answers.last() != Some(&!met.is_empty()) {
            fail(&format!("the settings and the answer disagree\n{shown}"));
        }
        Judged::All(met)
    } else {
        if !pins.contains(&true) || !pins.contains(&false) || answers.last() != Some(&true) {
            fail(&format!("the settings named should be some that do and some that don't\n{shown}"));
        }
        Judged::Some(settings.iter().cloned().zip(pins.iter().copied()).collect())
    }
}

// ---- the data

fn quoted(bytes: &[u8]) -> String {
    let mut out = String::from("\"");
    for c in bytes {
        match c {
            b'"' => out.push_str("\\\""),
            b'\\' => out.push_str("\\\\"),
            b'\n' => out.push_str("\\n"),
            b'\r' => out.push_str("\\r"),
            b'\t' => out.push_str("\\t"),
            0 => out.push_str("\\0"),
            32..=126 | 161..=255 => out.push(*c as char),
            _ => {
                let _ = write!(out, "\\u{{{c:x}}}");
            }
        }
    }
    out.push('"');
    out
}

fn numbers(s: &[u32]) -> String {
    let mut out = String::new();
    for n in s {
        let _ = write!(out, "{n} ∷ ");
    }
    out.push_str("[]");
    out
}

fn listed(name: &str, of: &str, rows: &[String]) -> String {
    let mut out = format!("abbrev pub {name} : List ({of})\n{name} =\n    ");
    for row in rows {
        let _ = write!(out, "{row}\n    ∷ ");
    }
    out.push_str("[]\n");
    out
}

fn term_data(terms: &[Term]) -> String {
    let rows: Vec<String> = terms
        .iter()
        .map(|(t, v)| match v {
            Value::Truth(b) => format!("({}, truth {b})", quoted(t.as_bytes())),
            Value::Bits(w, n) => format!("({}, bits {w} {n})", quoted(t.as_bytes())),
        })
        .collect();
    format!(
        "-- Closed terms with the values that z3 and cvc5 give them ({}). Written by tests/smtlib/vectors.rs.
use Prim.Native.String.{{String}}
use mathlib.Core.Bool.{{true, false}}
use mathlib.Core.List.{{List, [], ◌∷◌}}
use Rattle.smtlib.specs.Values.{{Value, truth, bits}}

{}",
        calls(),
        listed("terms", "String × Value", &rows)
    )
}

fn one_setting(s: &[u32]) -> String {
    format!("({}) ∷ ", numbers(s))
}

fn one_trial((s, met): &(Vec<u32>, bool)) -> String {
    format!("({}, {met}) ∷ ", numbers(s))
}

/// The rows of a section: of scripts that are no script here, that have all their settings, or some.
fn rows(cases: &[Case], judged: &[Judged], section: usize) -> [Vec<String>; 3] {
    let mut out = [Vec::new(), Vec::new(), Vec::new()];
    for (case, verdict) in cases.iter().zip(judged).filter(|c| c.0.section == section) {
        let text = quoted(&case.script);
        match verdict {
            Judged::Refused => out[0].push(text),
            Judged::All(met) => {
                out[1].push(format!("({text}, {}[])", met.iter().map(|s| one_setting(s)).collect::<String>()))
            }
            Judged::Some(tried) => {
                out[2].push(format!("({text}, {}[])", tried.iter().map(one_trial).collect::<String>()))
            }
        }
    }
    out
}

/// A data file's first lines; the last word is what it imports of truth values.
fn opening(about: &str, truths: &str) -> String {
    format!(
        "-- {about} ({}). Written by tests/smtlib/vectors.rs from tests/smtlib/scripts.txt.
use Prim.Native.Nat.{{ℕ}}
use Prim.Native.String.{{String}}
{truths}use mathlib.Core.List.{{List, [], ◌∷◌}}
",
        calls()
    )
}

const SETTINGS: &str = "String × List (List ℕ)";

fn script_data(cases: &[Case], judged: &[Judged]) -> String {
    let [_, all, some] = rows(cases, judged, ACCEPTED);
    let [refused, _, _] = rows(cases, judged, REFUSED);
    format!(
        "{}
-- accepted, with every setting that satisfies them, the first symbol's number slowest
{}
-- accepted, with some settings and whether they satisfy them
{}
-- refused
{}",
        opening(
            "Scripts of which z3 and cvc5 say the same",
            "use mathlib.Core.Bool.{Bool, true, false}\n"
        ),
        listed("satisfied", SETTINGS, &all),
        listed("tried", "String × List (List ℕ × Bool)", &some),
        listed("refused", "String", &refused)
    )
}

fn decision_data(cases: &[Case], judged: &[Judged]) -> String {
    let list = |name: &str, section: usize| {
        let [refused, all, _] = rows(cases, judged, section);
        if SECTIONS[section].read {
            listed(name, SETTINGS, &all)
        } else {
            listed(name, "String", &refused)
        }
    };
    format!(
        "{}
-- z3 accepts these, and cvc5 refuses them
{}
-- cvc5 accepts these, and z3 refuses them
{}
-- both accept these, and SMT-LIB doesn't
{}
-- both accept these, as SMT-LIB does
{}
-- z3 accepts these, as SMT-LIB does, and cvc5 refuses them; with every setting that z3 finds to satisfy them
{}
-- cvc5 accepts these, as SMT-LIB does, and z3 refuses them or leaves a question unanswered; with every setting that cvc5 finds to satisfy them
{}",
        opening("Scripts of which z3, cvc5, SMT-LIB and the reading of crates/smtlib don't say the same", ""),
        list("by_z3", 2),
        list("by_cvc5", 3),
        list("against_standard", 4),
        list("not_read", 5),
        list("read_with_z3", 6),
        list("read_with_cvc5", 7)
    )
}
