// Ranges that leave -32,768..32,767 (refusal 8), by one and by far, and ranges that just do not.

use crate::grower::{any_size, Grower};
use crate::limits::MOST_VARIABLES;
use crate::random::Random;
use crate::trees::*;
use crate::trial::{Accepted, Output, Refused};

pub fn make(random: &mut Random, out: &mut Output) {
    for _ in 0..25 {
        for end in [End::High, End::Low] {
            for kind in [SUM, DIFFERENCE] {
                at_the_end(random, out, kind, end);
            }
            for corner in CORNERS {
                product_at_the_end(random, out, end, corner);
            }
            for kind in CONSTANT..=CHOICE {
                probe(random, out, kind, end);
            }
        }
        minus(random, out);
        far(random, out);
    }
}

#[derive(Clone, Copy, PartialEq)]
enum End {
    Low,
    High,
}

impl End {
    fn name(self) -> &'static str {
        if self == End::Low {
            "low"
        } else {
            "high"
        }
    }

    /// The last value that fits.
    fn value(self) -> i64 {
        if self == End::Low {
            LOW
        } else {
            HIGH
        }
    }

    /// One step out of the range.
    fn step(self) -> i64 {
        if self == End::Low {
            -1
        } else {
            1
        }
    }
}

/// Puts a sheet with this node: refused at it if it leaves, accepted if it passes.
fn put(
    random: &mut Random,
    out: &mut Output,
    label: &str,
    grow: impl FnOnce(&mut Grower) -> Tree,
    leaves: bool,
) {
    let variables = random.below(8);
    let mut grower = Grower::new(random, variables);
    let tree = grow(&mut grower).marked();
    // Nothing is over a faulty node half of the time, so that it is the last.
    let goal = if leaves && grower.random.one_in(2) { tree } else { grower.goal_with(tree) };
    let table = Table::of(&goal);
    let sheet = grower.sheet(&table);
    if leaves {
        out.put(random, &format!("8: {}", label), &sheet, Refused(8, table.marked[0]));
    } else {
        out.put(random, &format!("accepted: {}", label), &sheet, Accepted);
    }
}

/// A sum or difference that reaches just this end, and one that goes one further.
fn at_the_end(random: &mut Random, out: &mut Output, kind: u8, end: End) {
    for (how, leaves) in [("exactly", false), ("by one", true)] {
        let target = end.value() + if leaves { end.step() } else { 0 };
        let (a, b) = reaching(random, kind, end, target);
        let label = format!("kind {} at the {} end, {}", kind, end.name(), how);
        put(
            random,
            out,
            &label,
            |grower| node(kind, vec![grower.with_range(a), grower.with_range(b)]),
            leaves,
        );
    }
}

/// Two ranges whose sum or difference has this value at this end and fits at the other.
fn reaching(random: &mut Random, kind: u8, end: End, target: i64) -> (Range, Range) {
    loop {
        let x = random.between(LOW, HIGH);
        let y = if kind == SUM { target - x } else { x - target };
        if !fits((y, y)) {
            continue;
        }
        let (x_width, y_width) = (width(random), width(random));
        let a = if end == End::High { (x - x_width, x) } else { (x, x + x_width) };
        // The greatest difference takes the least of its second operand.
        let b = if (end == End::High) == (kind == SUM) { (y - y_width, y) } else { (y, y + y_width) };
        let (least, greatest) = if kind == SUM { (a.0 + b.0, a.1 + b.1) } else { (a.0 - b.1, a.1 - b.0) };
        let other_end_fits = if end == End::High { least >= LOW } else { greatest <= HIGH };
        if fits(a) && fits(b) && other_end_fits {
            return (a, b);
        }
    }
}

fn width(random: &mut Random) -> i64 {
    let most = random.pick(&[0, 1, 20, 10_000]);
    random.between(0, most)
}

/// Which ends of the two ranges make the product that reaches the target.
const CORNERS: [(End, End); 4] =
    [(End::Low, End::Low), (End::High, End::High), (End::Low, End::High), (End::High, End::Low)];

/// The greatest product comes of like ends and the least of unlike ones, wherever it is the only one.
fn corner_can_reach(end: End, corner: (End, End)) -> bool {
    (corner.0 == corner.1) == (end == End::High)
}

fn product_at_the_end(random: &mut Random, out: &mut Output, end: End, corner: (End, End)) {
    if !corner_can_reach(end, corner) {
        return;
    }
    for (how, leaves) in [("exactly", false), ("by one", true)] {
        let target = end.value() + if leaves { end.step() } else { 0 };
        let (a, b) = factors(random, target, corner);
        let label = format!(
            "kind 21 at the {} end by {} times {}, {}",
            end.name(),
            corner.0.name(),
            corner.1.name(),
            how
        );
        put(
            random,
            out,
            &label,
            |grower| node(PRODUCT, vec![grower.with_range(a), grower.with_range(b)]),
            leaves,
        );
    }
}

/// Two ranges, neither a single value, of whose four products of ends just this one is the target and
/// the others fit.
fn factors(random: &mut Random, target: i64, corner: (End, End)) -> (Range, Range) {
    let divisors: Vec<i64> =
        (LOW..=HIGH).filter(|&x| x != 0 && target % x == 0 && fits((target / x, target / x))).collect();
    loop {
        let x = random.pick(&divisors);
        let (a, b) = (with_end(random, x, corner.0), with_end(random, target / x, corner.1));
        let products = [a.0 * b.0, a.0 * b.1, a.1 * b.0, a.1 * b.1];
        let others: Vec<i64> = products.iter().copied().filter(|&product| product != target).collect();
        if fits(a) && fits(b) && others.len() == 3 && others.iter().all(|&product| fits((product, product))) {
            return (a, b);
        }
    }
}

/// A range of two values or more that has this one at this end.
fn with_end(random: &mut Random, value: i64, end: End) -> Range {
    let most = random.pick(&[1, 5, 300, 30_000]);
    let width = random.between(1, most);
    if end == End::High {
        (value - width, value)
    } else {
        (value, value + width)
    }
}

fn minus(random: &mut Random, out: &mut Output) {
    for (label, least, leaves) in
        [("kind 18 at the high end, exactly", LOW + 1, false), ("kind 18 at the high end, by one", LOW, true)]
    {
        let greatest = random.between(least, HIGH);
        put(random, out, label, |grower| node(MINUS, vec![grower.with_range((least, greatest))]), leaves);
    }
    // The lowest that a minus can reach is -32,767.
    let least = random.between(LOW + 1, HIGH);
    put(
        random,
        out,
        "kind 18 down to -32,767",
        |grower| node(MINUS, vec![grower.with_range((least, HIGH))]),
        false,
    );
}

/// Ranges so far out that in 16 bits they wrap round to something that fits.
fn far(random: &mut Random, out: &mut Output) {
    let whole = (LOW, HIGH);
    for kind in [SUM, DIFFERENCE, PRODUCT] {
        let label = format!("kind {} of the widest ranges", kind);
        put(
            random,
            out,
            &label,
            |grower| node(kind, vec![grower.with_range(whole), grower.with_range(whole)]),
            true,
        );
    }
    let squares = [(LOW, LOW), (LOW, HIGH), (HIGH, HIGH), (256, 256), (-256, 256)];
    let (x, y) = random.pick(&squares);
    put(random, out, "kind 21 far out", |_| node(PRODUCT, vec![constant(x), constant(y)]), true);
}

/// Finds a node's range from outside: a constant added to it just fits, or leaves by one.
fn probe(random: &mut Random, out: &mut Output, kind: u8, end: End) {
    let (variables, size) = (1 + random.below(MOST_VARIABLES), 4 + any_size(random) / 4);
    for (how, leaves) in [("exactly", false), ("by one", true)] {
        let label = format!("{} end of a range of kind {}, {}", end.name(), kind, how);
        put(
            random,
            out,
            &label,
            |grower| {
                while grower.variables.len() < variables {
                    let (x, y) = (grower.value(), grower.value());
                    grower.add_variable((x.min(y), x.max(y)));
                }
                let tree = grower.of_kind(kind, size);
                let tree = towards(tree, end);
                let reached = if end == End::High { tree.range.1 } else { tree.range.0 };
                let target = end.value() + if leaves { end.step() } else { 0 };
                node(SUM, vec![tree, constant(target - reached)])
            },
            leaves,
        );
    }
}

/// Brings a range to this end's side of zero, so that one constant reaches from it past the end.
fn towards(tree: Tree, end: End) -> Tree {
    match end {
        End::High if tree.range.1 < 1 => towards(node(SUM, vec![tree, constant(HIGH)]), end),
        End::Low if tree.range.0 > -1 => towards(node(SUM, vec![tree, constant(LOW)]), end),
        _ => tree,
    }
}
