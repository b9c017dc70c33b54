// An ordinary reader, as one would write it in Rust: a sheet is accepted, or refused with a number and a place, one
// test after the other in document 01's order.

use crate::checks;
use crate::layout::*;
use crate::limits::*;

type Refusal = (u64, usize);
type Ends = (i32, i32);

#[derive(Clone, Copy, PartialEq)]
enum Finding {
    Truth,
    Integer(Ends),
}

use Finding::{Integer, Truth};

pub fn read(sheet: &[u8]) -> Result<(), Refusal> {
    if sheet.is_empty() || sheet.len() % BLOCK != 0 || sheet.len() > MOST_BYTES {
        return Err((1, 0));
    }
    if let Some(k) = checks::in_32_bits(sheet) {
        return Err((2, k));
    }
    if number_at(sheet, 0) != 1 {
        return Err((3, 0));
    }
    let (nodes, variables) = (node_count(sheet), usize::from(sheet[VARIABLE_COUNT]));
    if !counted(sheet, nodes, variables) || !outside_clear(sheet, nodes, variables) {
        return Err((4, 0));
    }
    let mut domains = [(0, 0); MOST_VARIABLES];
    for number in 0..variables {
        domains[number] = domain(sheet, number).ok_or((5, number))?;
    }
    goal(sheet, nodes, &domains[..variables])
}

fn counted(sheet: &[u8], nodes: usize, variables: usize) -> bool {
    (1..=MOST_NODES).contains(&nodes)
        && variables <= MOST_VARIABLES
        && sheet.len() == BLOCK * blocks_for(nodes)
}

fn clear(bytes: &[u8]) -> bool {
    bytes.iter().all(|&byte| byte == 0)
}

fn outside_clear(sheet: &[u8], nodes: usize, variables: usize) -> bool {
    let in_block = |k: usize| NODE_BYTES * (nodes - NODES_IN_BLOCK * (k - 1)).min(NODES_IN_BLOCK);
    clear(&sheet[VARIABLE_COUNT + 1..variable_at(0)])
        && clear(&sheet[variable_at(variables)..CONTENT])
        && sheet.chunks_exact(BLOCK).enumerate().skip(1).all(|(k, block)| clear(&block[in_block(k)..CONTENT]))
}

fn i16_at(bytes: &[u8], at: usize) -> i32 {
    i32::from(number_at(bytes, at) as i16)
}

/// A variable's domain, if its record is right.
fn domain(sheet: &[u8], number: usize) -> Option<Ends> {
    let record = |number: usize| &sheet[variable_at(number)..][..VARIABLE_BYTES];
    let (own, size) = (record(number), usize::from(record(number)[LENGTH]));
    let ends = (i16_at(own, LEAST), i16_at(own, GREATEST));
    let right = ends.0 <= ends.1
        && (1..=LONGEST_NAME).contains(&size)
        && own[LENGTH + 1] == 0
        && own[NAME].is_ascii_alphabetic()
        && own[NAME..NAME + size].iter().all(|&byte| byte.is_ascii_alphanumeric() || byte == b'_')
        && clear(&own[NAME + size..])
        && (0..number).all(|earlier| record(earlier)[LENGTH..] != own[LENGTH..]);
    right.then_some(ends)
}

/// Each node in turn, then the goal.
fn goal(sheet: &[u8], nodes: usize, domains: &[Ends]) -> Result<(), Refusal> {
    let (mut starts, mut found) = (vec![0; nodes], vec![Truth; nodes]);
    let blocks = sheet[BLOCK..].chunks_exact(BLOCK);
    let records = blocks.flat_map(|block| block[..AFTER_NODES].chunks_exact(NODE_BYTES));
    for (number, record) in records.take(nodes).enumerate() {
        let fields = [0, 2, 4].map(|at| usize::from(number_at(record, FIELDS + at)));
        starts[number] = start(record, number, fields, &starts, domains.len()).ok_or((6, number))?;
        found[number] = finding(record, fields, &found, domains).ok_or((7, number))?;
        if !fits(found[number]) {
            return Err((8, number));
        }
    }
    match (starts[nodes - 1], found[nodes - 1]) {
        (0, Truth) => Ok(()),
        (0, _) => Err((7, nodes - 1)),
        _ => Err((6, nodes - 1)),
    }
}

/// Where a node's subtree starts, if its record is right.
fn start(
    record: &[u8],
    number: usize,
    [a, b, c]: [usize; 3],
    starts: &[u16],
    variables: usize,
) -> Option<u16> {
    let (own, before) = (Some(number as u16), |node: usize| usize::from(starts[node]));
    let value = number_at(record, VALUE) != 0;
    let (start, spare) = match record[0] {
        1 | 2 => (own, a | b | c != 0 || value),
        16 => (own, a | b | c != 0),
        17 => (own.filter(|_| a < variables), b | c != 0 || value),
        3 | 18 => ((a + 1 == number).then(|| starts[a]), b | c != 0 || value),
        4..=10 | 19..=21 => ((b + 1 == number && a + 1 == before(b)).then(|| starts[a]), c != 0 || value),
        22 => {
            let ordered = c + 1 == number && b + 1 == before(c) && a + 1 == before(b);
            (ordered.then(|| starts[a]), value)
        }
        _ => (None, false),
    };
    start.filter(|_| !spare && record[1] == 0 && clear(&record[VALUE + 2..]))
}

/// What a node is, if its operands are of the right sorts.
fn finding(record: &[u8], [a, b, c]: [usize; 3], found: &[Finding], domains: &[Ends]) -> Option<Finding> {
    let constant = || i16_at(record, VALUE);
    Some(match record[0] {
        1 | 2 => Truth,
        16 => Integer((constant(), constant())),
        17 => Integer(domains[a]),
        kind => match (kind, found[a], found[b], found[c]) {
            (3, Truth, ..) | (4..=7, Truth, Truth, _) | (8..=10, Integer(_), Integer(_), _) => Truth,
            (18, Integer(x), ..) => Integer((-x.1, -x.0)),
            (19, Integer(x), Integer(y), _) => Integer((x.0 + y.0, x.1 + y.1)),
            (20, Integer(x), Integer(y), _) => Integer((x.0 - y.1, x.1 - y.0)),
            (21, Integer(x), Integer(y), _) => Integer(product(x, y)),
            (22, Truth, Integer(x), Integer(y)) => Integer((x.0.min(y.0), x.1.max(y.1))),
            _ => return None,
        },
    })
}

fn product(x: Ends, y: Ends) -> Ends {
    let ends = [x.0 * y.0, x.0 * y.1, x.1 * y.0, x.1 * y.1];
    ends.into_iter().fold((ends[0], ends[0]), |(least, most), end| (least.min(end), most.max(end)))
}

fn fits(finding: Finding) -> bool {
    match finding {
        Truth => true,
        Integer((least, most)) => LOW <= least.into() && i64::from(most) <= HIGH,
    }
}
