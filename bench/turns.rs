// Times two sides in one process, the library's and the ordinary one, slice by slice in turn. Of each side the quickest
// slice counts, since the machine may be busy with other work; slices are short, so that some of them are left alone.

// No program uses all of it.
#![allow(dead_code)]

use std::fmt::{Display, Formatter, Result};
use std::time::{Duration, Instant};

/// A slice of one side takes about so long, or as long as one call.
const SLICE: Duration = Duration::from_millis(2);
/// A round takes about so long.
const ROUND: Duration = Duration::from_millis(500);
const ROUNDS: usize = 7;
const FEWEST_SLICES: u128 = 10;

/// Whether the program is asked to show that it works, and to measure nothing.
pub fn once() -> bool {
    std::env::args().nth(1).as_deref() == Some("once")
}

/// How long both sides are timed.
pub fn extent() -> String {
    match once() {
        true => "one slice, nothing is measured".to_string(),
        false => format!(
            "{} rounds of {} ms, slices of {} ms on each side in turn",
            ROUNDS,
            ROUND.as_millis(),
            SLICE.as_millis()
        ),
    }
}

/// What a call of each side takes at the quickest, in ns, and the rounds' lowest and highest ratio.
pub struct Sides {
    pub library: f64,
    pub ordinary: f64,
    lowest: f64,
    highest: f64,
}

/// The ratio, and in brackets the rounds' lowest and highest.
impl Display for Sides {
    fn fmt(&self, to: &mut Formatter) -> Result {
        write!(to, "{:.2} ({:.2} to {:.2})", self.library / self.ordinary, self.lowest, self.highest)
    }
}

impl Sides {
    /// The times for one of so many cases that a call tries.
    pub fn per(self, cases: usize) -> Sides {
        let (library, ordinary) = (self.library / cases as f64, self.ordinary / cases as f64);
        Sides { library, ordinary, ..self }
    }
}

/// How long so many calls take.
pub fn time(call: &impl Fn(), calls: u32) -> Duration {
    let from = Instant::now();
    for _ in 0..calls {
        call();
    }
    from.elapsed()
}

/// The quickest of three calls.
pub fn quickest(call: &impl Fn()) -> Duration {
    (0..3).map(|_| time(call, 1)).min().expect("a call")
}

/// What a call of each side takes in the quickest slice of a round, in ns.
fn round(library: &impl Fn(), ordinary: &impl Fn(), calls: u32, slices: usize) -> (f64, f64) {
    let turns = (0..slices).map(|_| (time(library, calls), time(ordinary, calls)));
    let (library, ordinary) =
        turns.reduce(|best, turn| (best.0.min(turn.0), best.1.min(turn.1))).expect("a slice");
    let each = |slice: Duration| slice.as_nanos() as f64 / f64::from(calls);
    (each(library), each(ordinary))
}

/// How many calls make a slice, and how many slices a round, where a call of the slower side takes so many ns.
fn parts(slower: u128) -> (u32, usize) {
    let calls = (SLICE.as_nanos() / slower).clamp(1, 1_000_000);
    let slices = ROUND.as_nanos() / (2 * calls * slower);
    (calls as u32, slices.max(FEWEST_SLICES) as usize)
}

pub fn compare(library: impl Fn(), ordinary: impl Fn()) -> Sides {
    let slower = quickest(&library).max(quickest(&ordinary)).as_nanos().max(1);
    let (calls, slices) = parts(slower);
    let (rounds, slices) = if once() { (1, 1) } else { (ROUNDS, slices) };
    let rounds: Vec<(f64, f64)> = (0..rounds).map(|_| round(&library, &ordinary, calls, slices)).collect();
    let ratios = || rounds.iter().map(|round| round.0 / round.1);
    Sides {
        library: rounds.iter().map(|round| round.0).fold(f64::INFINITY, f64::min),
        ordinary: rounds.iter().map(|round| round.1).fold(f64::INFINITY, f64::min),
        lowest: ratios().fold(f64::INFINITY, f64::min),
        highest: ratios().fold(0.0, f64::max),
    }
}
