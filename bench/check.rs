// Times the library's check beside the ordinary evaluator, in ns per case. With the word 'once', the smallest rule is
// all: that shows that it works, and measures nothing.

#[path = "../tests/layout.rs"]
mod layout;
#[path = "../tests/limits.rs"]
mod limits;
mod ordinary;
mod rules;
mod tables;
mod trying;
mod turns;

use limits::*;

fn main() {
    println!("check, ns per case: {}", turns::extent());
    tables::head(&["nodes", "cases", "library", "ordinary Rust", "ratio"]);
    compare(3);
    if !turns::once() {
        [7, 31, 247].into_iter().for_each(compare);
        one_call();
    }
}

fn ordinary(sheet: &[u8]) {
    assert_eq!(ordinary::decoded(sheet).first_failing(), None, "the rule holds");
}

fn compare(nodes: usize) {
    let (sheet, cases) = trying::fitting(&rules::flat(nodes));
    let sides = turns::compare(|| trying::library(&sheet), || ordinary(&sheet)).per(cases);
    let times = [sides.library, sides.ordinary].map(|time| tables::figure(time, 1));
    let [library, ordinary] = times;
    tables::row(&[tables::count(nodes), tables::count(cases), library, ordinary, sides.to_string()]);
}

/// The longest that a call of check can take, more or less; it is no slice, and says nothing of a ratio.
fn one_call() {
    let sheet = rules::sheet(&rules::flat(MOST_NODES), MOST_CASES as usize);
    let (library, ordinary) =
        (turns::time(&|| trying::library(&sheet), 1), turns::time(&|| ordinary(&sheet), 1));
    println!(
        "one call, {} nodes and {} cases: library {:.2} s, ordinary {:.2} s",
        tables::count(MOST_NODES),
        tables::count(MOST_CASES as usize),
        library.as_secs_f64(),
        ordinary.as_secs_f64()
    );
}
