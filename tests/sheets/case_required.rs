// What a run over check and tally must have met, a list of its own as `required` is.

use crate::limits::MOST_VARIABLES;
use crate::required::{add, deep, refusals, shapes, All, KINDS};

pub fn of_cases(all: &mut All) {
    labels(all);
    shapes(all, "accepted: cases, ");
    deep(all, "accepted: cases, ");
    checks(all);
    tallies(all);
}

fn labels(all: &mut All) {
    add(all, "accepted: edge ", "1, sheet A|2, goal true|3, goal false");
    add(all, "accepted: edge 12, ", "1,000 by 1,000, all hold|1,000 by 1,000, the last fails|101 by 9,901");
    all.extend(KINDS.iter().map(|kind| format!("accepted: outcome of kind {}", kind)));
    all.extend(KINDS.iter().map(|kind| format!("accepted: cases, a node of kind {}", kind)));
    add(all, "accepted: ", "cases, any|fails nowhere|fails everywhere");
    for case in ["the first case", "the last case", "one case"] {
        all.push(format!("accepted: fails in {} alone", case));
        all.push(format!("accepted: holds in {} alone", case));
    }
    for variable in ["variable 0", "the last variable", "a variable"] {
        let where_it_fails = "is above its lowest|is at its highest|has one value";
        add(all, &format!("accepted: fails where {} ", variable), where_it_fails);
    }
    for count in ["the most cases", "about the most cases, no more"] {
        add(all, &format!("accepted: {}, ", count), "all hold|the last fails");
    }
    add(all, "accepted: about the most cases, ", "the first fails");
    add(all, "accepted: ", "just under the most cases, the first fails|just over the most cases");
    add(all, "accepted: ", "over the most cases|far more than the most cases");
    add(all, "accepted: ", "a number of cases that wraps round in 32 bits");
}

fn checks(all: &mut All) {
    refusals(all, "check");
    for verdict in ["holds", "fails"] {
        all.extend((0..=MOST_VARIABLES).map(|variables| format!("check: {}, V = {}", verdict, variables)));
        add(all, &format!("check: {}, ", verdict), "room for V|room for V + 1|room for more");
        add(all, &format!("check: {}, ", verdict), "up to 255 nodes|over 255 nodes|the most nodes");
    }
    add(all, "check: fails in ", "the only case|the first case|the last case|a case between");
    all.extend((1..=MOST_VARIABLES).map(|variables| format!("check: 9 at {}", variables)));
    add(all, "check: 9, ", "no room|less room than V|room for V - 1");
    add(
        all,
        "check: 10 at 0, ",
        "no room|less room than V|room for V - 1|room for V|room for V + 1|room for more",
    );
}

fn tallies(all: &mut All) {
    refusals(all, "tally");
    add(all, "tally: ", "all held|all failed|some held, some failed|10 at 0");
    for counts in ["all held", "all failed", "some held, some failed"] {
        add(all, &format!("tally: {}, ", counts), "up to 255 nodes|over 255 nodes|the most nodes");
    }
    add(all, "tally: ", "one case|some cases|the most cases");
}
