// What a run over the script must have met, a list of its own as `required` is.

use crate::limits::{MOST_BLOCKS, MOST_VARIABLES};
use crate::met::LONGEST;
use crate::required::{add, refusals, shapes, All, KINDS};

pub fn of_script(all: &mut All) {
    add(all, "accepted: edge ", "5, constant -1|6, constant -32,768|12, its script|13, sheet A");
    all.extend(KINDS.iter().map(|kind| format!("accepted: text of kind {}", kind)));
    all.extend(KINDS.iter().map(|kind| format!("accepted: script, a node of kind {}", kind)));
    add(
        all,
        "accepted: script, ",
        "a variable never read|every symbol|any|a number|long|long, of constants|the longest",
    );
    add(all, "accepted: script, ", "too many cases to check");
    add(all, "accepted: script for solvers, ", "any|holds|about zero|a variable not read");
    refusals(all, "script");
    all.extend((0..=MOST_VARIABLES).map(|variables| format!("script: written, V = {}", variables)));
    all.extend((2..=MOST_BLOCKS).map(|blocks| format!("script: written, {} blocks", blocks)));
    rooms(all, "script");
    shapes(all, "accepted: script, ");
    all.push(LONGEST.to_string());
}

/// Rooms long and short for scripts long and short, as a call has them.
pub fn rooms(all: &mut All, call: &str) {
    for bytes in ["up to 4,096 bytes", "over 4,096 bytes"] {
        let long = "just room|room for one byte more|room enough for all";
        add(all, &format!("{}: {} written, ", call, bytes), long);
        add(all, &format!("{}: 9 at {}, ", call, bytes), "no room|less room|one byte short");
    }
    add(all, &format!("{}: ", call), "up to 4,096 bytes written, room for more");
    add(all, &format!("{}: ", call), "9 at over 4,096 bytes, document 01's room");
}
