// What a run over texts must have met, a list of its own as `required` is.

use crate::limits::{MOST_BLOCKS, MOST_VARIABLES};
use crate::required::{add, shapes, All, KINDS};

pub fn of_make(all: &mut All) {
    add(all, "18: text by hand, ", "lines|names|numbers|expressions");
    add(all, "", "5: text by hand|7: text by hand|8: text by hand");
    add(all, "accepted: text by hand", "|, short");
    all.extend(KINDS.iter().map(|kind| format!("accepted: text, a node of kind {}", kind)));
    add(all, "accepted: text, ", "any|a number of 16 bits|a name near a word");
    refused_rules(all);
    add(all, "18: text, ", "no number|a number past 16 bits|a word for a name|a name too long");
    add(
        all,
        "18: text, ",
        "a name with a byte too many|a beginning of declared names|a declared name and more",
    );
    add(all, "any: text, ", "a name that isn't declared|names that begin alike");
    damaged(all);
    lines(all);
    long(all);
    made(all);
}

fn refused_rules(all: &mut All) {
    let with_operands = KINDS.iter().filter(|kind| ![1, 2, 16, 17].contains(*kind));
    all.extend(with_operands.map(|kind| format!("7: text, a wrong operand of kind {}", kind)));
    all.extend((16..=22).map(|kind| format!("7: text, goal of kind {}", kind)));
    all.extend((18..=21).map(|kind| format!("8: text, kind {}", kind)));
    all.extend([31, 200, 255, 256, 1_000, 1_900].map(|nodes| format!("7: text, behind {} nodes", nodes)));
    all.extend([31, 200, 255, 256, 1_000, 1_900].map(|nodes| format!("8: text, behind {} nodes", nodes)));
    add(all, "5: text, ", "least past greatest|equal names");
    add(all, "4: text, too many variables, ", "the last one read|other faults");
    add(all, "18: text, too many variables, ", "cut short|an operand too many");
}

fn damaged(all: &mut All) {
    add(all, "18: text, ", "cut short|a byte made foreign");
    for foreign in ["NUL", "a byte above 127", "a tab or carriage return", "a sign", "a parenthesis or quote"]
    {
        all.push(format!("18: text, {} inserted", foreign));
    }
    for own in ["a space", "a line feed", "a minus", "a digit", "a letter", "an underscore", "a word"] {
        all.push(format!("any: text, {} inserted", own));
    }
    add(all, "any: text, a byte ", "changed|made another of a text's|removed|doubled");
    add(all, "any: text, ", "two bytes swapped|each byte inserted in turn|each byte in place of another");
    add(all, "any: text, ", "several changes|words at random|bytes at random|a text's bytes at random");
}

fn lines(all: &mut All) {
    add(all, "18: text, ", "carriage returns|carriage returns for line feeds|tabs|double spaces|no spaces");
    add(all, "18: text, ", "spaces at the lines' ends|blank lines|no line feeds|spaces for line feeds");
    add(all, "18: text, ", "no last line feed|a space first|a line feed first|a byte order mark first");
    add(all, "18: text, ", "a comment first|a line feed last|a byte 0 last|a second text|no goal");
    add(all, "18: text, ", "a variable behind the goal|a goal without words|a goal that goes on|in capitals");
    add(all, "18: text, ", "var in capitals|a variable without numbers");
}

fn long(all: &mut All) {
    let mut shapes: Vec<String> = Vec::new();
    for (kinds, operands) in [(&[3, 18][..], 1), (&[4, 5, 6, 7, 8, 9, 10, 19, 20, 21], 2), (&[22], 3)] {
        for kind in kinds {
            let of = |operand: &str| format!("a chain through operand {} of kind {}", operand, kind);
            shapes.extend(["a", "b", "c"][..operands].iter().map(|operand| of(operand)));
        }
    }
    shapes.extend([4, 9, 19, 22].map(|kind| format!("a balanced tree of kind {}", kind)));
    shapes.push("a mixed chain".to_string());
    for shape in shapes {
        add(all, &format!("accepted: text, {}, ", shape), "the most nodes|other sizes");
        all.push(format!("4: text, {}, over the most nodes", shape));
    }
    all.push("accepted: text, the longest".to_string());
    add(all, "4: text, ", "a deep chain|a million bytes|many variables|many variables, all read|many lines");
    add(all, "18: text, a deep chain, ", "cut short|an operand too many|an operand too few");
    add(all, "18: text, ", "a million bytes, one of them off|no such variable among many");
    add(all, "18: text, ", "a name and more among many variables|many variables, cut short");
    add(all, "18: text, ", "many lines, no goal");
    let words = "a name|a number|zeros|minuses|a word|spaces|line feeds|zero bytes";
    add(all, "18: text, far too long, ", words);
}

fn made(all: &mut All) {
    all.extend((0..=MOST_VARIABLES).map(|variables| format!("make: written, V = {}", variables)));
    add(all, "make: written, ", "two blocks|up to eight blocks|more blocks|the most nodes");
    rooms(all, "make");
    add(all, "make: 18 at ", "no bytes|the length|the first byte|the last byte|a byte between");
    add(all, "make: 18, ", "NUL|a space|a line feed|another blank|a minus|a digit|a small letter|a capital");
    add(all, "make: 18, ", "a byte above 127|another byte");
    add(all, "make: ", "4 at 0");
    all.extend((0..MOST_VARIABLES).map(|variable| format!("make: 5 at variable {}", variable)));
    for number in [7, 8] {
        add(all, &format!("make: {} at a node ", number), "of the first block|up to 255|over 255");
    }
    add(all, "make, text: ", "the same text|4|5|7|8|18|9, no room|9, one byte short|9, less room");
}

/// What comes of rooms of every length.
fn rooms(all: &mut All, call: &str) {
    let enough = "just room|room for one byte more|room enough for all|room for more";
    add(all, &format!("{}: written, ", call), enough);
    add(all, &format!("{}: 9, ", call), "no room|one byte short|less room");
}

pub fn of_text(all: &mut All) {
    add(all, "accepted: print by hand", "|, a name that is a word");
    all.extend(KINDS.iter().map(|kind| format!("accepted: print, a node of kind {}", kind)));
    add(all, "accepted: print, ", "any|the longest|a name that is a word|several names that are words");
    add(all, "accepted: print, ", "a name near a word|a check made right");
    all.extend((1..=8).map(|number| format!("{}: print, and a name that is a word", number)));
    shapes(all, "accepted: print, ");
    all.extend((0..=MOST_VARIABLES).map(|variables| format!("text: written, V = {}", variables)));
    all.extend((2..=MOST_BLOCKS).map(|blocks| format!("text: written, {} blocks", blocks)));
    rooms(all, "text");
    all.extend((0..MOST_VARIABLES).map(|variable| format!("text: 19 at variable {}", variable)));
    add(all, "text: ", "1|2|3|4|5|6|7|8");
    add(all, "text, make: ", "the same sheet|1|2|3|4|5|6|7|8|19|9, no room|9, one byte short|9, less room");
}
