// What a run over the second form and over replies must have met, lists of their own as `required` is.

use crate::limits::{MOST_BLOCKS, MOST_VARIABLES};
use crate::met::LONGEST_ASKING;
use crate::required::{add, deep, refusals, shapes, All, KINDS};
use crate::script_required::rooms;

pub fn of_ask(all: &mut All) {
    add(all, "accepted: ask by hand, ", "sheet A|no variables|every symbol");
    all.extend(KINDS.iter().map(|kind| format!("accepted: ask, a node of kind {}", kind)));
    add(all, "accepted: ask, ", "any|long|long, of constants|the longest|too many cases to check");
    add(all, "accepted: ask for solvers, ", "any|holds|about zero|a variable not read");
    refusals(all, "ask");
    all.extend((0..=MOST_VARIABLES).map(|variables| format!("ask: written, V = {}", variables)));
    all.extend((2..=MOST_BLOCKS).map(|blocks| format!("ask: written, {} blocks", blocks)));
    rooms(all, "ask");
    shapes(all, "accepted: ask, ");
    all.push(LONGEST_ASKING.to_string());
}

pub fn of_replies(all: &mut All) {
    by_hand(all);
    spelled(all);
    damaged(all);
    rewritten(all);
    verdicts(all);
    refusals(all, "reply");
    shapes(all, "any: reply, ");
    deep(all, "accepted: reply, ");
    deep(all, "13: reply, ");
    digits(all);
}

fn by_hand(all: &mut All) {
    for verdict in ["accepted", "11", "12", "13"] {
        all.push(format!("{}: reply by hand, sheet A", verdict));
    }
    add(all, "", "accepted: reply by hand, no variables|11: reply by hand, no variables");
    add(all, "", "accepted: reply by hand, one variable|11: reply by hand, one variable");
    add(all, "", "12: reply by hand, one variable|13: reply by hand, one variable");
    add(all, "", "1: reply by hand, no sheet");
    add(all, "", "accepted: reply by hand, eleven variables|11: reply by hand, eleven variables");
    add(all, "", "12: reply by hand, eleven variables");
}

fn spelled(all: &mut All) {
    for verdict in ["accepted", "12", "13"] {
        for digits in ["lower case", "upper case", "mixed case", "binary", "either"] {
            let blanks = "no needless blanks|tabs|line feeds|carriage returns|spaces|any blanks";
            add(all, &format!("{}: reply, {}, ", verdict, digits), blanks);
        }
    }
    add(all, "", "accepted: reply, too many cases to check|13: reply, too many cases to check");
}

fn damaged(all: &mut All) {
    add(all, "", "11: reply, cut short|accepted: reply, cut behind its end");
    for foreign in [
        "NUL",
        "a byte above 127",
        "a semicolon",
        "a vertical tab or form feed",
        "a quote",
        "a sign",
        "a comment",
    ] {
        all.push(format!("11: reply, {} inserted", foreign));
    }
    for own in
        ["an opening parenthesis", "a closing parenthesis", "a blank", "a digit", "a letter", "a number sign"]
    {
        all.push(format!("any: reply, {} inserted", own));
    }
    add(all, "any: reply, a byte ", "changed|made another of a reply's|removed|doubled");
    add(all, "", "11: reply, a byte made foreign|any: reply, two bytes swapped");
    add(all, "any: reply, each byte ", "inserted in turn|in place of another");
    add(all, "", "accepted: reply, many blanks|11: reply, a parenthesis behind many blanks");
    add(all, "11: reply, ", "nothing but blanks|many parentheses|many digits|a long number");
    add(all, "", "accepted: reply, unsat and many bytes behind it|11: reply, unsat between many bytes");
    add(
        all,
        "accepted: reply, ",
        "unsat|unsat and a blank|unsat and anything behind a blank|unsat and a case",
    );
    add(all, "11: reply, ", "unsat and another byte|a part of unsat");
    add(all, "", "11: reply, with too few variables|11: reply, with too many variables");
    add(all, "any: reply, ", "of another sheet|any rule|several changes|words at random|bytes at random");
}

fn rewritten(all: &mut All) {
    let lists = "pairs in another order|a pair twice|a pair missing|a pair too many|a word missing|no list|an empty list";
    add(all, "11: reply, ", lists);
    add(all, "11: reply, the list ", "alone|twice|without its parentheses");
    add(all, "11: reply, ", "a symbol and its value the other way round|no blank between symbol and value");
    add(all, "11: reply, ", "a blank inside a word|a zero before a number|v016|another variable's symbol");
    add(all, "11: reply, ", "a capital V|a quoted symbol|a name for a symbol|no symbol but v");
    add(all, "11: reply, ", "sixteen hexadecimal digits|five hexadecimal digits|three hexadecimal digits");
    add(all, "11: reply, ", "no hexadecimal digits|four binary digits|fifteen binary digits");
    add(all, "11: reply, ", "seventeen binary digits|a 2 in binary|a letter in binary|a g in hexadecimal");
    add(
        all,
        "11: reply, ",
        "#X|#B|#o|0x|a decimal number|a decimal bit-vector|a value in parentheses|two values",
    );
    add(all, "11: reply, sat ", "twice|in capitals|in parentheses|with a letter more");
    add(all, "11: reply, unsat ", "in capitals|in parentheses|behind a case");
    add(all, "11: reply, ", "unknown|a word behind a case|success first|an error first|a comment behind");
    add(all, "11: reply, ", "a model for a list");
}

fn verdicts(all: &mut All) {
    for variables in 0..=MOST_VARIABLES {
        all.push(format!("reply: unsat claimed, V = {}", variables));
        all.push(format!("reply: fails, V = {}", variables));
        all.push(format!("reply: 13 at 0, V = {}", variables));
    }
    all.extend((0..MOST_VARIABLES).map(|variable| format!("reply: 12 at variable {}", variable)));
    for verdict in ["fails", "13 at 0"] {
        add(all, &format!("reply: {}, ", verdict), "up to 255 nodes|over 255 nodes|the most nodes");
    }
    add(all, "reply: 11 at ", "the length|the first byte|the last byte|a byte between");
    add(all, "reply: 11, ", "no bytes|NUL|a blank|an opening parenthesis|a closing parenthesis|a semicolon");
    add(all, "reply: 11, ", "a number sign|a digit|a letter|a byte above 127|another byte");
}

fn digits(all: &mut All) {
    all.extend((0..MOST_VARIABLES).map(|variable| format!("digits: of variable {}", variable)));
    add(all, "digits: ", "4 of them|16 of them|below 65,536|at 65,536 and later");
    add(all, "digits: empty, ", "unsat claimed|not below V|variable 65,535");
    all.extend(
        [1, 2, 3, 4, 5, 6, 7, 8, 11, 12, 13].map(|number| format!("digits: empty, refusal {}", number)),
    );
}
