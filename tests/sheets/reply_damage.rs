// Replies that are damaged: each byte changed, removed and more, bytes inserted, and cut at every length.

use crate::limits::MOST_VARIABLES;
use crate::random::Random;
use crate::replies::put;
use crate::reply_questions::Replied;
use crate::reply_subjects::Subject;
use crate::reply_text::{any, Text};
use crate::trial::Output;

/// Bytes that are put where they don't belong.
const INTRUDERS: [(&str, &[u8]); 12] = [
    ("NUL", b"\0"),
    ("a byte above 127", b"\x80\xa0\xc3\xff"),
    ("a semicolon", b";"),
    ("an opening parenthesis", b"("),
    ("a closing parenthesis", b")"),
    ("a blank", b"\t\n\r "),
    ("a digit", b"0123456789"),
    ("a letter", b"abfguvxABFXZ"),
    ("a number sign", b"#"),
    ("a vertical tab or form feed", b"\x0b\x0c"),
    ("a quote", b"\"'|"),
    ("a sign", b"+-_."),
];

/// Those that stand in no reply that says 'sat'.
fn is_foreign(byte: u8) -> bool {
    byte == 0 || byte > 127 || b";\x0b\x0c\"'|+-_.".contains(&byte)
}

/// Each byte changed, removed, inserted, doubled, put behind the next, and the reply cut at every length.
pub fn damaged(random: &mut Random, out: &mut Output) {
    for variables in [0, 0, 0, 1, 1, 2, 2, 3, 9, 10, 11, 12, MOST_VARIABLES] {
        let subject = Subject::fails_once(random, variables);
        let text = any(random, &subject.case);
        for place in 0..=text.bytes.len() {
            cut(out, &subject, &text, place);
            inserted(random, out, &subject, &text.bytes, place);
            if place < text.bytes.len() {
                changed(random, out, &subject, &text.bytes, place);
            }
        }
    }
}

fn cut(out: &mut Output, subject: &Subject, text: &Text, length: usize) {
    let part = &text.bytes[..length];
    if length < text.end {
        put(out, "11: reply, cut short", subject, part, Replied::Refuses(11, length));
    } else {
        put(out, "accepted: reply, cut behind its end", subject, part, Replied::Fails(text.digits.clone()));
    }
}

fn with_inserted(bytes: &[u8], place: usize, more: &[u8]) -> Vec<u8> {
    [&bytes[..place], more, &bytes[place..]].concat()
}

fn inserted(random: &mut Random, out: &mut Output, subject: &Subject, bytes: &[u8], place: usize) {
    for (name, among) in INTRUDERS {
        // Long replies have many places.
        if bytes.len() > 60 && random.below(12) > 3 {
            continue;
        }
        let byte = random.pick(among);
        let reply = with_inserted(bytes, place, &[byte]);
        if is_foreign(byte) {
            let label = format!("11: reply, {} inserted", name);
            put(out, &label, subject, &reply, Replied::Refuses(11, place));
        } else {
            put(out, &format!("any: reply, {} inserted", name), subject, &reply, Replied::Unknown);
        }
    }
    let comment = with_inserted(bytes, place, b";v0 is seated\n");
    put(out, "11: reply, a comment inserted", subject, &comment, Replied::Refuses(11, place));
}

fn changed(random: &mut Random, out: &mut Output, subject: &Subject, bytes: &[u8], place: usize) {
    let mut any = bytes.to_vec();
    any[place] = random.other_byte(bytes[place]);
    put(out, "any: reply, a byte changed", subject, &any, Replied::Unknown);

    let mut foreign = bytes.to_vec();
    foreign[place] = random.pick(b"\0\x7f\x80\xff;|\"");
    put(out, "11: reply, a byte made foreign", subject, &foreign, Replied::Refuses(11, place));

    let mut near = bytes.to_vec();
    near[place] = random.pick(b"()#xbv012 \n");
    put(out, "any: reply, a byte made another of a reply's", subject, &near, Replied::Unknown);

    let removed = [&bytes[..place], &bytes[place + 1..]].concat();
    put(out, "any: reply, a byte removed", subject, &removed, Replied::Unknown);

    let doubled = with_inserted(bytes, place, &[bytes[place]]);
    put(out, "any: reply, a byte doubled", subject, &doubled, Replied::Unknown);

    if place + 1 < bytes.len() {
        let mut swapped = bytes.to_vec();
        swapped.swap(place, place + 1);
        put(out, "any: reply, two bytes swapped", subject, &swapped, Replied::Unknown);
    }
}

/// At each place of a short reply each byte there is, in place of the one there and before it.
pub fn every_byte(random: &mut Random, out: &mut Output) {
    for variables in [0, 1] {
        let subject = Subject::fails_once(random, variables);
        let bytes = any(random, &subject.case).bytes;
        for place in 0..=bytes.len() {
            for byte in 0..=255 {
                let inserted = with_inserted(&bytes, place, &[byte]);
                put(out, "any: reply, each byte inserted in turn", &subject, &inserted, Replied::Unknown);
                if place < bytes.len() {
                    let mut changed = bytes.clone();
                    changed[place] = byte;
                    put(
                        out,
                        "any: reply, each byte in place of another",
                        &subject,
                        &changed,
                        Replied::Unknown,
                    );
                }
            }
        }
    }
}
