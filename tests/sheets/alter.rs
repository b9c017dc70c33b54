// Answers with one bit changed, to show that this is reported.

use crate::judge::next_trial;
use crate::random::Random;

/// Which bits of the answers are changed: those of an answer's number, or those of a room.
#[derive(Clone, Copy, PartialEq)]
pub enum What {
    Answer,
    Room,
}

/// Changes one bit, and gives the number of the answer that it belongs to.
pub fn alter(trials: &[u8], got: &mut [u8], what: What, random: &mut Random) -> usize {
    let spans = spans(trials, what);
    let (answer, from, bytes) = random.pick(&spans);
    let bit = random.below(8 * bytes);
    got[from + bit / 8] ^= 1 << (bit % 8);
    answer
}

/// For each answer its number, where its bits begin and how many bytes they take, if any.
fn spans(mut trials: &[u8], what: What) -> Vec<(usize, usize, usize)> {
    let (mut spans, mut answers, mut at) = (Vec::new(), 0, 0);
    while !trials.is_empty() {
        for question in next_trial(&mut trials).questions {
            let room = question.room_bytes();
            match what {
                What::Answer => spans.push((answers, at, 8)),
                What::Room if room > 0 => spans.push((answers, at + 8, room)),
                What::Room => {}
            }
            answers += 1;
            at += 8 + room;
        }
    }
    spans
}
