// The library's check, and how many cases it is timed with.

use crate::rules;
use crate::turns;
use std::time::Duration;

extern "C" {
    fn ragwashin_check(sheet: *const u8, sheet_len: usize, room: *mut i16, room_len: usize) -> u64;
}

/// A call takes about so long at most.
const LONGEST: Duration = Duration::from_millis(10);
const CASES: [usize; 12] =
    [1_000_000, 500_000, 200_000, 100_000, 50_000, 20_000, 10_000, 5_000, 2_000, 1_000, 500, FEWEST_CASES];
const FEWEST_CASES: usize = 200;

pub fn library(sheet: &[u8]) {
    let mut room = [0; rules::VARIABLES];
    let said = unsafe { ragwashin_check(sheet.as_ptr(), sheet.len(), room.as_mut_ptr(), room.len()) };
    assert_eq!(said, 0, "the rule holds");
}

/// The sheet with the most cases that a call may take, by the time of the fewest, and how many they are.
pub fn fitting(rule: &rules::Tree) -> (Vec<u8>, usize) {
    let few = rules::sheet(rule, FEWEST_CASES);
    let case = turns::quickest(&|| library(&few)) / FEWEST_CASES as u32;
    let cases = CASES.into_iter().find(|&cases| case * cases as u32 <= LONGEST).unwrap_or(FEWEST_CASES);
    (rules::sheet(rule, cases), cases)
}
