//! What has been compared, and whether that was everything.

use crate::call::{Answer, Call};
use crate::calls;
use std::collections::BTreeMap;
use std::fmt::{self, Display, Formatter};

#[derive(Default)]
pub struct Tally {
    /// How often a call, by its code, got an answer, by its number. Panics are counted by their place too.
    answers: BTreeMap<(u8, u8, u32), u32>,
    transfers: u64,
    pub refused: u64,
}

/// Every answer of every call that the Rust driver can give: code, answers, places.
const POSSIBLE: &[(u8, &[u8], &[u32])] = &[
    (1, &[0, 2, 3, 4], &[2, 3, 4, 5, 6, 7, 8, 9]),
    (2, &[0, 3], &[]),
    (3, &[0, 3, 5], &[]),
    (4, &[0, 3], &[1]),
    (5, &[0, 3], &[]),
    (6, &[0, 3, 7], &[]),
    (7, &[0, 3, 4], &[]),
    (8, &[0, 3, 4], &[]),
    (9, &[0, 1, 3], &[2, 3, 4, 5, 6, 7, 8, 9]),
    (10, &[0, 3, 6], &[]),
    (11, &[0, 3], &[]),
    (12, &[0, 3], &[]),
    (13, &[0, 3], &[]),
    (14, &[0, 1, 3], &[]),
    (15, &[0, 3], &[2, 3, 4, 5, 6]),
    (16, &[0, 3], &[]),
];

impl Tally {
    pub fn add(&mut self, call: Call, Answer(number, value): Answer, transfers: u32) {
        let place = if number == 8 { value } else { 0 };
        *self.answers.entry((call.record()[1], number, place)).or_default() += 1;
        self.transfers += u64::from(transfers);
    }

    /// Fails unless each possible answer of each call was met, and no other.
    pub fn assert_complete(&self) {
        let codes: Vec<u8> = POSSIBLE.iter().map(|(code, ..)| *code).collect();
        assert_eq!(codes, calls::codes(), "the calls");
        let mut possible = Vec::new();
        for &(code, answers, places) in POSSIBLE {
            possible.extend(answers.iter().map(|number| (code, *number, 0)));
            possible.extend(places.iter().map(|place| (code, 8, *place)));
        }
        let met: Vec<_> = self.answers.keys().copied().collect();
        assert_eq!(met, possible, "the answers that were met, and those that are possible");
    }
}

/// A line for each call with the numbers of its answers, and the sums.
impl Display for Tally {
    fn fmt(&self, f: &mut Formatter) -> fmt::Result {
        for &(code, ..) in POSSIBLE {
            let mut parts = Vec::new();
            for ((_, number, place), count) in self.answers.iter().filter(|((of, ..), _)| *of == code) {
                let place = if *number == 8 { format!(" at place {place}") } else { String::new() };
                parts.push(format!("{count} times {number}{place}"));
            }
            writeln!(f, "call {code}: {}", parts.join(", "))?;
        }
        let calls: u32 = self.answers.values().sum();
        writeln!(f, "{calls} calls, {} transfers, {} refused records: no difference", self.transfers, self.refused)
    }
}
