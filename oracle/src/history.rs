//! The history of a list, told from its records and their lines alone: the counts of SCOPE 8.1, and the driver's fields
//! by SCOPE 6.

use crate::budget::{get, READS};
use crate::bytes::hex;
use std::collections::BTreeMap;
use std::fmt::{self, Display, Formatter, Write};

/// A call that has no answer yet.
#[derive(Default)]
struct Waiting {
    code: u8,
    argument: u32,
    transfers: u32,
    /// The written bytes of its last transfer, in hexadecimal, and the read length.
    written: String,
    read: usize,
    /// The byte read at 0x91, and the replies to the first six budget reads.
    stop: u8,
    budget_replies: Vec<u8>,
}

impl Waiting {
    fn reply(&mut self, data: &[u8]) {
        if self.written == "91" {
            self.stop = data[0];
        }
        let is_budget_read = READS.iter().any(|(register, _)| self.written == hex(&[*register]));
        if is_budget_read && self.budget_replies.len() < 8 {
            self.budget_replies.extend(&data[..self.read]);
        }
    }
}

#[derive(Default)]
pub struct History {
    calls: u32,
    replies: u32,
    transfers: u32,
    refused: u32,
    waiting: Option<Waiting>,
    /// Address, stop byte and budget.
    up: Option<(u32, u8, u32)>,
    /// The fields after each record, as lines.
    pub fields: String,
    /// How often each answer was given; answer 8 by its place.
    answers: BTreeMap<(u32, u32), u32>,
}

impl History {
    /// Of the whole records of a list and their lines.
    pub fn new(list: &[u8], lines: &str) -> Self {
        let mut history = History::default();
        for (record, line) in list.chunks_exact(8).zip(lines.lines()) {
            history.add(record, line);
        }
        let History { calls, replies, refused, transfers, .. } = history;
        assert_eq!(list.len() / 8, (calls + replies + refused) as usize);
        assert_eq!(transfers, replies + u32::from(history.waiting.is_some()));
        history
    }

    fn add(&mut self, record: &[u8], line: &str) {
        let number = |word: &str| word.parse::<u32>().expect("a number");
        match line.split(' ').collect::<Vec<_>>()[..] {
            ["T", _, written, read] => {
                self.transfers += 1;
                let call = self.accept(record);
                call.transfers += 1;
                call.written = written.to_string();
                call.read = number(read) as usize;
            }
            ["A", answer, value, transfers] => {
                let [answer, value, transfers] = [answer, value, transfers].map(number);
                *self.answers.entry((answer, if answer == 8 { value } else { 0 })).or_default() += 1;
                if answer < 9 {
                    assert_eq!(self.accept(record).transfers, transfers);
                    self.end(answer);
                } else {
                    assert_eq!((value, transfers), (0, 0));
                    self.refused += 1;
                }
            }
            _ => panic!("not a line: {line}"),
        }
        let (up, (address, stop, budget)) = (u8::from(self.up.is_some()), self.up.unwrap_or_default());
        writeln!(self.fields, "F {up} {address} {stop} {budget}").unwrap();
    }

    /// The call that the record begins, or to whose last transfer it replies.
    fn accept(&mut self, record: &[u8]) -> &mut Waiting {
        match (record, self.waiting.take()) {
            (&[1, code, a, b, c, d, ..], None) => {
                self.calls += 1;
                self.up = self.up.filter(|_| code != 1);
                self.waiting.insert(Waiting { code, argument: u32::from_be_bytes([a, b, c, d]), ..Waiting::default() })
            }
            ([2, _, data @ ..], Some(mut call)) => {
                self.replies += 1;
                call.reply(data);
                self.waiting.insert(call)
            }
            _ => panic!("{record:02X?} is accepted"),
        }
    }

    fn end(&mut self, answer: u32) {
        let call = self.waiting.take().expect("an answer belongs to a call");
        match (answer, call.code, &mut self.up) {
            (0, 1, up) => {
                let replies = call.budget_replies.try_into().expect("six budget reads");
                *up = Some((call.argument, call.stop, get(replies).0.expect("no place")));
            }
            (0, 3, Some((address, _, _))) => *address = call.argument,
            (0, 9, Some((_, _, budget))) => *budget = call.argument,
            _ => (),
        }
    }

    /// Each answer that a record can get from a fresh session is given, and each place.
    pub fn assert_complete(&self) {
        let places = (1..=9).map(|place| (8, place));
        for answer in (0..=13).filter(|number| *number != 8).map(|number| (number, 0)).chain(places) {
            assert!(self.answers.contains_key(&answer), "no answer {answer:?}");
        }
    }
}

impl Display for History {
    fn fmt(&self, f: &mut Formatter) -> fmt::Result {
        let History { calls, replies, refused, transfers, .. } = self;
        writeln!(f, "{calls} calls, {replies} replies, {refused} refused; {transfers} transfers")?;
        for ((answer, place), count) in &self.answers {
            let place = if *answer == 8 { format!(" place {place}") } else { String::new() };
            writeln!(f, "  {count:6} answer {answer}{place}")?;
        }
        Ok(())
    }
}
