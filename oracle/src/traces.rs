//! Whole calls: each record that the session gets, and what the Rust does then.

use crate::bus::{Bus, Transfer};
use crate::bytes::hex;
use crate::call::{make, Answer, Call, Record};
use std::collections::{BTreeMap, VecDeque};
use std::fmt::{self, Display, Formatter};
use vl53l0x::inner::Fields;

/// How a sensor replies: to a read with the next bytes that stand at its register, to a write with some byte. Chosen
/// transfers fail.
#[derive(Clone, Default)]
pub struct Sensor {
    replies: BTreeMap<u8, VecDeque<Vec<u8>>>,
    read_back: u8,
    failures: BTreeMap<usize, (u8, u8)>,
}

impl Sensor {
    /// The bytes of each read at a register, in order.
    pub fn at<const N: usize>(mut self, register: u8, replies: &[[u8; N]]) -> Self {
        self.replies.insert(register, replies.iter().map(|bytes| bytes.to_vec()).collect());
        self
    }

    /// The byte that comes back from a write.
    pub fn reading_back(mut self, byte: u8) -> Self {
        self.read_back = byte;
        self
    }

    /// The n-th transfer, which is one at this register, fails.
    pub fn failing(mut self, n: usize, register: u8, code: u8) -> Self {
        self.failures.insert(n, (register, code));
        self
    }

    fn reply(&mut self, n: usize, written: &[u8], read: &mut [u8]) -> Result<(), u8> {
        if let Some((register, code)) = self.failures.remove(&n) {
            assert_eq!(written[0], register, "transfer {n}");
            return Err(code);
        }
        match *written {
            [register] => {
                let next = self.replies.get_mut(&register).and_then(VecDeque::pop_front);
                read.copy_from_slice(&next.unwrap_or_else(|| panic!("no reply left at {register:02X}")));
            }
            _ => read.fill(self.read_back),
        }
        Ok(())
    }

    /// Every reply was read.
    fn is_spent(&self) -> bool {
        self.replies.values().all(VecDeque::is_empty)
    }
}

fn reply_record(replied: Result<(), u8>, read: &[u8]) -> Record {
    let mut record = [2, 0, 0, 0, 0, 0, 0, 0];
    match replied {
        Ok(()) => record[2..][..read.len()].copy_from_slice(read),
        Err(code) => record[1] = code,
    }
    record
}

/// What a record leads to.
#[derive(Debug)]
pub enum Line {
    Transfer(Transfer),
    /// With the transfers of its call.
    Answer(Answer, usize),
}

/// As the program rolltrace prints it.
impl Display for Line {
    fn fmt(&self, f: &mut Formatter) -> fmt::Result {
        match self {
            Line::Transfer(Transfer { address, written, read }) => write!(f, "T {address:02X} {} {read}", hex(written)),
            Line::Answer(Answer(number, value), transfers) => write!(f, "A {number} {value} {transfers}"),
        }
    }
}

/// Calls one after the other, and the driver's fields before and after; none while it is not up.
pub struct Trace {
    pub name: String,
    pub before: Option<Fields>,
    pub steps: Vec<(Record, Line)>,
    pub after: Option<Fields>,
}

impl Trace {
    pub fn new(name: impl Into<String>, before: Option<Fields>) -> Self {
        Trace { name: name.into(), before, steps: Vec::new(), after: before }
    }

    /// One more call, on a sensor that has to be used up unless the call ends early.
    pub fn call(self, call: Call, mut sensor: Sensor) -> Self {
        let trace = self.on(call, |n, written, read| sensor.reply(n, written, read));
        let ended_early = trace.answer().0 != 0;
        assert!(sensor.failures.is_empty(), "{}: a failure is not met", trace.name);
        assert!(ended_early || sensor.is_spent(), "{}: a reply is left", trace.name);
        trace
    }

    /// One more call, on the driver that the calls before it left.
    /// `reply` gets the number of the transfer in its call, the written bytes and those to be read.
    pub fn on(mut self, call: Call, mut reply: impl FnMut(usize, &[u8], &mut [u8]) -> Result<(), u8>) -> Self {
        let mut records = vec![call.record()];
        let mut bus = Bus::new(|written: &[u8], read: &mut [u8]| {
            let replied = reply(records.len(), written, read);
            records.push(reply_record(replied, read));
            replied
        });
        let answer = make(call, &mut bus, &mut self.after);
        let transfers = bus.transfers;
        let count = transfers.len();
        let lines = transfers.into_iter().map(Line::Transfer).chain([Line::Answer(answer, count)]);
        assert_eq!(records.len(), count + 1);
        self.steps.extend(records.into_iter().zip(lines));
        self
    }

    /// The last call's answer.
    pub fn answer(&self) -> Answer {
        match self.steps.last() {
            Some((_, Line::Answer(answer, _))) => *answer,
            other => panic!("{}: no answer: {other:?}", self.name),
        }
    }

    /// The last call is answered so.
    pub fn answered(self, number: u8, value: u32) -> Self {
        assert_eq!(self.answer(), Answer(number, value), "{}", self.name);
        self
    }
}
