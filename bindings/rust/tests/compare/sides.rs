//! The Rust driver and the exported functions, call by call on the same sensor.

use crate::bus::{Bus, Spoil};
use crate::call::{self, Answer, Call};
use crate::refused::{Refusing, State};
use crate::tally::Tally;
use vl53l0x::inner::Fields;
use vl53l0x_session::{exported, Outcome, Session};
use vl53l0x_simulator::Simulator;

pub struct Sides<'a> {
    pub sensor: Simulator,
    /// The fields of the Rust driver; none while it is not up.
    pub fields: Option<Fields>,
    session: [u8; Session::SIZE],
    /// The records between the others that the exported functions have to refuse.
    pub refusing: Refusing,
    tally: &'a mut Tally,
    /// What is being compared, for messages.
    what: String,
}

impl<'a> Sides<'a> {
    /// Two drivers that are not up.
    pub fn new(what: impl Into<String>, sensor: Simulator, tally: &'a mut Tally) -> Self {
        let mut session = [0xA5; Session::SIZE];
        assert_eq!(exported::fresh(&mut session), 0);
        assert_eq!(session, [0; Session::SIZE]);
        Sides { sensor, fields: None, session, refusing: Refusing::Nothing, tally, what: what.into() }
    }

    /// Makes a call on both sides, and compares.
    pub fn make(&mut self, call: Call) -> Answer {
        self.make_with(call, &mut |_, _| ())
    }

    /// Makes a call on both sides, with replies that `spoil` has changed, and compares.
    pub fn make_with(&mut self, call: Call, spoil: Spoil) -> Answer {
        let before = self.held();
        let mut bus = Bus::new(&mut self.sensor, spoil);
        let answer = call::make(call, &mut bus, &mut self.fields);
        let exchanges = bus.exchanges;
        let what = format!("{}, {call:?}", self.what);

        self.refuse(|| what.clone(), if before[0] == 1 { State::Up } else { State::NotUp });
        let mut outcome = self.step(call.record());
        for (n, exchange) in exchanges.iter().enumerate() {
            let what = || format!("{what}, transfer {}", n + 1);
            same(what, "the transfer", outcome, exchange.outcome());
            self.waits(what, call, before, n as u32 + 1, outcome);
            self.refuse(what, State::Waiting(exchange.reads));
            outcome = self.step(exchange.record());
        }
        let transfers = exchanges.len() as u32;
        let what = || format!("{what}, after {transfers} transfers");
        same(what, "the answer", outcome, answered(answer, transfers));
        same(what, "the session", self.session, at_rest(self.held()));
        same(what, "what is out", self.outstanding(), refusal(11));
        self.tally.add(call, answer, transfers);
        answer
    }

    /// The first seven bytes of a session, from the fields of the Rust driver.
    fn held(&self) -> [u8; 7] {
        match self.fields {
            None => [0; 7],
            Some(Fields { stop_variable, measurement_timing_budget_microseconds, address }) => {
                let [b0, b1, b2, b3] = measurement_timing_budget_microseconds.to_le_bytes();
                [1, address, stop_variable, b0, b1, b2, b3]
            }
        }
    }

    /// A session that waits holds the fields that it had, a bring-up none; the call; its transfers; and says what is
    /// out.
    fn waits(
        &self,
        what: impl Fn() -> String,
        call: Call,
        before: [u8; 7],
        transfers: u32,
        outcome: [u8; Outcome::SIZE],
    ) {
        let [_, code, a3, a2, a1, a0, b1, b0] = call.record();
        let held = if call.is_bring_up() { [0; 7] } else { before };
        same(&what, "the fields", part(&self.session, 0), held);
        same(&what, "the call", part(&self.session, 7), [code, a0, a1, a2, a3, b0, b1]);
        same(&what, "the count of transfers", part(&self.session, 19), transfers.to_le_bytes());
        same(&what, "what is out", self.outstanding(), outcome);
    }

    fn refuse(&mut self, what: impl Fn() -> String, state: State) {
        for (record, number) in self.refusing.next(state) {
            let before = self.session;
            let what = || format!("{}, then the record {record:02X?}", what());
            same(what, "the refusal", self.step(record), refusal(number));
            same(what, "the session", self.session, before);
            self.tally.refused += 1;
        }
    }

    fn step(&mut self, record: [u8; 8]) -> [u8; Outcome::SIZE] {
        let mut outcome = [0xA5; Outcome::SIZE];
        assert_eq!(exported::step(&mut self.session, &record, &mut outcome), outcome[0]);
        outcome
    }

    fn outstanding(&self) -> [u8; Outcome::SIZE] {
        let mut outcome = [0xA5; Outcome::SIZE];
        assert_eq!(exported::outstanding(&self.session, &mut outcome), outcome[0]);
        outcome
    }
}

fn same<const N: usize>(what: impl Fn() -> String, part: &str, exported: [u8; N], rust: [u8; N]) {
    let what = || format!("{}: {part}", what());
    assert!(exported == rust, "{}\nexported {exported:02X?}\nthe Rust {rust:02X?}", what());
}

/// N bytes of a session.
fn part<const N: usize>(session: &[u8; Session::SIZE], from: usize) -> [u8; N] {
    session[from..][..N].try_into().expect("a part of a session")
}

/// An answer as an outcome.
fn answered(Answer(number, value): Answer, transfers: u32) -> [u8; Outcome::SIZE] {
    let mut outcome = [0; Outcome::SIZE];
    outcome[0] = number;
    outcome[1..5].copy_from_slice(&value.to_le_bytes());
    outcome[21..].copy_from_slice(&transfers.to_le_bytes());
    outcome
}

fn refusal(number: u8) -> [u8; Outcome::SIZE] {
    answered(Answer(number, 0), 0)
}

/// A session in which no call waits.
fn at_rest(held: [u8; 7]) -> [u8; Session::SIZE] {
    let mut session = [0; Session::SIZE];
    session[..7].copy_from_slice(&held);
    session
}
