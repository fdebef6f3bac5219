//! A call on a bus that blocks, to its answer.

use crate::{reply, Answer, Bus, Call, Outcome, Session, Transfer};
use core::num::NonZeroU8;

/// Runs one call to its answer, and tells the transfers that it made.
pub fn drive<B: Bus + ?Sized>(session: &mut Session, bus: &mut B, call: Call) -> (Answer, u32) {
    let record = call.record();
    bus.record(&record);
    let outcome = session.step(&record);
    to_the_answer(session, bus, outcome)
}

/// Takes a call that waits up again at the transfer that is out, in a session that was put away, and runs it to its
/// answer. Where no call waits the answer is [`Answer::NoCallWaits`]; where the session is none that waits in its call,
/// [`Answer::IllFormedSession`].
pub fn go_on<B: Bus + ?Sized>(session: &mut Session, bus: &mut B) -> (Answer, u32) {
    let outcome = session.outstanding();
    to_the_answer(session, bus, outcome)
}

/// Ends a call that waits where the bus is gone: every transfer that it still asks for fails with this code. That is
/// one, but at the range read of calls 6, 7 and 8 two: the interrupt is still to be cleared, and that fails too.
pub fn abandon(session: &mut Session, code: NonZeroU8) -> (Answer, u32) {
    go_on(session, &mut Gone(code))
}

/// A bus that is gone: every transfer fails with this code.
#[derive(Clone, Copy, Debug)]
pub struct Gone(pub NonZeroU8);

impl Bus for Gone {
    fn write_read(&mut self, _: u8, _: &[u8], _: &mut [u8]) -> Result<(), NonZeroU8> {
        Err(self.0)
    }
}

#[inline]
fn to_the_answer<B: Bus + ?Sized>(session: &mut Session, bus: &mut B, mut outcome: Outcome) -> (Answer, u32) {
    loop {
        match outcome {
            Outcome::Answer { answer, transfers } => return (answer, transfers),
            Outcome::Transfer(transfer) => {
                let record = reply_to(&transfer, bus);
                bus.record(&record);
                outcome = session.step(&record);
            }
        }
    }
}

/// Makes a transfer. The bytes read go straight into the record of a good reply.
#[inline]
fn reply_to<B: Bus + ?Sized>(transfer: &Transfer, bus: &mut B) -> [u8; 8] {
    let mut record = [2, 0, 0, 0, 0, 0, 0, 0];
    match bus.write_read(transfer.address(), transfer.written(), &mut record[2..][..transfer.reads()]) {
        Ok(()) => record,
        Err(code) => reply::failure(code),
    }
}
