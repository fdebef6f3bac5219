//! A sensor, as the driver knows it, and the call that waits for a reply of the bus.

use crate::{exported, reply, Call, Outcome};
use core::num::NonZeroU8;

/// What is known of one sensor, and the call that waits, if there is one. It owns its 52 bytes.
#[derive(Clone, Debug, PartialEq, Eq)]
pub struct Session {
    bytes: [u8; Session::SIZE],
}

impl Default for Session {
    fn default() -> Self {
        Session::new()
    }
}

impl Session {
    /// The length of a session.
    pub const SIZE: usize = 52;

    /// A session of a sensor that has not been brought up.
    pub fn new() -> Self {
        let mut bytes = [0; Session::SIZE];
        exported::fresh(&mut bytes);
        Session { bytes }
    }

    /// A session that was put away. None if these are not 52 bytes, or the first of them is above 1. A session that
    /// says that a call waits, but is none that waits in it, refuses every record
    /// ([`Answer::IllFormedSession`](crate::Answer::IllFormedSession)).
    pub fn from_bytes(bytes: &[u8]) -> Option<Self> {
        let bytes: [u8; Session::SIZE] = bytes.try_into().ok()?;
        (bytes[0] <= 1).then_some(Session { bytes })
    }

    /// The bytes of this session, to be put away.
    pub fn as_bytes(&self) -> &[u8; Session::SIZE] {
        &self.bytes
    }

    /// Hands a record to the session: one of a call, or one of a reply.
    #[inline]
    pub fn step(&mut self, record: &[u8; 8]) -> Outcome {
        let mut outcome = [0; Outcome::SIZE];
        exported::step(&mut self.bytes, record, &mut outcome);
        known(&outcome)
    }

    /// Begins a call.
    pub fn begin(&mut self, call: Call) -> Outcome {
        self.step(&call.record())
    }

    /// Hands in the reply to the transfer that is out: the bytes that it read, or a failure code. Another number of
    /// bytes than the transfer reads is refused ([`Answer::IllFormedRecord`](crate::Answer::IllFormedRecord)).
    pub fn reply(&mut self, reply: Result<&[u8], NonZeroU8>) -> Outcome {
        let record = match (reply, self.outstanding()) {
            (Err(code), _) => reply::failure(code),
            (Ok(data), Outcome::Transfer(transfer)) if data.len() != transfer.reads() => reply::NO_KIND,
            (Ok(data), _) => reply::good(data),
        };
        self.step(&record)
    }

    /// The transfer that is out; where none is, [`Answer::NoCallWaits`](crate::Answer::NoCallWaits) or
    /// [`Answer::IllFormedSession`](crate::Answer::IllFormedSession).
    pub fn outstanding(&self) -> Outcome {
        let mut outcome = [0; Outcome::SIZE];
        exported::outstanding(&self.bytes, &mut outcome);
        known(&outcome)
    }

    /// Whether the sensor has been brought up. While it has not, address, stop byte and budget are 0.
    pub fn up(&self) -> bool {
        self.bytes[0] == 1
    }

    /// The sensor's address.
    pub fn address(&self) -> u8 {
        self.bytes[1]
    }

    /// The byte that the sensor wants back when a measurement is started.
    pub fn stop(&self) -> u8 {
        self.bytes[2]
    }

    /// The measurement timing budget in microseconds.
    pub fn budget(&self) -> u32 {
        self.long(3)
    }

    /// The code of the call that waits, 0 if none does. All that follows is 0 while none does.
    pub fn code(&self) -> u8 {
        self.bytes[7]
    }

    /// Argument A of the waiting call.
    pub fn a(&self) -> u32 {
        self.long(8)
    }

    /// Argument B of the waiting call.
    pub fn b(&self) -> u16 {
        u16::from_le_bytes([self.bytes[12], self.bytes[13]])
    }

    /// The step of the waiting call that is out.
    pub fn at(&self) -> u8 {
        self.bytes[14]
    }

    /// How often the wait that the call stands at has been read in vain.
    pub fn idle(&self) -> u32 {
        self.long(15)
    }

    /// The transfers of the waiting call so far, with the one that is out.
    pub fn transfers(&self) -> u32 {
        self.long(19)
    }

    /// The failure code of the range read, 0 if it did not fail.
    pub fn failed(&self) -> u8 {
        self.bytes[23]
    }

    /// The budget that a bring-up has read, in microseconds.
    pub fn found_budget(&self) -> u32 {
        self.long(24)
    }

    /// The reply bytes that the waiting call still needs.
    pub fn carried(&self) -> &[u8] {
        &self.bytes[28..]
    }

    fn long(&self, at: usize) -> u32 {
        let byte = |k| self.bytes[at + k];
        u32::from_le_bytes([byte(0), byte(1), byte(2), byte(3)])
    }
}

/// The outcome that the library has written. Its contract leaves no other bytes.
#[inline]
fn known(outcome: &[u8; Outcome::SIZE]) -> Outcome {
    Outcome::from_bytes(outcome).expect("the library writes an outcome")
}
