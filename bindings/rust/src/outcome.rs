//! What a record leads to.

use crate::exported::TRANSFER;
use crate::Answer;

/// What a record leads to: a transfer to be made, or an answer.
#[must_use = "a transfer may have to be made, or the call may have failed"]
#[derive(Clone, Copy, Debug, PartialEq, Eq)]
pub enum Outcome {
    /// This transfer is to be made, and its reply handed in.
    Transfer(Transfer),
    /// The answer.
    Answer {
        /// Its case and value.
        answer: Answer,
        /// The transfers that the call made; 0 for a refusal.
        transfers: u32,
    },
}

/// A transfer: bytes written to an address, then bytes read.
#[derive(Clone, Copy, Debug, PartialEq, Eq)]
pub struct Transfer {
    address: u8,
    count: u8,
    written: [u8; 7],
    reads: u8,
}

impl Transfer {
    /// The address of the device, seven bits as the Rust driver has it.
    #[inline]
    pub fn address(&self) -> u8 {
        self.address
    }

    /// The bytes to write, one to seven.
    #[inline]
    pub fn written(&self) -> &[u8] {
        &self.written[..usize::from(self.count)]
    }

    /// How many bytes to read after that: 0, 1, 2 or 6. With 0 the transfer is a write alone.
    #[inline]
    pub fn reads(&self) -> usize {
        usize::from(self.reads)
    }
}

impl Outcome {
    /// The length of an outcome.
    pub const SIZE: usize = 25;

    /// Reads the bytes of an outcome; none if they are no outcome of the library.
    #[inline]
    pub fn from_bytes(bytes: &[u8; Outcome::SIZE]) -> Option<Outcome> {
        match *bytes {
            [TRANSFER, address, count @ 1..=7, w0, w1, w2, w3, w4, w5, w6, reads @ (0 | 1 | 2 | 6), rest @ ..] => {
                let written = [w0, w1, w2, w3, w4, w5, w6];
                are_zeros(&rest).then_some(Outcome::Transfer(Transfer { address, count, written, reads }))
            }
            // There is room for five values; today an answer has one.
            [number, v0, v1, v2, v3, others @ .., t0, t1, t2, t3] => {
                let answer = Answer::of(number, u32::from_le_bytes([v0, v1, v2, v3]))?;
                let transfers = u32::from_le_bytes([t0, t1, t2, t3]);
                are_zeros(&others).then_some(Outcome::Answer { answer, transfers })
            }
        }
    }
}

fn are_zeros(bytes: &[u8]) -> bool {
    bytes.iter().all(|byte| *byte == 0)
}
