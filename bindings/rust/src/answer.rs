//! The answers.

use core::fmt::{self, Display, Formatter};
use core::num::NonZeroU8;

/// The numbered answers, in the names of the Rust driver's errors where it has one. The first nine end a call; the
/// others refuse a record and leave the session as it was.
#[must_use = "a call may have failed"]
#[derive(Clone, Copy, Debug, PartialEq, Eq)]
pub enum Answer {
    /// The call succeeded; the value is the number that it gives, or 0.
    Done(u32),
    /// The Rust driver's `Ok(false)`: the budget is too short, or the signal rate limit out of range.
    False,
    /// The identity is this byte and not 0xEE.
    InvalidDevice(u8),
    /// A transfer failed with this code.
    BusError(NonZeroU8),
    /// The sensor was not ready after the most reads of a wait.
    Timeout,
    /// An address outside 0x08 to 0x77.
    InvalidAddress(u8),
    /// Thresholds in the wrong order or above 8190.
    InvalidArgument,
    /// No reading is ready yet.
    WouldBlock,
    /// The Rust driver's arithmetic panics here: a place from 1 to 9.
    Panic(u8),
    /// The sensor has not been brought up.
    NotUp,
    /// A call, while another waits for its reply.
    CallWaits,
    /// A reply, while no call waits.
    NoCallWaits,
    /// A reply with bytes that were not read.
    StrayByte,
    /// No call and no reply, or arguments out of range.
    IllFormedRecord,
    /// The record is not eight bytes long.
    SpareBytes,
    /// The session says that a call waits, but is none that waits in it.
    IllFormedSession,
}

impl Answer {
    /// The value of [`Answer::Done`]; any other answer is the error.
    pub fn into_result(self) -> Result<u32, Answer> {
        match self {
            Answer::Done(value) => Ok(value),
            other => Err(other),
        }
    }

    /// The value of [`Answer::Done`] as the limit that [`Call::GetSignalRateLimit`](crate::Call::GetSignalRateLimit)
    /// has read, in million counts a second; any other answer is the error. Of another call's value it makes a number that
    /// means nothing.
    ///
    /// The limit is the sensor's word / 128, exactly, and setting it writes the same word. Only the greatest word,
    /// 65535, reads as a limit that is not set again: 511.9921875 is above 511.99, and answered [`Answer::False`].
    ///
    /// ```
    /// use vl53l0x_session::{drive, Answer, Bus, Call, Session};
    ///
    /// /// Sets the limit, and gives the one that the sensor holds then.
    /// fn set(session: &mut Session, bus: &mut impl Bus, limit: f32) -> Result<f32, Answer> {
    ///     drive(session, bus, Call::SetSignalRateLimit(limit)).0.into_result()?;
    ///     drive(session, bus, Call::GetSignalRateLimit).0.into_signal_rate_limit()
    /// }
    /// # let mut sensor = vl53l0x_simulator::Simulator::new(1);
    /// # let mut bus = |address: u8, write: &[u8], read: &mut [u8]| sensor.transfer(address, write, read);
    /// # let mut session = Session::new();
    /// # assert_eq!(drive(&mut session, &mut bus, Call::NEW).0, Answer::Done(0));
    /// assert_eq!(set(&mut session, &mut bus, 1.5), Ok(1.5));
    /// assert_eq!(set(&mut session, &mut bus, 0.3), Ok(0.296875));
    /// ```
    pub fn into_signal_rate_limit(self) -> Result<f32, Answer> {
        self.into_result().map(f32::from_bits)
    }

    /// The answer with this number and value; none where the two belong to no answer.
    pub(crate) fn of(number: u8, value: u32) -> Option<Answer> {
        let byte = u8::try_from(value);
        Some(match (number, value) {
            (0, _) => Answer::Done(value),
            (1, 0) => Answer::False,
            (2, _) => Answer::InvalidDevice(byte.ok()?),
            (3, _) => Answer::BusError(NonZeroU8::new(byte.ok()?)?),
            (4, 0) => Answer::Timeout,
            (5, _) => Answer::InvalidAddress(byte.ok()?),
            (6, 0) => Answer::InvalidArgument,
            (7, 0) => Answer::WouldBlock,
            (8, _) => Answer::Panic(byte.ok()?),
            (9, 0) => Answer::NotUp,
            (10, 0) => Answer::CallWaits,
            (11, 0) => Answer::NoCallWaits,
            (12, 0) => Answer::StrayByte,
            (13, 0) => Answer::IllFormedRecord,
            (14, 0) => Answer::SpareBytes,
            (15, 0) => Answer::IllFormedSession,
            _ => return None,
        })
    }
}

impl core::error::Error for Answer {}

/// In words, with the value where there is one.
impl Display for Answer {
    fn fmt(&self, f: &mut Formatter<'_>) -> fmt::Result {
        match self {
            Answer::Done(value) => write!(f, "done: {value}"),
            Answer::False => {
                f.write_str("the sensor cannot do that: the budget is too short, or the limit out of range")
            }
            Answer::InvalidDevice(identity) => {
                write!(f, "the device is no VL53L0X: its identity is 0x{identity:02X} and not 0xEE")
            }
            Answer::BusError(code) => write!(f, "the bus failed: code {code}"),
            Answer::Timeout => f.write_str("the sensor was not ready after the most reads of a wait"),
            Answer::InvalidAddress(address) => write!(f, "the address 0x{address:02X} is not from 0x08 to 0x77"),
            Answer::InvalidArgument => f.write_str("the thresholds are in the wrong order or above 8190 mm"),
            Answer::WouldBlock => f.write_str("no reading is ready yet"),
            Answer::Panic(place) => write!(f, "the Rust driver's arithmetic panics here: place {place}"),
            Answer::NotUp => f.write_str("refused: the sensor has not been brought up"),
            Answer::CallWaits => f.write_str("refused: a call waits for its reply"),
            Answer::NoCallWaits => f.write_str("refused: no call waits for a reply"),
            Answer::StrayByte => f.write_str("refused: the reply has bytes that were not read"),
            Answer::IllFormedRecord => {
                f.write_str("refused: the record is no call and no reply, or has arguments out of range")
            }
            Answer::SpareBytes => f.write_str("refused: the record is not 8 bytes long"),
            Answer::IllFormedSession => {
                f.write_str("refused: the session is none, or says that a call waits and is none that waits in it")
            }
        }
    }
}
