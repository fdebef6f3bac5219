//! A safe wrapper of the proved VL53L0X driver, the static library that `rt lib` makes of crates/vl53l0x.
//!
//! The driver makes no transfer itself. A [`Session`] is begun with a [`Call`]; it answers at once or names a transfer,
//! and the bus's reply to that leads to the next transfer or to the answer. [`drive`] does this on a [`Bus`] until the
//! answer is there, and [`Answer::into_result`] makes a `Result` of that:
//!
//! ```
//! use core::num::NonZeroU8;
//! use vl53l0x_session::{drive, Answer, Bus, Call, Session};
//!
//! /// Brings the sensor up and reads one distance, in millimetres.
//! fn distance(bus: &mut impl Bus) -> Result<u32, Answer> {
//!     let mut session = Session::new();
//!     drive(&mut session, bus, Call::NEW).0.into_result()?;
//!     drive(&mut session, bus, Call::ReadRangeSingleMillimetersBlocking).0.into_result()
//! }
//!
//! // A simulated sensor stands for the real one.
//! let mut sensor = vl53l0x_simulator::Simulator::new(1);
//! sensor.set_distance(505);
//! let mut bus = |address: u8, write: &[u8], read: &mut [u8]| sensor.transfer(address, write, read);
//! assert_eq!(distance(&mut bus), Ok(505));
//!
//! // A bus with no sensor on it: every transfer fails with code 4.
//! const CODE: NonZeroU8 = NonZeroU8::new(4).unwrap();
//! let mut bus = |_address: u8, _write: &[u8], _read: &mut [u8]| Err(CODE);
//! let answer = distance(&mut bus).unwrap_err();
//! assert_eq!(answer, Answer::BusError(CODE));
//! assert_eq!(answer.to_string(), "the bus failed: code 4");
//! ```
//!
//! The library has no state: all that is known of a sensor is in its session, sessions are independent of each other,
//! and the 52 bytes of one can be put away and taken up again ([`Session::as_bytes`], [`Session::from_bytes`]). A call
//! that waits in such a session is taken up by [`go_on`], or given up by [`abandon`] where its bus is gone.
//!
//! # Records
//!
//! A [`Recorded`] bus hands every record to a closure, before the session gets it. From a file of them, from a fresh
//! session on, the program `rolltrace` of the repository tells again what was done and answered:
//!
//! ```
//! use vl53l0x_session::{drive, Call, Recorded, Session};
//!
//! let mut sensor = vl53l0x_simulator::Simulator::new(1);
//! let mut file = Vec::new();
//! let bus = |address: u8, write: &[u8], read: &mut [u8]| sensor.transfer(address, write, read);
//! let mut bus = Recorded::new(bus, |record: &[u8; 8]| file.extend_from_slice(record));
//! let (_, transfers) = drive(&mut Session::new(), &mut bus, Call::NEW);
//! assert_eq!(file[..8], Call::NEW.record());
//! assert_eq!(file.len(), 8 + 8 * transfers as usize);
//! ```
//!
//! # Plain writes
//!
//! The Rust driver reads after it has written, and ignores what it reads. On a [`PlainWrites`] bus a write is a write
//! alone, which takes less time; the answers are the same:
//!
//! ```
//! use vl53l0x_session::{drive, Answer, Call, PlainWrites, Session};
//!
//! let mut sensor = vl53l0x_simulator::Simulator::new(1);
//! let mut bus = PlainWrites(|address: u8, write: &[u8], read: &mut [u8]| {
//!     assert!(write.len() == 1 || read.is_empty());
//!     sensor.transfer(address, write, read)
//! });
//! assert_eq!(drive(&mut Session::new(), &mut bus, Call::NEW).0, Answer::Done(0));
//! ```
//!
//! # After a failure
//!
//! That is after any answer of [`Answer::BusError`] or [`Answer::Timeout`]. The answers equal the Rust driver's, also
//! where a caller would not expect them: the session is right about what the driver knows, but what the *sensor* has
//! taken of the call is not known, and the next call may be [`Answer::Done`] and wrong.
//!
//! - A single reading that broke may leave its interrupt pending, or a measurement under way that leaves it pending
//!   later. The next single reading then answers at once with the *old* distance. Its own measurement ends after that,
//!   so the reading after it may be one behind too, and so on.
//! - A single reading, a start or a stop that broke may leave page 1 of the registers selected. What the next call sets
//!   goes to other registers; it is Done, and the sensor has not taken it. A window or a limit that is read back then
//!   comes from those registers too, and is the one that was set.
//! - A bring-up that broke may leave another page selected too. Every bring-up after it is [`Answer::InvalidDevice`].
//!
//! What to do. Each step has to be Done; where one is not, begin with the first again.
//!
//! - A single reading, [`Call::ReadRangeSingleMillimetersBlocking`]: select page 0 by hand, make one single reading and
//!   throw its value away, wait for longer than a measurement takes, clear the interrupt. Then read.
//! - A reading while the sensor measures continuously: make one reading by
//!   [`Call::ReadRangeContinuousMillimetersBlocking`] and throw its value away. A single reading would stop the
//!   measurements.
//! - A start of continuous measurements: select page 0 by hand, start again, throw one reading away.
//! - A stop: select page 0 by hand, stop again, then as after a single reading.
//! - A change of address: if nobody answers at the old address, bring the sensor up at the new one; else change it
//!   again.
//! - A bring-up: select page 0 by hand, then bring up again.
//! - Any other call: make it again.
//! - A single reading that was taken up again ([`go_on`]) and is Done: throw its value away too, which may be the
//!   distance of before the stop, and go on as after a single reading that broke.
//! - A session that was lost, as when a program ends in the middle of a call: as after a bring-up that broke. The first
//!   bring-up may be [`Answer::Timeout`] where the sensor was measuring continuously.
//!
//! ```
//! use vl53l0x_session::{drive, select_page_0, Answer, Bus, Call, Session};
//!
//! /// After a single reading that broke. `wait` lets so many microseconds pass.
//! fn recover(session: &mut Session, bus: &mut impl Bus, wait: impl FnOnce(u32)) -> Result<(), Answer> {
//!     select_page_0(bus, session.address()).map_err(Answer::BusError)?;
//!     drive(session, bus, Call::ReadRangeSingleMillimetersBlocking).0.into_result()?;
//!     wait(2 * session.budget());
//!     drive(session, bus, Call::ClearInterruptStatus).0.into_result()?;
//!     Ok(())
//! }
//! # use core::{cell::RefCell, num::NonZeroU8};
//! # let sensor = RefCell::new(vl53l0x_simulator::Simulator::new(1));
//! # let mut bus = |address: u8, write: &[u8], read: &mut [u8]| sensor.borrow_mut().transfer(address, write, read);
//! # let mut session = Session::new();
//! # assert_eq!(drive(&mut session, &mut bus, Call::NEW).0, Answer::Done(0));
//! # for recovers in [false, true] {
//! #     sensor.borrow_mut().set_distance(900);
//! #     sensor.borrow_mut().fail_after(9, NonZeroU8::MIN);
//! #     let single = Call::ReadRangeSingleMillimetersBlocking;
//! #     assert_eq!(drive(&mut session, &mut bus, single).0, Answer::BusError(NonZeroU8::MIN));
//! #     sensor.borrow_mut().pass_time();
//! #     if recovers {
//! #         assert_eq!(recover(&mut session, &mut bus, |_| sensor.borrow_mut().pass_time()), Ok(()));
//! #     }
//! #     sensor.borrow_mut().pass_time();
//! #     sensor.borrow_mut().set_distance(100);
//! #     assert_eq!(drive(&mut session, &mut bus, single).0, Answer::Done(if recovers { 100 } else { 900 }));
//! # }
//! ```
//!
//! And at any time:
//!
//! - A session does not notice that its sensor was without power. What the bring-up loaded is gone, and a reading is
//!   Done all the same. Bring the sensor up again.
//! - No call reads the range status. "Out of range" is a number to the driver, as a rule some 8190 mm. A caller has to
//!   know which distances can be.
//! - A sensor that is never ready is answered [`Answer::Timeout`] only after many transfers: a bring-up makes up to
//!   85,684, which is 8.4 s at 400 kHz, a single reading up to 20,008, which is 2 s.
//!
//! How often all this happens and that the recipes help was measured on a simulated sensor: bindings/README.md.

#![no_std]
#![deny(missing_docs)]
#![deny(unsafe_code)]

mod answer;
mod bus;
mod call;
mod drive;
pub mod exported;
mod outcome;
mod plain_writes;
mod recorded;
mod reply;
mod session;

pub use answer::Answer;
pub use bus::{select_page_0, Bus};
pub use call::{Call, GpioFunctionality, GpioPolarity, DEFAULT_ADDRESS};
pub use drive::{abandon, drive, go_on, Gone};
pub use outcome::{Outcome, Transfer};
pub use plain_writes::PlainWrites;
pub use recorded::Recorded;
pub use session::Session;
