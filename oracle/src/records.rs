//! A list of records, run on the Rust by the rules of SCOPE 7 to SCOPE 9. The Rust blocks, so the bus itself takes
//! records until one of them replies to its transfer.

use crate::call::{make, Answer, Call, Record};
use hal::i2c::I2c;
use std::io::{self, Read, Write};
use std::panic::{self, AssertUnwindSafe};
use vl53l0x::inner::Fields;

/// A record that is not refused with 13 (SCOPE 7).
enum Event {
    Call(Call),
    Reply { failure: u8, data: [u8; 6] },
}

fn event([kind, code, rest @ ..]: Record) -> Option<Event> {
    match kind {
        1 => Call::of(code, rest).map(Event::Call),
        2 => Some(Event::Reply { failure: code, data: rest }),
        _ => None,
    }
}

/// Gets what each record leads to: a transfer or an answer.
trait Log {
    /// The driver's fields from now on, none while it is not up.
    fn fields(&mut self, up: Option<Fields>);
    fn transfer(&mut self, address: u8, written: &[u8], read: usize) -> io::Result<()>;
    /// With the transfers of its call.
    fn answer(&mut self, answer: Answer, transfers: u32) -> io::Result<()>;
}

/// The payload of the unwind that leaves the Rust when the list ends while a call waits.
struct ListEnds;

struct ListBus<R, L> {
    list: R,
    /// Whether the list has ended with bytes that are no whole record.
    spare: bool,
    log: L,
    /// Of the last call.
    transfers: u32,
}

impl<R: Read, L: Log> ListBus<R, L> {
    fn record(&mut self) -> Option<Record> {
        let mut record = [0; 8];
        let mut filled = 0;
        while filled < record.len() {
            match self.list.read(&mut record[filled..]).expect("the list is read") {
                0 => {
                    self.spare = filled > 0;
                    return None;
                }
                count => filled += count,
            }
        }
        Some(record)
    }

    fn answer(&mut self, answer: Answer, transfers: u32) {
        self.log.answer(answer, transfers).expect("the answer is written");
    }

    fn refuse(&mut self, number: u8) {
        self.answer(Answer(number, 0), 0);
    }

    /// The next reply that is not refused: its data, or its failure code.
    fn reply(&mut self, read: usize) -> Result<[u8; 6], u8> {
        loop {
            let record = self.record().unwrap_or_else(|| panic::resume_unwind(Box::new(ListEnds)));
            match event(record) {
                None => self.refuse(13),
                Some(Event::Call(_)) => self.refuse(10),
                Some(Event::Reply { failure, data }) => {
                    let length = if failure == 0 { read } else { 0 };
                    match (failure, &data[length..]) {
                        (_, stray) if stray.iter().any(|byte| *byte != 0) => self.refuse(12),
                        (0, _) => return Ok(data),
                        _ => return Err(failure),
                    }
                }
            }
        }
    }

    fn run(&mut self) {
        let mut up = None;
        while let Some(record) = self.record() {
            match event(record) {
                None => self.refuse(13),
                Some(Event::Reply { .. }) => self.refuse(11),
                Some(Event::Call(call)) if up.is_none() && !call.is_bring_up() => self.refuse(9),
                Some(Event::Call(call)) => {
                    if call.is_bring_up() {
                        self.log.fields(None);
                    }
                    self.transfers = 0;
                    let answer = make(call, &mut *self, &mut up);
                    self.log.fields(up);
                    self.answer(answer, self.transfers);
                }
            }
        }
    }
}

impl<R: Read, L: Log> I2c for &mut ListBus<R, L> {
    type Error = u8;

    fn write(&mut self, address: u8, write: &[u8]) -> Result<(), u8> {
        self.write_read(address, write, &mut [])
    }

    fn write_read(&mut self, address: u8, write: &[u8], read: &mut [u8]) -> Result<(), u8> {
        self.transfers += 1;
        self.log.transfer(address, write, read.len()).expect("the transfer is written");
        let data = self.reply(read.len())?;
        read.copy_from_slice(&data[..read.len()]);
        Ok(())
    }
}

/// Runs the whole records of a list from a driver that is not up. True if bytes are left.
fn run<L: Log>(list: impl Read, log: L) -> (L, bool) {
    let mut bus = ListBus { list, spare: false, log, transfers: 0 };
    match panic::catch_unwind(AssertUnwindSafe(|| bus.run())) {
        Err(payload) if !payload.is::<ListEnds>() => panic::resume_unwind(payload),
        _ => (bus.log, bus.spare),
    }
}

/// A byte as two upper-case hexadecimal digits.
fn digits(byte: u8) -> [u8; 2] {
    [byte >> 4, byte & 0x0F].map(|digit| b"0123456789ABCDEF"[usize::from(digit)])
}

struct Lines<W>(W);

impl<W: Write> Log for Lines<W> {
    fn fields(&mut self, _: Option<Fields>) {}

    fn transfer(&mut self, address: u8, written: &[u8], read: usize) -> io::Result<()> {
        let [high, low] = digits(address);
        self.0.write_all(&[b'T', b' ', high, low, b' '])?;
        for byte in written {
            self.0.write_all(&digits(*byte))?;
        }
        self.0.write_all(&[b' ', b'0' + read as u8, b'\n'])
    }

    fn answer(&mut self, Answer(number, value): Answer, transfers: u32) -> io::Result<()> {
        writeln!(self.0, "A {number} {value} {transfers}")
    }
}

/// Writes what the program rolltrace has to print for this list.
pub fn lines(list: impl Read, out: impl Write) -> io::Result<()> {
    let (mut lines, spare) = run(list, Lines(out));
    if spare {
        lines.answer(Answer(14, 0), 0)?;
    }
    lines.0.flush()
}

struct FieldLines<W> {
    out: W,
    up: Option<Fields>,
}

impl<W: Write> FieldLines<W> {
    fn line(&mut self) -> io::Result<()> {
        match self.up {
            None => writeln!(self.out, "F 0 0 0 0"),
            Some(Fields { stop_variable, measurement_timing_budget_microseconds, address }) => {
                writeln!(self.out, "F 1 {address} {stop_variable} {measurement_timing_budget_microseconds}")
            }
        }
    }
}

impl<W: Write> Log for FieldLines<W> {
    fn fields(&mut self, up: Option<Fields>) {
        self.up = up;
    }

    fn transfer(&mut self, _: u8, _: &[u8], _: usize) -> io::Result<()> {
        self.line()
    }

    fn answer(&mut self, _: Answer, _: u32) -> io::Result<()> {
        self.line()
    }
}

/// Writes for each whole record of this list the fields after it: up or not, address, stop byte, budget.
pub fn fields(list: impl Read, out: impl Write) -> io::Result<()> {
    let (mut fields, _) = run(list, FieldLines { out, up: None });
    fields.out.flush()
}
