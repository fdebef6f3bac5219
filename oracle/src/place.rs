//! A panic of the Rust as one of the places of SCOPE 9.4.

use std::cell::Cell;
use std::fmt::{self, Display, Formatter};
use std::panic::{self, AssertUnwindSafe, PanicHookInfo};

/// A line of lib.rs and what goes wrong there.
#[derive(Clone, Copy, Debug, PartialEq, Eq)]
pub struct Panic {
    pub line: u32,
    pub message: &'static str,
    pub place: u8,
}

/// P and the place's number.
impl Display for Panic {
    fn fmt(&self, f: &mut Formatter) -> fmt::Result {
        write!(f, "P{}", self.place)
    }
}

impl Panic {
    /// Tells apart panics that have the same place.
    pub fn outcome(self) -> String {
        format!("{self} line {}: {}", self.line, self.message)
    }
}

const ADD: &str = "attempt to add with overflow";
const SUBTRACT: &str = "attempt to subtract with overflow";
const MULTIPLY: &str = "attempt to multiply with overflow";
const SHIFT: &str = "attempt to shift left with overflow";
const DIVIDE: &str = "attempt to divide by zero";

const fn at(line: u32, message: &'static str, place: u8) -> Panic {
    Panic { line, message, place }
}

/// Every panic that lib.rs can reach. What is appended to lib.rs has the lines after its last, and no place of its own.
pub const PANICS: [Panic; 12] = [
    at(278, MULTIPLY, 1),  // start_continuous
    at(983, SHIFT, 2),     // decode_timeout
    at(663, SUBTRACT, 3),  // get_sequence_step_timeouts: final less pre
    at(1029, ADD, 4),      // decode_vcsel_period
    at(1034, SUBTRACT, 4), // encode_vcsel_period
    at(668, ADD, 5),       // get_sequence_step_timeouts: 0x46 plus 1
    at(1012, MULTIPLY, 6), // timeout_mclks_to_microseconds
    at(1012, ADD, 6),
    at(1023, MULTIPLY, 7), // timeout_microseconds_to_mclks
    at(1023, ADD, 7),
    at(1023, DIVIDE, 8),
    at(799, ADD, 9), // set_measurement_timing_budget
];

const _: () = {
    let last = lines(include_str!("../vendor/lib.rs"));
    let mut index = 0;
    while index < PANICS.len() {
        assert!(PANICS[index].line <= last, "a place is not in lib.rs");
        index += 1;
    }
};

const fn lines(text: &str) -> u32 {
    let (bytes, mut index, mut count) = (text.as_bytes(), 0, 0);
    while index < bytes.len() {
        count += (bytes[index] == b'\n') as u32;
        index += 1;
    }
    count
}

thread_local! {
    static EXPECTED: Cell<bool> = const { Cell::new(false) };
    static CAUGHT: Cell<Option<Panic>> = const { Cell::new(None) };
}

fn known(info: &PanicHookInfo) -> Option<Panic> {
    let location = info.location()?;
    let message = info.payload().downcast_ref::<&str>()?;
    PANICS.into_iter().find(|panic| {
        location.file().ends_with("/vl53l0x.rs") && panic.line == location.line() && panic.message == *message
    })
}

/// From here on a panic that has no place, or is outside `run`, ends the program.
pub fn install() {
    let print = panic::take_hook();
    panic::set_hook(Box::new(move |info| match known(info) {
        Some(panic) if EXPECTED.get() => CAUGHT.set(Some(panic)),
        _ => {
            print(info);
            std::process::exit(1);
        }
    }));
}

/// What `call` gives, or where it panics. An unwind that is no panic goes on.
pub fn run<T>(call: impl FnOnce() -> T) -> Result<T, Panic> {
    EXPECTED.set(true);
    let answer = panic::catch_unwind(AssertUnwindSafe(call));
    EXPECTED.set(false);
    answer.map_err(|payload| CAUGHT.take().unwrap_or_else(|| panic::resume_unwind(payload)))
}

pub fn text(answer: Result<impl Display, Panic>) -> String {
    match answer {
        Ok(number) => number.to_string(),
        Err(panic) => panic.to_string(),
    }
}
