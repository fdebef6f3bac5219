//! What a transfer costs through the exported `vl53l0x_step`, through the wrapper's `drive` and in the Rust driver, on
//! the same replies.

use hal::i2c::I2c;
use std::hint::black_box;
use std::num::NonZeroU8;
use vl53l0x::inner::{self, Fields};
use vl53l0x::VL53L0x;
use vl53l0x_session::{drive, exported, Answer, Bus, Call, Outcome, Session};
use vl53l0x_simulator::{Simulator, Wait};

const ADDRESS: u8 = 0x29;
/// As `METHOD` says.
const ROUNDS: u32 = 60;
/// Each measurement makes about so many transfers.
const TRANSFERS: usize = 100_000;

const METHOD: &str = "\
CPU time of one thread, best of 60 rounds in turn. The library is as `rt lib` builds it, the Rust driver as
cargo's release profile does: at level 3 and without overflow checks. Replies are prepared; the bus is one function
that copies them and is not inlined, the same for all, and is counted in.";

/// A bus with prepared replies.
struct Tape {
    replies: Vec<[u8; 6]>,
    next: usize,
}

impl Tape {
    /// All the bus does. It stays a function of its own, so that it costs each side the same, and takes what is written,
    /// so that each side has to make it.
    #[inline(never)]
    fn transfer(&mut self, address: u8, write: &[u8], read: &mut [u8]) -> Result<(), NonZeroU8> {
        black_box((address, write));
        let reply = &self.replies[self.next];
        self.next += 1;
        read.copy_from_slice(&reply[..read.len()]);
        Ok(())
    }
}

impl Bus for Tape {
    fn write_read(&mut self, address: u8, write: &[u8], read: &mut [u8]) -> Result<(), NonZeroU8> {
        self.transfer(address, write, read)
    }
}

/// The tape as the Rust driver's bus.
struct RustBus<'a>(&'a mut Tape);

impl I2c for RustBus<'_> {
    type Error = NonZeroU8;

    fn write(&mut self, address: u8, write: &[u8]) -> Result<(), NonZeroU8> {
        self.0.transfer(address, write, &mut [])
    }

    fn write_read(&mut self, address: u8, write: &[u8], read: &mut [u8]) -> Result<(), NonZeroU8> {
        self.0.transfer(address, write, read)
    }
}

/// A call, the session that it starts from, and the replies of a simulated sensor to it.
struct Case {
    name: &'static str,
    call: Call,
    session: Session,
    tape: Tape,
    /// What the bus was asked for: the bytes written and the number read.
    asked: Vec<(Vec<u8>, usize)>,
    answer: Answer,
}

impl Case {
    fn new(name: &'static str, call: Call, session: &mut Session, sensor: &mut Simulator) -> Self {
        let before = session.clone();
        let (mut replies, mut asked) = (Vec::new(), Vec::new());
        let mut bus = |address: u8, write: &[u8], read: &mut [u8]| {
            sensor.transfer(address, write, read)?;
            let mut reply = [0; 6];
            reply[..read.len()].copy_from_slice(read);
            replies.push(reply);
            asked.push((write.to_vec(), read.len()));
            Ok(())
        };
        let (answer, _) = drive(session, &mut bus, call);
        assert!(matches!(answer, Answer::Done(_)), "{call:?}: {answer:?}");
        Case { name, call, session: before, tape: Tape { replies, next: 0 }, asked, answer }
    }

    /// The replies from their start on.
    fn rewound(&mut self) -> &mut Tape {
        self.tape.next = 0;
        &mut self.tape
    }

    fn by_step(&mut self) -> Answer {
        let mut session = *self.session.as_bytes();
        let mut record = self.call.record();
        let tape = self.rewound();
        let mut outcome = [0; Outcome::SIZE];
        while exported::step(&mut session, &record, &mut outcome) == exported::TRANSFER {
            let (count, reads) = (usize::from(outcome[2]), usize::from(outcome[10]));
            record = [2, 0, 0, 0, 0, 0, 0, 0];
            if let Err(code) = tape.transfer(outcome[1], &outcome[3..][..count], &mut record[2..][..reads]) {
                record = [2, code.get(), 0, 0, 0, 0, 0, 0];
            }
        }
        assert_eq!(outcome[0], 0);
        Answer::Done(u32::from_le_bytes([outcome[1], outcome[2], outcome[3], outcome[4]]))
    }

    fn by_drive(&mut self) -> Answer {
        let (mut session, call) = (self.session.clone(), self.call);
        drive(&mut session, self.rewound(), call).0
    }

    fn by_rust(&mut self) -> Answer {
        let fields = Fields {
            stop_variable: self.session.stop(),
            measurement_timing_budget_microseconds: self.session.budget(),
            address: self.session.address(),
        };
        let call = self.call;
        let bus = RustBus(self.rewound());
        match call {
            Call::WithAddress(address) => {
                let driver = VL53L0x::with_address(bus, address).expect("no failure");
                black_box(inner::fields(&driver));
                Answer::Done(0)
            }
            Call::ReadRangeSingleMillimetersBlocking => {
                let mut driver = inner::driver(bus, fields);
                Answer::Done(driver.read_range_single_millimeters_blocking().expect("no failure").into())
            }
            _ => unreachable!("not measured: {call:?}"),
        }
    }

    fn by_bus(&mut self) -> Answer {
        self.tape.next = 0;
        for (write, reads) in &self.asked {
            let mut data = [0; 6];
            black_box(self.tape.transfer(ADDRESS, write, &mut data[..*reads])).expect("no failure");
        }
        self.answer
    }

    /// CPU time of a transfer in nanoseconds. All replies have to be taken, and the answer given.
    fn measure(&mut self, run: fn(&mut Case) -> Answer) -> f64 {
        let transfers = self.tape.replies.len();
        let calls = TRANSFERS / transfers;
        let before = cpu_nanoseconds();
        for _ in 0..calls {
            assert_eq!(run(black_box(self)), self.answer);
            assert_eq!(self.tape.next, transfers);
        }
        (cpu_nanoseconds() - before) as f64 / (calls * transfers) as f64
    }

    /// The best of several rounds for each way, in turn, so that a slower spell of the machine meets all of them.
    fn print(mut self) {
        let ways = [Case::by_step, Case::by_drive, Case::by_rust, Case::by_bus];
        let mut best = [f64::INFINITY; 4];
        for _ in 0..ROUNDS {
            for (best, way) in best.iter_mut().zip(ways) {
                *best = best.min(self.measure(way));
            }
        }
        let [step, drive, rust, bus] = best;
        println!("{}, {} transfers; nanoseconds for each:", self.name, self.tape.replies.len());
        println!("  vl53l0x_step       {step:7.1}");
        println!("  the wrapper, drive {drive:7.1}");
        println!("  the Rust driver    {rust:7.1}");
        println!("  the bus alone      {bus:7.1}");
        println!("  vl53l0x_step takes {:.2} times as long as the Rust driver", step / rust);
    }
}

#[repr(C)]
struct Timespec {
    seconds: i64,
    nanoseconds: i64,
}

extern "C" {
    fn clock_gettime(clock: i32, time: *mut Timespec) -> i32;
}

/// CPU time of this thread so far, as Linux counts it.
fn cpu_nanoseconds() -> i64 {
    const CLOCK_THREAD_CPUTIME_ID: i32 = 3;
    let mut time = Timespec { seconds: 0, nanoseconds: 0 };
    // SAFETY: the pointer is to a struct of C's layout that this function owns.
    let status = unsafe { clock_gettime(CLOCK_THREAD_CPUTIME_ID, &mut time) };
    assert_eq!(status, 0, "the clock is read");
    time.seconds * 1_000_000_000 + time.nanoseconds
}

/// A bus without data.
struct NoBus;

impl I2c for NoBus {
    type Error = u8;

    fn write(&mut self, _: u8, _: &[u8]) -> Result<(), u8> {
        Err(1)
    }

    fn write_read(&mut self, _: u8, _: &[u8], _: &mut [u8]) -> Result<(), u8> {
        Err(1)
    }
}

fn main() {
    let (mut sensor, mut session) = (Simulator::new(1), Session::new());
    sensor.set_distance(505);
    for wait in [Wait::Detector, Wait::Status, Wait::Status] {
        sensor.plan_wait(wait, 0);
    }
    let bring_up = Case::new("bring-up", Call::WithAddress(ADDRESS), &mut session, &mut sensor);
    for wait in [Wait::Start, Wait::Status] {
        sensor.plan_wait(wait, 4_000);
    }
    let single = Call::ReadRangeSingleMillimetersBlocking;
    let reading = Case::new("a single reading with long waits", single, &mut session, &mut sensor);

    println!("{METHOD}");
    bring_up.print();
    reading.print();
    let (session, driver) = (Session::SIZE, size_of::<VL53L0x<NoBus>>());
    println!("a session has {session} bytes; the Rust driver with a bus of no size has {driver}");
}
