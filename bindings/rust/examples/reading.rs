//! Brings up a simulated sensor and reads distances from it, also on a bus that fails. Whatever the driver says is held
//! to what the simulator knows; the program ends with a panic at the first difference. The argument, if there is one,
//! names a file that every record is written to.

use std::fmt::Display;
use std::fs::File;
use std::io::{BufWriter, Write};
use std::num::NonZeroU8;
use std::{env, process};
use vl53l0x_session::{
    drive, go_on, select_page_0, Answer, Bus, Call, Gone, Outcome, PlainWrites, Recorded, Session, DEFAULT_ADDRESS,
};
use vl53l0x_simulator::Simulator;

/// The failure codes of this example's bus.
const BROKEN: NonZeroU8 = NonZeroU8::new(7).unwrap();
const BUS_IS_GONE: NonZeroU8 = NonZeroU8::new(9).unwrap();

const SINGLE: Call = Call::ReadRangeSingleMillimetersBlocking;

fn give_up(what: impl Display, status: i32) -> ! {
    eprintln!("{what}");
    process::exit(status)
}

/// The file of the records, if one is wanted.
struct Records(Option<(String, BufWriter<File>)>);

impl Records {
    fn create(name: Option<String>) -> Self {
        Records(name.map(|name| match File::create(&name) {
            Ok(file) => (name, BufWriter::new(file)),
            Err(error) => give_up(format_args!("{name}: {error}"), 1),
        }))
    }

    fn write(&mut self, record: &[u8; 8]) {
        if let Some((name, file)) = &mut self.0 {
            file.write_all(record).unwrap_or_else(|error| give_up(format_args!("{name}: {error}"), 1));
        }
    }

    fn finish(self) {
        if let Some((name, mut file)) = self.0 {
            file.flush().unwrap_or_else(|error| give_up(format_args!("{name}: {error}"), 1));
        }
    }
}

struct Reader {
    session: Session,
    sensor: Simulator,
    records: Records,
}

/// The simulated bus, recorded.
fn bus<'a>(sensor: &'a mut Simulator, records: &'a mut Records) -> impl Bus + 'a {
    let transfer = |address: u8, write: &[u8], read: &mut [u8]| sensor.transfer(address, write, read);
    Recorded::new(transfer, |record: &[u8; 8]| records.write(record))
}

impl Reader {
    /// Runs one call to its answer, which has to come after as many transfers as the simulator has seen.
    fn call(&mut self, call: Call) -> (Answer, u32) {
        let before = self.sensor.transfers();
        let (answer, transfers) = drive(&mut self.session, &mut bus(&mut self.sensor, &mut self.records), call);
        assert_eq!(transfers, self.sensor.transfers() - before, "{call:?}: transfers");
        (answer, transfers)
    }

    /// Runs one call that has to succeed with this value, and tells its transfers.
    fn done(&mut self, call: Call, value: u32) -> u32 {
        let (answer, transfers) = self.call(call);
        assert_eq!(answer, Answer::Done(value), "{call:?}");
        transfers
    }

    /// A bring-up that breaks on page 1 leaves the sensor there, where the next one finds no identity.
    fn bring_up_after_failure(&mut self) {
        self.sensor.fail_after(7, BROKEN);
        assert_eq!(self.call(Call::NEW), (Answer::BusError(BROKEN), 8));
        assert!(!self.session.up());
        println!("bring-up: the bus failed with code {BROKEN} at transfer 8");

        let identity = self.sensor.register(1, 0xC0);
        assert_eq!(self.call(Call::NEW).0, Answer::InvalidDevice(identity));
        assert_eq!(self.sensor.page(), 1);
        println!("bring-up again: identity 0x{identity:02X} is not 0xEE, for the sensor is still on page 1");

        let selected = select_page_0(&mut bus(&mut self.sensor, &mut self.records), DEFAULT_ADDRESS);
        assert_eq!((selected, self.sensor.page()), (Ok(()), 0));
        println!("page 0 selected by hand");

        let transfers = self.done(Call::NEW, 0);
        let Reader { session, sensor, .. } = self;
        assert!(session.up());
        assert_eq!(session.address(), sensor.address());
        assert_eq!(session.stop(), sensor.stop());
        println!(
            "brought up at 0x{:02X} after {transfers} transfers: stop byte 0x{:02X}, timing budget {} microseconds",
            session.address(),
            session.stop(),
            session.budget()
        );
    }

    /// With the timeouts that bring-up loads, a budget of 33,000 microseconds leaves 0x0292 for the final range.
    fn set_budget(&mut self) {
        let transfers = self.done(Call::SetMeasurementTimingBudget(33_000), 0);
        assert_eq!(self.sensor.word(0x71), 0x0292);
        assert_eq!(self.session.budget(), 33_000);
        println!("timing budget set to 33000 microseconds after {transfers} transfers");
    }

    fn read_single(&mut self, distance: u16) {
        self.sensor.set_distance(distance);
        let transfers = self.done(SINGLE, distance.into());
        println!("single reading: {distance} mm after {transfers} transfers");
    }

    fn read_continuous(&mut self, distance: u16) {
        self.sensor.set_distance(distance);
        let transfers = self.done(Call::ReadRangeContinuousMillimetersBlocking, distance.into());
        println!("continuous reading: {distance} mm after {transfers} transfers");
    }

    /// The sensor measures this distance, and the bus breaks the transfer that would clear the interrupt, the last but
    /// one of the reading. How many there are is found out on copies. Tells which transfer broke.
    fn break_at_clearing(&mut self, distance: u16) -> u32 {
        self.sensor.set_distance(distance);
        let mut copy =
            Reader { session: self.session.clone(), sensor: self.sensor.clone(), records: Records::create(None) };
        let transfers = copy.done(SINGLE, distance.into());

        self.sensor.fail_after(transfers - 2, BROKEN);
        assert_eq!(self.call(SINGLE), (Answer::BusError(BROKEN), transfers - 1));
        assert!(self.session.up());
        transfers - 1
    }

    /// Runs one call; none if the bus broke it, else its value.
    fn unless_broken(&mut self, call: Call) -> Option<u32> {
        match self.call(call).0 {
            Answer::BusError(code) => {
                assert_eq!(Some(code), self.sensor.last_failure());
                None
            }
            answer => Some(answer.into_result().expect("a call that did not break is Done")),
        }
    }

    /// Longer than a measurement takes. On a machine this waits, for twice the timing budget, say.
    fn pause_for_measurement(&mut self) {
        self.sensor.pass_time();
    }

    /// What the crate's documentation says has to be done after a single reading that broke. None if one of the steps
    /// broke too; then it is begun again. Tells the value that is thrown away.
    fn recover(&mut self) -> Option<u32> {
        let selected = select_page_0(&mut bus(&mut self.sensor, &mut self.records), self.session.address());
        if let Err(code) = selected {
            assert_eq!(Some(code), self.sensor.last_failure());
            return None;
        }
        let thrown_away = self.unless_broken(SINGLE)?;
        self.pause_for_measurement();
        self.unless_broken(Call::ClearInterruptStatus)?;
        Some(thrown_away)
    }

    /// The readings after one that broke may be old ones, each of them one behind. After `recover` they are not.
    fn read_after_failure(&mut self) {
        let broken = self.break_at_clearing(900);
        println!(
            "single reading at 900 mm: the bus failed with code {BROKEN} at transfer {broken}, \
             where the interrupt is cleared"
        );
        self.sensor.pass_time();
        self.sensor.set_distance(100);
        self.done(SINGLE, 900);
        println!("the roll moves to 100 mm; the same call again: 900 mm, which is the old reading");
        self.sensor.pass_time();
        assert_eq!(self.sensor.word(0x1E), 100);
        self.sensor.set_distance(200);
        self.done(SINGLE, 100);
        println!(
            "a while later the roll moves to 200 mm; one more: 100 mm, one behind: throwing one away is not enough"
        );
        self.recover().expect("nothing breaks");

        self.break_at_clearing(900);
        self.sensor.pass_time();
        self.sensor.set_distance(200);
        assert_eq!(self.recover(), Some(900));
        self.sensor.pass_time();
        self.sensor.set_distance(100);
        self.done(SINGLE, 100);
        println!(
            "the same again, but recovered first (page 0 by hand, one reading thrown away: 900 mm, a pause, \
             the interrupt cleared), then: 100 mm"
        );
    }

    /// A bus that breaks any transfer now and then. While a reading is recovered the roll is at 900 mm.
    fn read_on_noisy_bus(&mut self) {
        let mut broken = 0;
        self.sensor.fail_one_in(Some(100));
        for distance in 100..150 {
            self.sensor.set_distance(distance);
            let range = loop {
                if let Some(range) = self.unless_broken(SINGLE) {
                    break range;
                }
                broken += 1;
                self.sensor.pass_time();
                self.sensor.set_distance(900);
                while self.recover().is_none() {}
                self.sensor.pass_time();
                self.sensor.set_distance(distance);
            };
            assert_eq!(range, distance.into());
            self.sensor.pass_time();
        }
        self.sensor.fail_one_in(None);
        println!(
            "one transfer in 100 fails: 50 single readings are right, with a recovery after each of the {broken} \
             that broke"
        );
    }

    /// The first transfer of a reading is out and cannot be made.
    fn abandon_reading(&mut self) {
        let mut gone = Recorded::new(Gone(BUS_IS_GONE), |record: &[u8; 8]| self.records.write(record));
        let record = SINGLE.record();
        gone.record(&record);
        assert!(matches!(self.session.step(&record), Outcome::Transfer(_)));
        assert_eq!(go_on(&mut self.session, &mut gone), (Answer::BusError(BUS_IS_GONE), 1));
        assert_eq!(self.session.code(), 0);
        println!("the bus is gone: the call that waits is given up with code {BUS_IS_GONE} after 1 transfer");
    }

    fn read_with_plain_writes(&mut self, distance: u16) {
        self.sensor.set_distance(distance);
        let before = self.sensor.transfers();
        let mut plain = PlainWrites(bus(&mut self.sensor, &mut self.records));
        let (answer, transfers) = drive(&mut self.session, &mut plain, SINGLE);
        drop(plain);
        assert_eq!((answer, transfers), (Answer::Done(distance.into()), self.sensor.transfers() - before));
        println!("with plain writes: single reading {distance} mm after {transfers} transfers");
    }

    fn read_continuously(&mut self) {
        self.done(Call::StartContinuous(50), 0);
        println!("continuous readings, one in 50 ms: started");
        self.read_continuous(88);
        self.read_continuous(89);
        self.read_continuous(640);
        self.done(Call::StopContinuous, 0);
        println!("continuous readings: stopped");
    }
}

fn main() {
    let mut arguments = env::args().skip(1);
    let name = arguments.next();
    if arguments.next().is_some() {
        give_up("usage: reading [FILE FOR RECORDS]", 2);
    }
    let mut reader = Reader { session: Session::new(), sensor: Simulator::new(1), records: Records::create(name) };

    reader.bring_up_after_failure();
    reader.set_budget();
    reader.read_single(505);
    reader.read_single(1207);
    reader.read_after_failure();
    reader.read_on_noisy_bus();
    reader.abandon_reading();
    reader.read_with_plain_writes(640);
    reader.read_continuously();
    println!("{} transfers in all; every distance is the simulator's", reader.sensor.transfers());
    reader.records.finish();
}
