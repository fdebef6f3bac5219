//! Calls on a bus: `drive`, recorders, calls that are taken up again or given up, plain writes, page 0 by hand.

#[allow(dead_code)]
mod calls;

use calls::CALLS;
use std::num::NonZeroU8;
use vl53l0x_session::{
    abandon, drive, go_on, select_page_0, Answer, Bus, Call, Gone, Outcome, PlainWrites, Recorded, Session,
};
use vl53l0x_simulator::Simulator;

const CODE: NonZeroU8 = NonZeroU8::new(7).unwrap();
const SINGLE: Call = Call::ReadRangeSingleMillimetersBlocking;

/// The calls in their order, and then a reading at the address that the last of them gives.
fn calls() -> Vec<Call> {
    [CALLS, &[SINGLE]].concat()
}

fn simulated(sensor: &mut Simulator) -> impl Bus + '_ {
    |address: u8, write: &[u8], read: &mut [u8]| sensor.transfer(address, write, read)
}

/// A sensor at 505 mm.
fn sensor(seed: u64) -> Simulator {
    let mut sensor = Simulator::new(seed);
    sensor.set_distance(505);
    sensor
}

/// The waits of a sensor are over at once, so that call 6 finds its reading.
fn prepare(sensor: &mut Simulator, call: Call) {
    if call == Call::ReadRangeMm {
        sensor.pass_time();
    }
}

fn brought_up(sensor: &mut Simulator) -> Session {
    let mut session = Session::new();
    assert_eq!(drive(&mut session, &mut simulated(sensor), Call::NEW).0, Answer::Done(0));
    session
}

/// Rolls records through a session by hand, and gives the answers.
fn roll(session: &mut Session, records: &[[u8; 8]]) -> Vec<(Answer, u32)> {
    let outcomes = records.iter().map(|record| session.step(record));
    outcomes
        .filter_map(|outcome| match outcome {
            Outcome::Answer { answer, transfers } => Some((answer, transfers)),
            Outcome::Transfer(_) => None,
        })
        .collect()
}

#[test]
fn every_record_is_handed_to_the_recorder() {
    let (mut sensor, mut session) = (sensor(1), Session::new());
    let (mut records, mut answers) = (Vec::new(), Vec::new());
    for call in calls() {
        prepare(&mut sensor, call);
        let start = records.len();
        let mut bus = Recorded::new(simulated(&mut sensor), |record: &[u8; 8]| records.push(*record));
        let (answer, transfers) = drive(&mut session, &mut bus, call);
        assert!(matches!(answer, Answer::Done(_)), "{call:?}: {answer}");
        assert_eq!(records[start], call.record());
        assert_eq!(records.len() - start, 1 + transfers as usize, "{call:?}");
        answers.push((answer, transfers));
    }
    let mut again = Session::new();
    assert_eq!(roll(&mut again, &records), answers);
    assert_eq!(again, session);
}

/// A call that is refused is recorded too, and so is the reply to a transfer that failed.
#[test]
fn refusals_and_failures_are_recorded() {
    let mut records = Vec::new();
    let mut session = Session::new();
    let mut bus = Recorded::new(Gone(CODE), |record: &[u8; 8]| records.push(*record));
    assert_eq!(drive(&mut session, &mut bus, Call::WhoAmI), (Answer::NotUp, 0));
    assert_eq!(drive(&mut session, &mut bus, Call::NEW), (Answer::BusError(CODE), 1));
    assert_eq!(records, [Call::WhoAmI.record(), Call::NEW.record(), [2, 7, 0, 0, 0, 0, 0, 0]]);
}

/// A bus that counts its records.
struct Counting(u32);

impl Bus for Counting {
    fn write_read(&mut self, _: u8, _: &[u8], _: &mut [u8]) -> Result<(), NonZeroU8> {
        Err(CODE)
    }

    fn record(&mut self, _: &[u8; 8]) {
        self.0 += 1;
    }
}

#[test]
fn a_bus_inside_another_is_handed_the_records_too() {
    let mut plain = PlainWrites(Counting(0));
    let gone = (Answer::BusError(CODE), 1);
    assert_eq!(drive(&mut Session::new(), &mut plain, Call::NEW), gone);
    assert_eq!(plain.0 .0, 2);
    let (mut inner, mut outer) = (0, 0);
    let bus = Recorded::new(Gone(CODE), |_: &[u8; 8]| inner += 1);
    assert_eq!(drive(&mut Session::new(), &mut Recorded::new(bus, |_: &[u8; 8]| outer += 1), Call::NEW), gone);
    assert_eq!((inner, outer), (2, 2));
}

/// Does something at each transfer of each call, before that transfer is made. It is handed the place of the call in
/// `calls`, the session that waits, the sensor as it then is, and the transfers with the one that is out.
fn at_every_transfer(mut at: impl FnMut(usize, &Session, &Simulator, u32)) {
    let (mut sensor, mut session) = (sensor(2), Session::new());
    for (place, call) in calls().into_iter().enumerate() {
        prepare(&mut sensor, call);
        let mut outcome = session.begin(call);
        let mut transfers = 0;
        while let Outcome::Transfer(transfer) = outcome {
            transfers += 1;
            at(place, &session, &sensor, transfers);
            let mut data = [0; 6];
            let read = &mut data[..transfer.reads()];
            sensor.transfer(transfer.address(), transfer.written(), read).expect("no failure");
            outcome = session.reply(Ok(read));
        }
        assert!(matches!(outcome, Outcome::Answer { answer: Answer::Done(_), .. }), "{call:?}: {outcome:?}");
    }
}

#[test]
fn a_call_that_waits_goes_on() {
    let (mut whole, mut session) = (sensor(2), Session::new());
    let mut answers = Vec::new();
    for call in calls() {
        prepare(&mut whole, call);
        answers.push(drive(&mut session, &mut simulated(&mut whole), call));
    }
    at_every_transfer(|place, session, sensor, transfers| {
        let (mut session, mut sensor) = (session.clone(), sensor.clone());
        let answer = go_on(&mut session, &mut simulated(&mut sensor));
        assert_eq!(answer, answers[place], "{:?} from transfer {transfers} on", calls()[place]);
        assert_eq!(session.code(), 0);
    });
}

#[test]
fn where_no_call_waits_there_is_nothing_to_go_on_with() {
    let up = brought_up(&mut Simulator::new(1));
    let broken = Session::from_bytes(&[1; 52]).expect("52 bytes");
    for (session, answer) in
        [(Session::new(), Answer::NoCallWaits), (up, Answer::NoCallWaits), (broken, Answer::IllFormedSession)]
    {
        let (mut left, mut records) = (session.clone(), 0);
        assert_eq!(go_on(&mut left, &mut Recorded::new(Gone(CODE), |_: &[u8; 8]| records += 1)), (answer, 0));
        assert_eq!(abandon(&mut left, CODE), (answer, 0));
        assert_eq!((left, records), (session, 0));
    }
}

/// One record ends a call, but at the range read of calls 6, 7 and 8 it takes two.
#[test]
fn a_call_is_given_up_at_any_of_its_transfers() {
    let mut twice = 0;
    at_every_transfer(|place, session, _, transfers| {
        let call = calls()[place];
        let Outcome::Transfer(out) = session.outstanding() else { panic!("{call:?} has no transfer out") };
        let reads_range = out.written() == [0x1E];
        let (mut given_up, mut records) = (session.clone(), Vec::new());
        let mut bus = Recorded::new(Gone(CODE), |record: &[u8; 8]| records.push(*record));
        let (answer, made) = go_on(&mut given_up, &mut bus);
        assert_eq!(answer, Answer::BusError(CODE), "{call:?} at transfer {transfers}");
        assert_eq!(made, transfers + u32::from(reads_range), "{call:?}");
        assert_eq!(records, vec![[2, 7, 0, 0, 0, 0, 0, 0]; if reads_range { 2 } else { 1 }], "{call:?}");
        assert_eq!((given_up.code(), given_up.transfers()), (0, 0));
        let mut alone = session.clone();
        assert_eq!((abandon(&mut alone, CODE), alone), ((answer, made), given_up));
        twice += u32::from(reads_range);
    });
    assert_eq!(twice, 4, "the range reads of calls 6, 7 and, twice, 8");
}

#[test]
fn a_bus_that_always_fails_ends_every_call() {
    let session = brought_up(&mut Simulator::new(1));
    for call in calls() {
        let mut session = session.clone();
        assert_eq!(drive(&mut session, &mut Gone(CODE), call), (Answer::BusError(CODE), 1), "{call:?}");
        assert_eq!(session.code(), 0);
    }
}

/// The same answers, sessions and counts of transfers; no read where more than one byte is written.
#[test]
fn writes_can_be_plain() {
    for seed in 1..=4 {
        let (mut whole, mut plain) = (sensor(seed), sensor(seed));
        let (mut session, mut other) = (Session::new(), Session::new());
        let mut saved = 0;
        for call in calls() {
            prepare(&mut whole, call);
            prepare(&mut plain, call);
            let mut records = Vec::new();
            let inner = |address: u8, write: &[u8], read: &mut [u8]| {
                assert!(write.len() == 1 || read.is_empty(), "{call:?}: a read after {write:02X?}");
                saved += u32::from(write.len() > 1);
                plain.transfer(address, write, read)
            };
            let mut bus = PlainWrites(Recorded::new(inner, |record: &[u8; 8]| records.push(*record)));
            let expected = drive(&mut session, &mut simulated(&mut whole), call);
            assert_eq!(drive(&mut other, &mut bus, call), expected, "sensor {seed}, {call:?}");
            assert_eq!(other, session);
            assert_eq!(records.len(), 1 + expected.1 as usize);
        }
        assert!(saved > 0 && plain == whole, "sensor {seed}: the registers are the same");
    }
}

#[test]
fn a_plain_write_that_fails_is_a_failure() {
    let mut session = brought_up(&mut Simulator::new(1));
    assert_eq!(drive(&mut session, &mut PlainWrites(Gone(CODE)), SINGLE), (Answer::BusError(CODE), 1));
    let mut data = [0xA5; 2];
    let mut good = PlainWrites(|_: u8, _: &[u8], _: &mut [u8]| Ok(()));
    assert_eq!((good.write_read(0x29, &[0x0B, 0x01], &mut data), data), (Ok(()), [0, 0]));
}

#[test]
fn page_0_is_selected_by_hand() {
    let mut made = Vec::new();
    let mut records = 0;
    let bus = |address: u8, write: &[u8], read: &mut [u8]| {
        made.push((address, write.to_vec(), read.len()));
        Ok(())
    };
    assert_eq!(select_page_0(&mut Recorded::new(bus, |_: &[u8; 8]| records += 1), 0x30), Ok(()));
    assert_eq!((made, records), (vec![(0x30, vec![0xFF, 0x00], 0)], 0));
    assert_eq!(select_page_0(&mut Gone(CODE), 0x30), Err(CODE));
}
