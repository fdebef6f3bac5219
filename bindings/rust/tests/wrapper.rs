//! The safe wrapper: records, outcomes, answers in words, sessions as bytes, replies.

#[allow(dead_code)]
mod calls;

use std::num::NonZeroU8;
use vl53l0x_session::{drive, Answer, Call, GpioFunctionality, GpioPolarity, Outcome, Session};
use vl53l0x_simulator::Simulator;

const CODE: NonZeroU8 = NonZeroU8::new(7).unwrap();

/// A call on a simulated sensor.
fn on(sensor: &mut Simulator, session: &mut Session, call: Call) -> (Answer, u32) {
    drive(session, &mut |address: u8, write: &[u8], read: &mut [u8]| sensor.transfer(address, write, read), call)
}

fn brought_up(sensor: &mut Simulator) -> Session {
    let mut session = Session::new();
    assert_eq!(on(sensor, &mut session, Call::NEW).0, Answer::Done(0));
    session
}

#[test]
fn calls_have_their_records() {
    let records = [
        (Call::NEW, [1, 1, 0, 0, 0, 0x29, 0, 0]),
        (Call::WithAddress(0x30), [1, 1, 0, 0, 0, 0x30, 0, 0]),
        (Call::WhoAmI, [1, 2, 0, 0, 0, 0, 0, 0]),
        (Call::SetAddress(0x30), [1, 3, 0, 0, 0, 0x30, 0, 0]),
        (Call::StartContinuous(0x1234_5678), [1, 4, 0x12, 0x34, 0x56, 0x78, 0, 0]),
        (Call::StopContinuous, [1, 5, 0, 0, 0, 0, 0, 0]),
        (Call::ReadRangeMm, [1, 6, 0, 0, 0, 0, 0, 0]),
        (Call::ReadRangeContinuousMillimetersBlocking, [1, 7, 0, 0, 0, 0, 0, 0]),
        (Call::ReadRangeSingleMillimetersBlocking, [1, 8, 0, 0, 0, 0, 0, 0]),
        (Call::SetMeasurementTimingBudget(33_000), [1, 9, 0, 0, 0x80, 0xE8, 0, 0]),
        (Call::SetInterruptThresholdsMm(0x0102, 0x0304), [1, 10, 0, 0, 1, 2, 3, 4]),
        (Call::GetInterruptThresholdsMm, [1, 11, 0, 0, 0, 0, 0, 0]),
        (Call::SetGpioConfig(GpioFunctionality::NewSampleReady, GpioPolarity::ActiveHigh), [1, 12, 0, 0, 0, 0, 0, 1]),
        (Call::SetGpioConfig(GpioFunctionality::LevelLow, GpioPolarity::ActiveLow), [1, 12, 0, 0, 0, 1, 0, 0]),
        (Call::SetGpioConfig(GpioFunctionality::LevelHigh, GpioPolarity::ActiveLow), [1, 12, 0, 0, 0, 2, 0, 0]),
        (Call::SetGpioConfig(GpioFunctionality::OutOfWindow, GpioPolarity::ActiveLow), [1, 12, 0, 0, 0, 3, 0, 0]),
        (Call::ClearInterruptStatus, [1, 13, 0, 0, 0, 0, 0, 0]),
        (Call::SetSignalRateLimit(0.25), [1, 14, 0x3E, 0x80, 0, 0, 0, 0]),
        (Call::GetMeasurementTimingBudget, [1, 15, 0, 0, 0, 0, 0, 0]),
        (Call::GetSignalRateLimit, [1, 16, 0, 0, 0, 0, 0, 0]),
    ];
    for (call, record) in records {
        assert_eq!(call.record(), record, "{call:?}");
    }
    let mut codes = records.map(|(_, record)| record[1]).to_vec();
    codes.dedup();
    assert_eq!(codes, calls::codes());
}

/// The first bytes of an outcome, and zeros.
fn padded<const N: usize>(first: [u8; N]) -> [u8; 25] {
    let mut bytes = [0; 25];
    bytes[..N].copy_from_slice(&first);
    bytes
}

/// An answer after 85,688 transfers.
fn answer_bytes(number: u8, value: u32) -> [u8; 25] {
    let [v0, v1, v2, v3] = value.to_le_bytes();
    let mut bytes = padded([number, v0, v1, v2, v3]);
    bytes[21..].copy_from_slice(&[0xB8, 0x4E, 1, 0]);
    bytes
}

#[test]
fn outcomes_are_read_from_their_bytes() {
    for (number, value, answer) in [
        (0, 0x1234_5678, Answer::Done(0x1234_5678)),
        (1, 0, Answer::False),
        (2, 0xED, Answer::InvalidDevice(0xED)),
        (3, 7, Answer::BusError(CODE)),
        (4, 0, Answer::Timeout),
        (5, 0x78, Answer::InvalidAddress(0x78)),
        (6, 0, Answer::InvalidArgument),
        (7, 0, Answer::WouldBlock),
        (8, 9, Answer::Panic(9)),
        (9, 0, Answer::NotUp),
        (10, 0, Answer::CallWaits),
        (11, 0, Answer::NoCallWaits),
        (12, 0, Answer::StrayByte),
        (13, 0, Answer::IllFormedRecord),
        (14, 0, Answer::SpareBytes),
        (15, 0, Answer::IllFormedSession),
    ] {
        let bytes = answer_bytes(number, value);
        assert_eq!(Outcome::from_bytes(&bytes), Some(Outcome::Answer { answer, transfers: 85_688 }));
        for index in 5..21 {
            let mut more = bytes;
            more[index] = 1;
            assert_eq!(Outcome::from_bytes(&more), None, "a second value");
        }
    }
    let outcome = Outcome::from_bytes(&padded([255, 0x29, 3, 0x71, 0x02, 0x92, 0, 0, 0, 0, 1]));
    let Some(Outcome::Transfer(transfer)) = outcome else { panic!("{outcome:?}") };
    assert_eq!((transfer.address(), transfer.written(), transfer.reads()), (0x29, &[0x71, 0x02, 0x92][..], 1));
    for bytes in [
        padded([254]),                                        // what is returned where none was put
        padded([255, 0x29, 0, 0, 0, 0, 0, 0, 0, 0, 1]),       // writes nothing
        padded([255, 0x29, 8, 0, 0, 0, 0, 0, 0, 0, 1]),       // writes more than there is
        padded([255, 0x29, 1, 0, 0, 0, 0, 0, 0, 0, 3]),       // reads three bytes
        padded([255, 0x29, 1, 0, 0, 0, 0, 0, 0, 0, 1, 0, 1]), // more than a transfer has
        padded([3, 0, 1]),                                    // a failure code of nine bits
        padded([3]),                                          // a failure without a code
        padded([4, 0, 0, 0, 1]),                              // a value where there is none
    ] {
        assert_eq!(Outcome::from_bytes(&bytes), None, "{bytes:?}");
    }
}

/// The words are those of `vl53l0x_answer_text` in C, with the value.
#[test]
fn answers_are_said_in_words() {
    for (answer, words) in [
        (Answer::Done(505), "done: 505"),
        (Answer::False, "the sensor cannot do that: the budget is too short, or the limit out of range"),
        (Answer::InvalidDevice(0x0D), "the device is no VL53L0X: its identity is 0x0D and not 0xEE"),
        (Answer::BusError(CODE), "the bus failed: code 7"),
        (Answer::Timeout, "the sensor was not ready after the most reads of a wait"),
        (Answer::InvalidAddress(0x78), "the address 0x78 is not from 0x08 to 0x77"),
        (Answer::InvalidArgument, "the thresholds are in the wrong order or above 8190 mm"),
        (Answer::WouldBlock, "no reading is ready yet"),
        (Answer::Panic(9), "the Rust driver's arithmetic panics here: place 9"),
        (Answer::NotUp, "refused: the sensor has not been brought up"),
        (Answer::CallWaits, "refused: a call waits for its reply"),
        (Answer::NoCallWaits, "refused: no call waits for a reply"),
        (Answer::StrayByte, "refused: the reply has bytes that were not read"),
        (Answer::IllFormedRecord, "refused: the record is no call and no reply, or has arguments out of range"),
        (Answer::SpareBytes, "refused: the record is not 8 bytes long"),
        (
            Answer::IllFormedSession,
            "refused: the session is none, or says that a call waits and is none that waits in it",
        ),
    ] {
        assert_eq!(answer.to_string(), words);
        let expected = if let Answer::Done(value) = answer { Ok(value) } else { Err(answer) };
        assert_eq!(answer.into_result(), expected);
        assert_eq!(answer.into_signal_rate_limit().map(f32::to_bits), expected);
    }
}

/// An answer that is not Done goes up by `?` as any error does.
#[test]
fn an_answer_is_an_error() {
    let read = |sensor: &mut Simulator| -> Result<u32, Box<dyn std::error::Error>> {
        let mut session = Session::new();
        on(sensor, &mut session, Call::NEW).0.into_result()?;
        Ok(on(sensor, &mut session, Call::ReadRangeSingleMillimetersBlocking).0.into_result()?)
    };
    let mut sensor = Simulator::new(1);
    sensor.set_distance(505);
    assert_eq!(read(&mut sensor).expect("a distance"), 505);
    sensor.fail_after(0, CODE);
    assert_eq!(read(&mut sensor).expect_err("a failure").to_string(), "the bus failed: code 7");
}

#[test]
fn a_session_is_put_away_and_taken_up_again() {
    let (mut sensor, mut session) = (Simulator::new(3), Session::new());
    let mut outcome = session.begin(Call::NEW);
    let mut transfers = 0;
    while let Outcome::Transfer(transfer) = outcome {
        transfers += 1;
        let mut again = Session::from_bytes(session.as_bytes()).expect("a session");
        assert_eq!(again, session);
        assert_eq!((session.outstanding(), session.transfers()), (outcome, transfers));
        let mut data = [0; 6];
        let read = &mut data[..transfer.reads()];
        sensor.transfer(transfer.address(), transfer.written(), read).expect("no failure");
        outcome = session.reply(Ok(read));
        assert_eq!(again.reply(Ok(read)), outcome);
        assert_eq!(again, session);
    }
    assert_eq!(outcome, Outcome::Answer { answer: Answer::Done(0), transfers });
    assert_eq!((session.up(), session.address(), session.stop()), (true, 0x29, sensor.stop()));
}

#[test]
fn other_bytes_are_no_session() {
    assert_eq!(Session::from_bytes(&[0; 52]), Some(Session::new()));
    assert!(Session::from_bytes(&[1; 52]).is_some());
    for length in [0, 51, 53] {
        assert_eq!(Session::from_bytes(&vec![0; length]), None);
    }
    for first in 2..=255 {
        let mut bytes = [0; 52];
        bytes[0] = first;
        assert_eq!(Session::from_bytes(&bytes), None);
    }
}

#[test]
fn fields_stand_at_their_places() {
    let bytes: Vec<u8> = (0..52).map(|index| if index == 0 { 1 } else { 100 + index }).collect();
    let session = Session::from_bytes(&bytes).expect("a session");
    let long = |at: usize| u32::from_le_bytes(bytes[at..][..4].try_into().expect("four bytes"));
    assert_eq!((session.up(), session.address(), session.stop(), session.budget()), (true, 101, 102, long(3)));
    assert_eq!((session.code(), session.a(), session.b()), (107, long(8), 113 * 256 + 112));
    assert_eq!((session.at(), session.idle(), session.transfers()), (114, long(15), long(19)));
    assert_eq!((session.failed(), session.found_budget(), session.carried()), (123, long(24), &bytes[28..]));
    assert_eq!(session.as_bytes()[..], bytes);
    assert!(!Session::new().up());
}

#[test]
fn a_reply_has_as_many_bytes_as_the_transfer_reads() {
    let refused = |answer| Outcome::Answer { answer, transfers: 0 };
    let mut session = brought_up(&mut Simulator::new(1));
    for reply in [Ok(&[0xEE][..]), Err(CODE)] {
        assert_eq!(session.reply(reply), refused(Answer::NoCallWaits));
    }
    for (call, reads) in [
        (Call::SetAddress(0x30), 0),
        (Call::WhoAmI, 1),
        (Call::GetInterruptThresholdsMm, 2),
        (Call::ReadRangeSingleMillimetersBlocking, 1),
    ] {
        let mut waiting = session.clone();
        assert!(matches!(waiting.begin(call), Outcome::Transfer(_)), "{call:?}");
        let before = waiting.clone();
        for length in (0..=8).filter(|length| *length != reads) {
            assert_eq!(waiting.reply(Ok(&[0; 8][..length])), refused(Answer::IllFormedRecord), "{call:?}");
        }
        assert_eq!(waiting, before);
        assert_ne!(waiting.reply(Ok(&[0; 8][..reads])), refused(Answer::IllFormedRecord));
        assert_ne!(waiting, before);
    }
}

#[test]
fn settings_reach_the_sensor() {
    let mut sensor = Simulator::new(5);
    let mut session = brought_up(&mut sensor);
    let mut done = |call, value| assert_eq!(on(&mut sensor, &mut session, call).0, Answer::Done(value), "{call:?}");
    done(Call::SetInterruptThresholdsMm(100, 301), 0);
    done(Call::GetInterruptThresholdsMm, 100 << 16 | 300);
    done(Call::GetSignalRateLimit, 0x3E80_0000); // 0.25
    done(Call::SetSignalRateLimit(1.5), 0);
    done(Call::GetSignalRateLimit, 0x3FC0_0000);
    done(Call::SetMeasurementTimingBudget(50_000), 0);
    done(Call::SetAddress(0x30), 0);
    done(Call::WhoAmI, 0xEE);
    assert_eq!((sensor.word(0x0E), sensor.word(0x0C), sensor.word(0x44)), (50, 150, 192));
    assert_eq!((session.address(), session.budget(), sensor.address()), (0x30, 50_000, 0x30));
}

/// The sensor holds this word as its signal rate limit.
fn hold(sensor: &mut Simulator, word: u16) {
    let [high, low] = word.to_be_bytes();
    sensor.transfer(0x29, &[0x44, high, low], &mut []).expect("no failure");
}

/// Every word is read as itself / 128, and written when that is set again, but for the greatest. Before it is set the
/// sensor is given another one.
#[test]
fn a_limit_that_was_read_is_set_again() {
    let mut sensor = Simulator::new(5);
    let mut session = brought_up(&mut sensor);
    for word in 0..=u16::MAX {
        hold(&mut sensor, word);
        let (answer, transfers) = on(&mut sensor, &mut session, Call::GetSignalRateLimit);
        let limit = answer.into_signal_rate_limit().expect("a limit");
        assert_eq!((limit, transfers), (f32::from(word) / 128.0, 1));
        hold(&mut sensor, !word);
        let set = on(&mut sensor, &mut session, Call::SetSignalRateLimit(limit));
        if word < u16::MAX {
            assert_eq!((set, sensor.word(0x44)), ((Answer::Done(0), 1), word));
        } else {
            // 511.9921875 is above 511.99.
            assert_eq!((set, sensor.word(0x44), limit.to_bits()), ((Answer::False, 0), 0, 0x43FF_FF00));
        }
    }
}

/// Two sensors on two buses, their calls interleaved step by step, read what each reads alone.
#[test]
fn sessions_are_independent() {
    let run = |seeds: &[u64]| -> Vec<Vec<Outcome>> {
        let mut all: Vec<_> = seeds.iter().map(|seed| (Simulator::new(*seed), Session::new(), Vec::new())).collect();
        for call in [Call::NEW, Call::ReadRangeSingleMillimetersBlocking] {
            all.iter_mut().for_each(|(_, session, outcomes)| outcomes.push(session.begin(call)));
            let mut waits = true;
            while waits {
                waits = false;
                for (sensor, session, outcomes) in &mut all {
                    if let Outcome::Transfer(transfer) = outcomes[outcomes.len() - 1] {
                        let mut data = [0; 6];
                        let read = &mut data[..transfer.reads()];
                        let reply = sensor.transfer(transfer.address(), transfer.written(), read);
                        outcomes.push(session.reply(reply.map(|()| &*read)));
                        waits = true;
                    }
                }
            }
        }
        all.into_iter().map(|(_, _, outcomes)| outcomes).collect()
    };
    assert_eq!(run(&[8, 9]), [run(&[8]), run(&[9])].concat());
}
