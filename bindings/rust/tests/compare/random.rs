//! Pseudo-random calls on a pseudo-random sensor, with failures, long waits and spoiled replies.

use crate::bus::ADDRESS;
use crate::call::{Call, FUNCTIONALITIES, POLARITIES};
use crate::numbers::Numbers;
use crate::refused::Refusing;
use crate::sides::Sides;
use crate::tally::Tally;
use std::num::NonZeroU8;
use vl53l0x_simulator::{Simulator, Wait};

const NEVER: u32 = u32::MAX;

/// Some calls on a sensor, and when they have brought it into trouble, on another one.
pub fn run(seed: u64, tally: &mut Tally) {
    let numbers = &mut Numbers::new(seed);
    let mut sides = Sides::new(format!("seed {seed}"), Simulator::new(seed), tally);
    sides.refusing = Refusing::OneIn(1 + numbers.below(20), numbers.split());
    for _ in 0..10 + numbers.below(20) {
        let call = if sides.fields.is_none() || numbers.one_in(20) { bring_up(numbers, &sides) } else { call(numbers) };
        trouble(numbers, &mut sides.sensor);
        let spoiled = numbers.one_of(&[1, 4, 60, NEVER, NEVER, NEVER]);
        let answer = sides.make_with(call, &mut |written, read| spoil(numbers, spoiled, written, read));
        if answer.0 != 0 && numbers.one_in(2) {
            sides.sensor = Simulator::new(numbers.next());
            sides.make(Call::WithAddress(ADDRESS));
        }
    }
}

/// Mostly at the address that the sensor has.
fn bring_up(numbers: &mut Numbers, sides: &Sides) -> Call {
    Call::WithAddress(if numbers.one_in(8) { numbers.byte() } else { sides.sensor.address() })
}

fn call(numbers: &mut Numbers) -> Call {
    match numbers.below(17) {
        0 => Call::WhoAmI,
        1 => Call::SetAddress(numbers.byte()),
        2 => Call::StartContinuous(0),
        3 => Call::StartContinuous(numbers.spread(32)),
        4 => Call::StopContinuous,
        5 | 6 => Call::ReadRange,
        7 => Call::ReadRangeContinuous,
        8 => Call::ReadRangeSingle,
        9 if numbers.one_in(3) => Call::SetBudget(numbers.spread(32)),
        9 => Call::SetBudget(19_000 + numbers.below(1_000_000)),
        10 => Call::SetThresholds(numbers.below(8_200) as u16, numbers.below(8_200) as u16),
        11 => Call::GetThresholds,
        12 => Call::SetGpioConfig(numbers.one_of(&FUNCTIONALITIES), numbers.one_of(&POLARITIES)),
        13 => Call::ClearInterruptStatus,
        14 if numbers.one_in(3) => Call::SetSignalRateLimit(numbers.next() as u32),
        14 => Call::SetSignalRateLimit((115 + numbers.below(22)) << 23 | numbers.below(1 << 23)),
        15 => Call::GetSignalRateLimit,
        _ => Call::GetBudget,
    }
}

fn code(numbers: &mut Numbers) -> NonZeroU8 {
    NonZeroU8::new(numbers.byte()).unwrap_or(NonZeroU8::MIN)
}

/// Another distance; sometimes failures, and waits of any length.
fn trouble(numbers: &mut Numbers, sensor: &mut Simulator) {
    sensor.set_distance(numbers.below(65_536) as u16);
    match numbers.below(6) {
        0 => sensor.fail_after(numbers.below(14), code(numbers)),
        1 => sensor.fail_after(numbers.below(170), code(numbers)),
        2 => {
            let first = numbers.below(14);
            sensor.fail_after(first, code(numbers));
            sensor.fail_after(numbers.below(3), code(numbers));
        }
        3 => sensor.fail_one_in(Some(10 + numbers.below(300))),
        _ => sensor.fail_one_in(None),
    }
    if numbers.one_in(4) {
        sensor.plan_wait(Wait::Status, numbers.below(2));
    }
    if numbers.one_in(12) {
        let wait = numbers.one_of(&[Wait::Detector, Wait::Start, Wait::Status]);
        let limit = if matches!(wait, Wait::Detector) { 65_535 } else { 10_000 };
        let idle = if numbers.one_in(2) { numbers.below(limit + 2) } else { limit - numbers.below(3) };
        sensor.plan_wait(wait, idle);
    }
}

/// Changes one reply in so many, more often near an edge of the arithmetic than far from it.
fn spoil(numbers: &mut Numbers, one_in: u32, written: &[u8], read: &mut [u8]) {
    if one_in == NEVER || !numbers.one_in(one_in) {
        return;
    }
    read.iter_mut().for_each(|byte| *byte = numbers.byte());
    match *written {
        [0xC0] if !numbers.one_in(20) => read[0] = 0xEE,
        [0x51] => read[0] = numbers.one_of(&[0, 0, 1, 2, 5, 7, 15, 16]),
        [0x71] => read[0] = numbers.one_of(&[0, 1, 2, 7, 8, 11, 15, 16]),
        [0x50 | 0x70] => read[0] = numbers.one_of(&[0, 4, 6, 20, 0x7E, 0x7F, 0x80, 0xFE, 0xFF]),
        [0x46] => read[0] = numbers.one_of(&[0, 0x25, 0x98, 0xFE, 0xFF]),
        [0x00 | 0x13 | 0x83] => read[0] = numbers.one_of(&[0x00, 0x01, 0x08, 0xF8, 0xFF]),
        [0xF8] if numbers.one_in(4) => read.fill(0),
        _ => (),
    }
}
