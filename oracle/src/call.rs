//! The calls, as records (SCOPE 7.1) and as calls of the Rust; those after lib.rs's own as calls of later.rs.

use crate::bus::ADDRESS;
use crate::place::run;
use hal::i2c::I2c;
use vl53l0x::inner::{self, Fields};
use vl53l0x::{Error, GpioFunctionality, GpioPolarity, VL53L0x};

/// A record of SCOPE 7.1.
pub type Record = [u8; 8];

/// A call with its arguments, in the order of SCOPE 5.1.
#[derive(Clone, Copy, Debug)]
pub enum Call {
    WithAddress(u8),
    WhoAmI,
    SetAddress(u8),
    StartContinuous(u32),
    StopContinuous,
    ReadRange,
    ReadRangeContinuous,
    ReadRangeSingle,
    SetBudget(u32),
    SetThresholds(u16, u16),
    GetThresholds,
    SetGpioConfig(GpioFunctionality, GpioPolarity),
    ClearInterruptStatus,
    SetSignalRateLimit(u32),
    GetBudget,
    GetSignalRateLimit,
}

/// A call of each code, in order, from 1 on.
const LIST: &[Call] = &[
    Call::WithAddress(ADDRESS),
    Call::WhoAmI,
    Call::SetAddress(0x30),
    Call::StartContinuous(50),
    Call::StopContinuous,
    Call::ReadRange,
    Call::ReadRangeContinuous,
    Call::ReadRangeSingle,
    Call::SetBudget(33_000),
    Call::SetThresholds(100, 300),
    Call::GetThresholds,
    Call::SetGpioConfig(GpioFunctionality::OutOfWindow, GpioPolarity::ActiveHigh),
    Call::ClearInterruptStatus,
    Call::SetSignalRateLimit(0x3E80_0000),
    Call::GetBudget,
    Call::GetSignalRateLimit,
];

/// The same as an array, with as many as the list has.
pub const CALLS: [Call; LIST.len()] = *LIST.first_chunk().unwrap();
pub const LAST_CODE: u8 = LIST.len() as u8;

/// The last code of a call that lib.rs has.
pub const LAST_OF_LIB: u8 = 15;

/// Each at its number in SCOPE 5.10.
pub const FUNCTIONALITIES: [GpioFunctionality; 4] = [
    GpioFunctionality::NewSampleReady,
    GpioFunctionality::LevelLow,
    GpioFunctionality::LevelHigh,
    GpioFunctionality::OutOfWindow,
];
pub const POLARITIES: [GpioPolarity; 2] = [GpioPolarity::ActiveLow, GpioPolarity::ActiveHigh];

impl Call {
    pub fn is_bring_up(self) -> bool {
        matches!(self, Call::WithAddress(_))
    }

    pub fn record(self) -> Record {
        let (code, a, b) = match self {
            Call::WithAddress(address) => (1, address.into(), 0),
            Call::WhoAmI => (2, 0, 0),
            Call::SetAddress(address) => (3, address.into(), 0),
            Call::StartContinuous(period) => (4, period, 0),
            Call::StopContinuous => (5, 0, 0),
            Call::ReadRange => (6, 0, 0),
            Call::ReadRangeContinuous => (7, 0, 0),
            Call::ReadRangeSingle => (8, 0, 0),
            Call::SetBudget(budget) => (9, budget, 0),
            Call::SetThresholds(low, high) => (10, low.into(), high),
            Call::GetThresholds => (11, 0, 0),
            Call::SetGpioConfig(functionality, polarity) => (12, functionality as u32, polarity as u16),
            Call::ClearInterruptStatus => (13, 0, 0),
            Call::SetSignalRateLimit(bits) => (14, bits, 0),
            Call::GetBudget => (15, 0, 0),
            Call::GetSignalRateLimit => (16, 0, 0),
        };
        let ([a, b, c, d], [e, f]) = (u32::to_be_bytes(a), u16::to_be_bytes(b));
        [1, code, a, b, c, d, e, f]
    }
    /// The call that a record's code and arguments stand for; none if they are refused with 13 (SCOPE 7.2).
    pub fn of(code: u8, [a, b, c, d, e, f]: [u8; 6]) -> Option<Call> {
        let (a, b) = (u32::from_be_bytes([a, b, c, d]), u16::from_be_bytes([e, f]));
        Some(match (code, a, b) {
            (1, 0..=0xFF, 0) => Call::WithAddress(a as u8),
            (2, 0, 0) => Call::WhoAmI,
            (3, 0..=0xFF, 0) => Call::SetAddress(a as u8),
            (4, _, 0) => Call::StartContinuous(a),
            (5, 0, 0) => Call::StopContinuous,
            (6, 0, 0) => Call::ReadRange,
            (7, 0, 0) => Call::ReadRangeContinuous,
            (8, 0, 0) => Call::ReadRangeSingle,
            (9, _, 0) => Call::SetBudget(a),
            (10, 0..=0xFFFF, _) => Call::SetThresholds(a as u16, b),
            (11, 0, 0) => Call::GetThresholds,
            (12, 0..=3, 0..=1) => Call::SetGpioConfig(FUNCTIONALITIES[a as usize], POLARITIES[b as usize]),
            (13, 0, 0) => Call::ClearInterruptStatus,
            (14, _, 0) => Call::SetSignalRateLimit(a),
            (15, 0, 0) => Call::GetBudget,
            (16, 0, 0) => Call::GetSignalRateLimit,
            _ => return None,
        })
    }
}

/// An answer's number and value, as in the table of SCOPE 9.1.
#[derive(Clone, Copy, Debug, PartialEq, Eq)]
pub struct Answer(pub u8, pub u32);

fn answer(result: Result<impl Into<u32>, Error<u8>>) -> Answer {
    match result {
        Ok(value) => Answer(0, value.into()),
        Err(Error::InvalidDevice(byte)) => Answer(2, byte.into()),
        Err(Error::BusError(code)) => Answer(3, code.into()),
        Err(Error::Timeout) => Answer(4, 0),
        Err(Error::InvalidAddress(address)) => Answer(5, address.into()),
        Err(Error::InvalidArgument) => Answer(6, 0),
    }
}

fn on_bus(result: Result<impl Into<u32>, u8>) -> Answer {
    answer(result.map_err(Error::BusError))
}

fn done(result: Result<(), Error<u8>>) -> Answer {
    answer(result.map(|()| 0_u32))
}

fn accepted(result: Result<bool, u8>) -> Answer {
    match result {
        Ok(false) => Answer(1, 0),
        other => done(other.map(|_| ()).map_err(Error::BusError)),
    }
}

/// Makes a call on the driver whose fields are `up`, none while it is not up, and leaves the fields after it there. They
/// are all of a driver that a call changes.
pub fn make<I2C: I2c<Error = u8>>(call: Call, bus: I2C, up: &mut Option<Fields>) -> Answer {
    let answer = match call {
        Call::WithAddress(address) => {
            *up = None;
            run(|| VL53L0x::with_address(bus, address).map(|chip| inner::fields(&chip))).map(|result| {
                *up = result.ok();
                answer(result.map(|_| 0_u32))
            })
        }
        _ => {
            let before = up.expect("the driver is up");
            let mut chip = inner::driver(bus, before);
            let answer = run(|| on_chip(&mut chip, call));
            let after = inner::fields(&chip);
            assert!(after == before || answer == Ok(Answer(0, 0)), "{call:?} changes fields");
            *up = Some(after);
            answer
        }
    };
    answer.unwrap_or_else(|panic| Answer(8, panic.place.into()))
}

fn on_chip<I2C: I2c<Error = u8>>(chip: &mut VL53L0x<I2C>, call: Call) -> Answer {
    match call {
        Call::WithAddress(_) => unreachable!("makes the driver"),
        Call::WhoAmI => on_bus(chip.who_am_i()),
        Call::SetAddress(address) => done(chip.set_address(address)),
        Call::StartContinuous(period) => done(chip.start_continuous(period).map_err(Error::BusError)),
        Call::StopContinuous => done(chip.stop_continuous().map_err(Error::BusError)),
        Call::ReadRange => match chip.read_range_mm() {
            Err(nb::Error::WouldBlock) => Answer(7, 0),
            Err(nb::Error::Other(error)) => answer(Err::<u32, _>(error)),
            Ok(range) => Answer(0, range.into()),
        },
        Call::ReadRangeContinuous => answer(chip.read_range_continuous_millimeters_blocking()),
        Call::ReadRangeSingle => answer(chip.read_range_single_millimeters_blocking()),
        Call::SetBudget(budget) => accepted(chip.set_measurement_timing_budget(budget)),
        Call::SetThresholds(low, high) => done(chip.set_interrupt_thresholds_mm(low, high)),
        Call::GetThresholds => {
            let both = |(low, high)| u32::from(low) * 65536 + u32::from(high);
            answer(chip.get_interrupt_thresholds_mm().map(both))
        }
        Call::SetGpioConfig(functionality, polarity) => done(chip.set_gpio_config(functionality, polarity)),
        Call::ClearInterruptStatus => done(chip.clear_interrupt_status().map_err(Error::BusError)),
        Call::SetSignalRateLimit(bits) => accepted(inner::set_signal_rate_limit(chip, f32::from_bits(bits))),
        Call::GetBudget => on_bus(inner::get_measurement_timing_budget(chip)),
        Call::GetSignalRateLimit => on_bus(inner::get_signal_rate_limit(chip).map(f32::to_bits)),
    }
}
