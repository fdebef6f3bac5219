//! The calls, for each test that goes over all of them; refused.rs holds them against the library.

use vl53l0x_session::{Call, GpioFunctionality, GpioPolarity};

/// A call of every code, in an order in which each is Done, beginning with a sensor that is not up.
pub const CALLS: &[Call] = &[
    Call::NEW,
    Call::WhoAmI,
    Call::SetMeasurementTimingBudget(60_000),
    Call::GetMeasurementTimingBudget,
    Call::SetInterruptThresholdsMm(200, 400),
    Call::GetInterruptThresholdsMm,
    Call::SetGpioConfig(GpioFunctionality::LevelLow, GpioPolarity::ActiveLow),
    Call::SetSignalRateLimit(0.5),
    Call::GetSignalRateLimit,
    Call::ReadRangeSingleMillimetersBlocking,
    Call::ClearInterruptStatus,
    Call::StartContinuous(50),
    Call::ReadRangeContinuousMillimetersBlocking,
    Call::ReadRangeMm,
    Call::StopContinuous,
    Call::SetAddress(0x31),
];

/// The code of a call.
pub fn code(call: Call) -> u8 {
    call.record()[1]
}

/// All codes, from the least to the greatest.
pub fn codes() -> Vec<u8> {
    let mut codes: Vec<u8> = CALLS.iter().map(|call| code(*call)).collect();
    codes.sort();
    codes
}
