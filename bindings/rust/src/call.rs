//! The calls, in the Rust driver's names.

/// The address that a sensor has after power-up.
pub const DEFAULT_ADDRESS: u8 = 0x29;

/// A call and its arguments.
#[derive(Clone, Copy, Debug, PartialEq)]
pub enum Call {
    /// Brings the sensor at this address up. [`Call::NEW`] is this at [`DEFAULT_ADDRESS`].
    WithAddress(u8),
    /// Reads the identity.
    WhoAmI,
    /// Gives the sensor another address, 0x08 to 0x77.
    SetAddress(u8),
    /// Starts continuous measurements with this period in milliseconds, or back to back if it is 0.
    StartContinuous(u32),
    /// Stops continuous measurements.
    StopContinuous,
    /// Reads the range in millimetres if there is one, else [`Answer::WouldBlock`](crate::Answer::WouldBlock).
    ReadRangeMm,
    /// Waits for the next range of a continuous measurement, in millimetres.
    ReadRangeContinuousMillimetersBlocking,
    /// Measures once and waits for the range, in millimetres.
    ReadRangeSingleMillimetersBlocking,
    /// Sets the measurement timing budget in microseconds, at least 20,000.
    SetMeasurementTimingBudget(u32),
    /// Sets the window of the interrupt: low and high in millimetres, at most 8190.
    SetInterruptThresholdsMm(u16, u16),
    /// Reads the window: the value is low × 65536 + high in millimetres.
    GetInterruptThresholdsMm,
    /// Sets what the interrupt pin shows.
    SetGpioConfig(GpioFunctionality, GpioPolarity),
    /// Clears the interrupt.
    ClearInterruptStatus,
    /// Sets the signal rate limit in million counts a second, 0.0 to 511.99.
    SetSignalRateLimit(f32),
    /// Reads the measurement timing budget in microseconds.
    GetMeasurementTimingBudget,
    /// Reads the signal rate limit, for which the Rust driver has no function. The value is the bits of a float:
    /// [`Answer::into_signal_rate_limit`](crate::Answer::into_signal_rate_limit) gives the limit.
    GetSignalRateLimit,
}

/// Which event is routed to the interrupt pin.
#[derive(Clone, Copy, Debug, PartialEq, Eq)]
pub enum GpioFunctionality {
    /// A new sample is ready, as after bring-up.
    NewSampleReady = 0,
    /// The range is below the low threshold.
    LevelLow = 1,
    /// The range is above the high threshold.
    LevelHigh = 2,
    /// The range is outside the window.
    OutOfWindow = 3,
}

/// The level of the interrupt pin while an interrupt is pending.
#[derive(Clone, Copy, Debug, PartialEq, Eq)]
pub enum GpioPolarity {
    /// Low, as after bring-up.
    ActiveLow = 0,
    /// High.
    ActiveHigh = 1,
}

impl Call {
    /// `new` of the Rust driver: brings the sensor at [`DEFAULT_ADDRESS`] up.
    pub const NEW: Call = Call::WithAddress(DEFAULT_ADDRESS);

    /// The record of this call: 1, its code, argument A (four bytes) and B (two), high byte first.
    pub fn record(self) -> [u8; 8] {
        let (code, a, b) = match self {
            Call::WithAddress(address) => (1, u32::from(address), 0),
            Call::WhoAmI => (2, 0, 0),
            Call::SetAddress(address) => (3, u32::from(address), 0),
            Call::StartContinuous(period_millis) => (4, period_millis, 0),
            Call::StopContinuous => (5, 0, 0),
            Call::ReadRangeMm => (6, 0, 0),
            Call::ReadRangeContinuousMillimetersBlocking => (7, 0, 0),
            Call::ReadRangeSingleMillimetersBlocking => (8, 0, 0),
            Call::SetMeasurementTimingBudget(budget_microseconds) => (9, budget_microseconds, 0),
            Call::SetInterruptThresholdsMm(low, high) => (10, u32::from(low), high),
            Call::GetInterruptThresholdsMm => (11, 0, 0),
            Call::SetGpioConfig(functionality, polarity) => (12, functionality as u32, polarity as u16),
            Call::ClearInterruptStatus => (13, 0, 0),
            Call::SetSignalRateLimit(limit) => (14, limit.to_bits(), 0),
            Call::GetMeasurementTimingBudget => (15, 0, 0),
            Call::GetSignalRateLimit => (16, 0, 0),
        };
        let ([a0, a1, a2, a3], [b0, b1]) = (a.to_be_bytes(), b.to_be_bytes());
        [1, code, a0, a1, a2, a3, b0, b1]
    }
}
