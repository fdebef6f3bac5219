//! Pseudo-random runs.

use crate::call::{Call, CALLS, FUNCTIONALITIES, LAST_OF_LIB, POLARITIES};
use crate::numbers::Numbers;
use crate::traces::Trace;
use vl53l0x::inner::Fields;

/// Few identities are wrong, few timeouts or periods have a place, and no wait is long.
fn reply(numbers: &mut Numbers, written: &[u8], read: &mut [u8]) {
    read.iter_mut().for_each(|byte| *byte = numbers.byte());
    let odd = numbers.one_in(12);
    match *written {
        [0xC0] if !odd => read[0] = 0xEE,
        [0x51] if !odd => read[0] = numbers.below(3) as u8,
        [0x71] if !odd => read[0] = 3 + numbers.below(13) as u8,
        [0x50 | 0x70] if odd => read[0] = numbers.one_of(&[0x7E, 0x7F, 0x80, 0xFE, 0xFF]),
        [0x50 | 0x70] => read[0] = numbers.below(20) as u8,
        [0x46] if odd => read[0] = 0xFF,
        [0x00 | 0x13 | 0x83] if numbers.one_in(4) => read[0] = numbers.one_of(&[0x00, 0x01, 0xF8, 0xFF]),
        [0xF8] if odd => read.fill(0),
        _ => (),
    }
}

/// Any call but a bring-up, with a code up to `last`.
pub fn call_up_to(last: u8, numbers: &mut Numbers) -> Call {
    match numbers.one_of(&CALLS[1..last.into()]) {
        Call::WithAddress(_) => unreachable!("is the first"),
        Call::SetAddress(_) => Call::SetAddress(numbers.byte()),
        Call::StartContinuous(_) => Call::StartContinuous(numbers.spread(32)),
        Call::SetBudget(_) if numbers.one_in(3) => Call::SetBudget(numbers.spread(32)),
        Call::SetBudget(_) => Call::SetBudget(19_000 + numbers.below(200_000)),
        Call::SetThresholds(..) => Call::SetThresholds(numbers.below(8000) as u16, numbers.below(8200) as u16),
        Call::SetGpioConfig(..) => Call::SetGpioConfig(numbers.one_of(&FUNCTIONALITIES), numbers.one_of(&POLARITIES)),
        Call::SetSignalRateLimit(_) => {
            Call::SetSignalRateLimit((115 + numbers.below(22)) << 23 | numbers.below(1 << 23))
        }
        call @ (Call::WhoAmI | Call::StopContinuous | Call::ReadRange | Call::ReadRangeContinuous) => call,
        call @ (Call::ReadRangeSingle | Call::GetThresholds | Call::ClearInterruptStatus | Call::GetBudget) => call,
        call @ Call::GetSignalRateLimit => call,
    }
}

pub fn failure_code(numbers: &mut Numbers) -> u8 {
    1 + numbers.below(255) as u8
}

/// A transfer fails once in `odds` times.
pub fn on(trace: Trace, call: Call, numbers: &mut Numbers, odds: u32) -> Trace {
    trace.on(call, |_, written, read| {
        if numbers.one_in(odds) {
            return Err(failure_code(numbers));
        }
        reply(numbers, written, read);
        Ok(())
    })
}

/// Several of lib.rs's own calls on each of a few drivers.
pub fn calls() -> Vec<Trace> {
    let mut numbers = Numbers::new(6);
    let mut traces = Vec::new();
    for index in 1..=8 {
        let fields = Fields {
            stop_variable: numbers.byte(),
            measurement_timing_budget_microseconds: numbers.spread(32),
            address: numbers.byte(),
        };
        let mut trace = Trace::new(format!("random{index}"), Some(fields));
        while trace.steps.len() < 24 {
            let call = call_up_to(LAST_OF_LIB, &mut numbers);
            trace = on(trace, call, &mut numbers, 25);
        }
        traces.push(trace);
    }
    traces
}

pub fn bring_ups() -> Vec<Trace> {
    let mut numbers = Numbers::new(7);
    let mut traces = Vec::new();
    for index in 1..=2 {
        let trace = Trace::new(format!("random_bring_up{index}"), None);
        let call = Call::WithAddress(numbers.byte());
        traces.push(on(trace, call, &mut numbers, 400));
    }
    traces
}
