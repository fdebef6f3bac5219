//! Has the sensor taken what the next call has set?

use crate::calls::{code, CALLS};
use crate::rig::{Rig, AFTER, CONTINUOUS, SINGLE};
use crate::{Count, Table, SEEDS};
use std::collections::BTreeMap;
use vl53l0x_session::{Answer, Call, GpioFunctionality, GpioPolarity};
use vl53l0x_simulator::{Simulator, NOBODY_ANSWERS};

/// The calls that set something. What breaks before them, of `CALLS`, sets something else.
const SETTINGS: [Call; 5] = [
    Call::SetMeasurementTimingBudget(50_000),
    Call::SetInterruptThresholdsMm(100, 300),
    Call::SetAddress(0x30),
    Call::SetSignalRateLimit(1.0),
    Call::SetGpioConfig(GpioFunctionality::OutOfWindow, GpioPolarity::ActiveHigh),
];

/// All calls but a bring-up, and call 4 in its other way.
fn broken_calls() -> impl Iterator<Item = Call> {
    let calls = CALLS.iter().copied().filter(|call| !matches!(call, Call::WithAddress(_)));
    calls.chain([Call::StartContinuous(0)])
}

/// What a setting leaves in the sensor.
fn set(call: Call, sensor: &Simulator) -> Vec<u8> {
    let registers: &[u8] = match call {
        Call::SetMeasurementTimingBudget(_) => &[0x71, 0x72],
        Call::SetInterruptThresholdsMm(..) => &[0x0C, 0x0D, 0x0E, 0x0F],
        Call::SetSignalRateLimit(_) => &[0x44, 0x45],
        Call::SetGpioConfig(..) => &[0x0A, 0x84],
        _ => return vec![sensor.address()],
    };
    registers.iter().map(|register| sensor.register(0, *register)).collect()
}

/// A rig on which this call can be Done.
fn ready_for(call: Call, seed: u64) -> Rig {
    match call {
        Call::StopContinuous | CONTINUOUS => Rig::running(seed),
        Call::ReadRangeMm => Rig::running(seed).paused(),
        _ => Rig::up(seed),
    }
}

/// What a setting leaves in a sensor that takes it.
fn taken(rig: &Rig, setting: Call) -> Vec<u8> {
    let mut whole = rig.clone();
    assert_eq!(whole.call(setting), Answer::Done(0));
    set(setting, &whole.sensor)
}

/// Whether the setting is Done while the sensor has not taken it; none where it is not Done.
fn is_lost(mut rig: Rig, setting: Call, taken: &[u8]) -> Option<bool> {
    (rig.call(setting) == Answer::Done(0)).then(|| set(setting, &rig.sensor) != taken)
}

/// Any call breaks, and then something is set.
pub fn the_next_setting(table: &mut Table) {
    let (mut lost, mut by_call) = (BTreeMap::<u8, Count>::new(), BTreeMap::<u8, Count>::new());
    let (mut thrown, mut by_hand, mut recovered) = <(Count, Count, Count)>::default();
    for seed in SEEDS {
        for call in broken_calls() {
            let ready = ready_for(call, seed);
            for setting in SETTINGS {
                let taken = taken(&ready, setting);
                for (rig, _) in ready.broken(call) {
                    if let Some(is_lost) = is_lost(rig.clone(), setting, &taken) {
                        lost.entry(code(setting)).or_default().add(is_lost);
                        by_call.entry(code(call)).or_default().add(is_lost);
                    }
                    for (rig, count) in [
                        (rig.clone().after(SINGLE), &mut thrown),
                        (rig.clone().selected(), &mut by_hand),
                        (rig.recovered(), &mut recovered),
                    ] {
                        is_lost(rig, setting, &taken).into_iter().for_each(|so| count.add(so));
                    }
                }
            }
        }
    }
    table.title(&format!("each of calls 2 to {} broken; then a setting that is Done", CALLS.len()));
    for (code, count) in &lost {
        table.at_times(&format!("not taken by the sensor: call {code}"), *count);
    }
    for (code, count) in by_call.iter().filter(|(_, count)| count.so > 0) {
        table.count(&format!("  where call {code} broke"), *count);
    }
    table.never("not taken: one single reading thrown away first", thrown);
    table.never("not taken: page 0 by hand first", by_hand);
    table.never("not taken: page 0 by hand, one thrown away, a pause, call 13 first", recovered);
}

/// Settings, with the calls that read them back and what these give then.
const READ_BACK: [(Call, Call, u32); 2] = [
    (Call::SetInterruptThresholdsMm(100, 300), Call::GetInterruptThresholdsMm, 100 << 16 | 300),
    (Call::SetSignalRateLimit(1.0), Call::GetSignalRateLimit, 0x3F80_0000),
];

/// Any call breaks, something is set that the sensor does not take, and that is read back.
pub fn a_lost_setting_is_read_back(table: &mut Table) {
    let (mut as_set, mut by_hand) = <(Count, Count)>::default();
    for seed in SEEDS {
        for call in broken_calls() {
            let ready = ready_for(call, seed);
            for (setting, reading, value) in READ_BACK {
                let taken = taken(&ready, setting);
                for (rig, _) in ready.broken(call) {
                    if is_lost(rig.clone(), setting, &taken) == Some(true) {
                        let mut lost = rig.after(setting);
                        as_set.add(lost.call(reading) == Answer::Done(value));
                        by_hand.add(lost.selected().call(reading) == Answer::Done(value));
                    }
                }
            }
        }
    }
    table.title("a window or a limit that is Done and was not taken by the sensor; then call 11 or 16");
    table.always("as it was set", as_set);
    table.never("as it was set: page 0 by hand first", by_hand);
}

/// Call 3 breaks: the sensor may be at either address.
pub fn after_set_address(table: &mut Table) {
    let (mut gone, mut found) = <(Count, Count)>::default();
    for seed in SEEDS {
        for (mut rig, _) in Rig::up(seed).broken(Call::SetAddress(0x30)) {
            let moved = rig.call(Call::WhoAmI) == Answer::BusError(NOBODY_ANSWERS);
            gone.add(moved);
            let rig = rig.after(if moved { Call::WithAddress(0x30) } else { Call::SetAddress(0x30) });
            found.add(rig.session.address() == 0x30 && rig.moved(AFTER).gives(SINGLE, AFTER));
        }
    }
    table.title("call 3 broken; then call 2");
    table.at_times("BusError: nobody answers at the old address", gone);
    table.always("right: there a bring-up at the new address, else call 3 again, and a single reading", found);
}
