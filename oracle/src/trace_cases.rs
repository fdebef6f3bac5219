//! The runs whose traces are written.

use crate::antt::File;
use crate::budget::Replies;
use crate::budget_cases::BENCH;
use crate::bus::ADDRESS;
use crate::call::{Answer, Call, LAST_CODE, LAST_OF_LIB};
use crate::later_cases::later_calls;
use crate::random_traces as random;
use crate::traces::{Line, Sensor, Trace};
use std::collections::BTreeSet;
use vl53l0x::inner::Fields;
use vl53l0x::{GpioFunctionality, GpioPolarity};

pub fn silent() -> Sensor {
    Sensor::default()
}

/// Replies to the six budget reads, as often as they are made.
pub fn timing(sensor: Sensor, replies: &[Replies]) -> Sensor {
    let bytes = |i: usize| replies.iter().map(|all| [all[i]]).collect::<Vec<_>>();
    let words = |i: usize| replies.iter().map(|all| [all[i], all[i + 1]]).collect::<Vec<_>>();
    let sensor = sensor.at(0x01, &bytes(0)).at(0x51, &words(1)).at(0x71, &words(3));
    sensor.at(0x50, &bytes(5)).at(0x46, &bytes(6)).at(0x70, &bytes(7))
}

/// Bring-up succeeds on this sensor. Its three waits end after no, one and two idle reads.
pub fn calm() -> Sensor {
    timing(silent(), &[BENCH, BENCH])
        .at(0xC0, &[[0xEE]])
        .at(0x89, &[[0x10]])
        .at(0x91, &[[0x3C]])
        .at(0x60, &[[0x40]])
        .at(0x83, &[[0x20], [0x80], [0x27]])
        .at(0x92, &[[0x85]])
        .at(0xB0, &[[0xFF; 6]])
        .at(0x84, &[[0xFF]])
        .at(0x13, &[[0x40], [0x04], [0x00], [0xF8], [0x01]])
}

/// So it does here, with bits set that have to be ignored or kept, and fewer good detectors than are asked for.
fn loud() -> Sensor {
    let first = [0xFF, 0x01, 0x96, 0x02, 0xFE, 0x08, 0x30, 0x06];
    let second = [0xD4, 0x00, 0x50, 0x01, 0x80, 0x07, 0xFE, 0x05];
    timing(silent().reading_back(0xA5), &[first, second])
        .at(0xC0, &[[0xEE]])
        .at(0x89, &[[0xFE]])
        .at(0x91, &[[0xFF]])
        .at(0x60, &[[0xED]])
        .at(0x83, &[[0xFB], [0x00], [0x00], [0x40], [0xFF]])
        .at(0x92, &[[0x7F]])
        .at(0xB0, &[[0x5A, 0x00, 0xFF, 0x81, 0x3C, 0x07]])
        .at(0x84, &[[0x10]])
        .at(0x13, &[[0xFF], [0xF8], [0x02]])
}

fn bring_up(name: &'static str, sensor: Sensor) -> Trace {
    Trace::new(name, None).call(Call::WithAddress(ADDRESS), sensor)
}

pub fn files() -> Vec<File> {
    let calm = bring_up("calm", calm()).answered(0, 0);
    let up = calm.after.expect("the driver is up");
    let loud = Trace::new("loud", None).call(Call::WithAddress(0xFF), loud()).answered(0, 0);
    let file = |module, about: &str, list, traces| File { module, about: about.to_string(), list, traces };
    let measuring = file("Measuring", "Calls 2 to 8, answered Done.", "measuring", measuring(up));
    let about = format!("Calls 9 to {LAST_OF_LIB}, answered Done.");
    let settings = file("Settings", &about, "settings", settings(up));
    let about = "Calls that lib.rs does not have, as later.rs makes them.";
    let later = file("LaterCalls", about, "later_calls", later_calls(up));
    let mut done = answers([&measuring, &settings, &later]);
    done.retain(|(_, number)| *number == 0);
    let done: BTreeSet<u8> = done.into_iter().map(|(code, _)| code).collect();
    assert!(done.into_iter().eq(2..=LAST_CODE), "a call has no run that is answered Done");
    let of_lib = vec![
        file("BringUp", "Bring-ups that succeed.", "bring_ups", vec![calm, loud]),
        file("InUse", "A bring-up and many calls after it.", "in_use", vec![in_use()]),
        measuring,
        settings,
        file("BringUpFailures", "Bring-ups that end early.", "failed_bring_ups", failed_bring_ups(up)),
        file("RangeFailures", "Failed transfers in calls 6, 7 and 8.", "failed_ranges", failed_ranges(up)),
        file("CallFailures", "Failed transfers in the other calls.", "failed_calls", failed_calls(up)),
        file("BringUpBudgets", "Bring-ups that set no budget.", "unset_budgets", unset_budgets()),
        file("BringUpPanics", "Bring-ups that panic.", "broken_bring_ups", broken_bring_ups()),
        file("Panics", "Calls 4, 15 and 9 up to each place, and call 9 with no time left.", "places", places(up)),
        file("AtOnce", "Calls that are answered without a transfer.", "at_once", at_once(up)),
        file("Random", "Calls with pseudo-random arguments, replies and failures.", "random", random::calls()),
        file("RandomBringUp", "Bring-ups with pseudo-random replies.", "random_bring_ups", random::bring_ups()),
    ];
    let only_its_own = answers(&of_lib).iter().all(|(code, _)| *code <= LAST_OF_LIB);
    assert!(only_its_own, "a later call is among the runs of lib.rs");
    of_lib.into_iter().chain([later]).collect()
}

/// The code of each call, with the number of its answer.
fn answers<'a>(files: impl IntoIterator<Item = &'a File>) -> Vec<(u8, u8)> {
    let (mut answers, mut code) = (Vec::new(), 0);
    for (record, line) in files.into_iter().flat_map(|file| &file.traces).flat_map(|trace| &trace.steps) {
        if let [1, next, ..] = *record {
            code = next;
        }
        if let Line::Answer(Answer(number, _), _) = *line {
            answers.push((code, number));
        }
    }
    answers
}

/// A range word, behind these status reads.
fn ranging(status: &[[u8; 1]]) -> Sensor {
    silent().at(0x13, status).at(0x1E, &[[0x01, 0x2C]])
}

/// Idle reads in both waits.
fn ranging_single() -> Sensor {
    ranging(&[[0x08], [0x00], [0x01]]).at(0x00, &[[0x01], [0xFF], [0xFE]])
}

fn measuring(up: Fields) -> Vec<Trace> {
    let done = |name, call, sensor| Trace::new(name, Some(up)).call(call, sensor);
    let oscillator = |word: u16| silent().at(0xF8, &[word.to_be_bytes()]);
    vec![
        done("who_am_i", Call::WhoAmI, silent().at(0xC0, &[[0xAA]])).answered(0, 0xAA),
        done("set_address", Call::SetAddress(0x77), silent())
            .call(Call::SetAddress(0x08), silent())
            .call(Call::WhoAmI, silent().at(0xC0, &[[0xEE]]))
            .answered(0, 0xEE),
        done("start_back_to_back", Call::StartContinuous(0), silent()).answered(0, 0),
        done("start_timed", Call::StartContinuous(1000), oscillator(0x0190)).answered(0, 0),
        done("start_uncalibrated", Call::StartContinuous(1000), oscillator(0)).answered(0, 0),
        done("start_longest", Call::StartContinuous(65537), oscillator(0xFFFF)).answered(0, 0),
        done("stop_continuous", Call::StopContinuous, silent()).answered(0, 0),
        done("read_range", Call::ReadRange, ranging(&[[0x07]])).answered(0, 300),
        done("read_range_continuous", Call::ReadRangeContinuous, ranging(&[[0x00], [0xF8], [0x04]])).answered(0, 300),
        done("read_range_single", Call::ReadRangeSingle, ranging_single()).answered(0, 300),
    ]
}

fn settings(up: Fields) -> Vec<Trace> {
    use GpioFunctionality::{LevelHigh, LevelLow, NewSampleReady, OutOfWindow};
    use GpioPolarity::{ActiveHigh, ActiveLow};
    let done = |name, call, sensor| Trace::new(name, Some(up)).call(call, sensor);
    let pin = |name, functionality, polarity, byte| {
        done(name, Call::SetGpioConfig(functionality, polarity), silent().at(0x84, &[[byte]])).answered(0, 0)
    };
    vec![
        done("set_budget", Call::SetBudget(33_000), timing(silent(), &[BENCH])).answered(0, 0),
        done("set_thresholds", Call::SetThresholds(301, 8190), silent()).answered(0, 0),
        done("get_thresholds", Call::GetThresholds, silent().at(0x0E, &[[0xF0, 0x96]]).at(0x0C, &[[0x0F, 0xFF]]))
            .answered(0, 300 << 16 | 8190),
        pin("new_sample_low", NewSampleReady, ActiveLow, 0xFF),
        pin("new_sample_high", NewSampleReady, ActiveHigh, 0x00),
        pin("level_low_low", LevelLow, ActiveLow, 0x5A),
        pin("level_low_high", LevelLow, ActiveHigh, 0xA5),
        pin("level_high_low", LevelHigh, ActiveLow, 0x00),
        pin("level_high_high", LevelHigh, ActiveHigh, 0xFF),
        pin("out_of_window_low", OutOfWindow, ActiveLow, 0x10),
        pin("out_of_window_high", OutOfWindow, ActiveHigh, 0xEF),
        done("clear_interrupt_status", Call::ClearInterruptStatus, silent().reading_back(0xFF)).answered(0, 0),
        done("highest_rate", Call::SetSignalRateLimit(0x43FF_FEB8), silent()).answered(0, 0),
        done("quarter_rate", Call::SetSignalRateLimit(0x3E80_0000), silent()).answered(0, 0),
        done("negative_zero_rate", Call::SetSignalRateLimit(0x8000_0000), silent()).answered(0, 0),
        done("get_budget", Call::GetBudget, timing(silent(), &[BENCH])).answered(0, 31_326),
    ]
}

fn in_use() -> Trace {
    let bench = || timing(silent(), &[BENCH]);
    bring_up("one_driver", calm())
        .call(Call::SetAddress(0x30), silent())
        .call(Call::SetThresholds(100, 300), silent())
        .call(
            Call::SetGpioConfig(GpioFunctionality::OutOfWindow, GpioPolarity::ActiveLow),
            silent().at(0x84, &[[0xFF]]),
        )
        .call(Call::SetBudget(33_000), bench())
        .call(Call::SetBudget(19_999), silent())
        .answered(1, 0)
        .call(Call::StartContinuous(0), silent())
        .call(Call::ReadRange, silent().at(0x13, &[[0xF8]]))
        .answered(7, 0)
        .call(Call::ReadRange, ranging(&[[0x01]]))
        .answered(0, 300)
        .call(Call::StopContinuous, silent())
        .call(Call::SetAddress(0x78), silent())
        .answered(5, 0x78)
        .call(Call::SetBudget(u32::MAX), bench())
        .answered(8, 7)
        .call(Call::ReadRangeSingle, ranging(&[[0x02]]).at(0x00, &[[0x00]]))
        .answered(0, 300)
        .call(Call::GetBudget, bench())
        .answered(0, 31_326)
}

fn failed_bring_ups(up: Fields) -> Vec<Trace> {
    let slow_detector = calm().at(0x83, &[[0x20], [0x00]]);
    vec![
        bring_up("identity_fails", silent().failing(1, 0xC0, 1)).answered(3, 1),
        bring_up("wrong_identity", silent().at(0xC0, &[[0xEF]])).answered(2, 0xEF),
        Trace::new("wrong_identity_while_up", Some(up))
            .call(Call::WithAddress(0x30), silent().at(0xC0, &[[0x00]]))
            .answered(2, 0),
        bring_up("detector_wait_fails", slow_detector.failing(28, 0x83, 2)).answered(3, 2),
        bring_up("map_write_fails", calm().failing(44, 0xB0, 255)).answered(3, 255),
        bring_up("tuning_row_fails", calm().failing(70, 0x56, 4)).answered(3, 4),
        bring_up("status_wait_fails", calm().failing(147, 0x13, 5)).answered(3, 5),
    ]
}

fn failed_ranges(up: Fields) -> Vec<Trace> {
    let failed = |name, call, sensor, code| Trace::new(name, Some(up)).call(call, sensor).answered(3, code);
    let (poll, continuous, single) = (Call::ReadRange, Call::ReadRangeContinuous, Call::ReadRangeSingle);
    let ready = || ranging(&[[0x04]]);
    vec![
        failed("poll_status_fails", poll, silent().failing(1, 0x13, 20), 20),
        failed("poll_range_fails", poll, ready().failing(2, 0x1E, 21), 21),
        failed("poll_range_and_first_fail", poll, ready().failing(2, 0x1E, 21).failing(3, 0x0B, 22), 21),
        failed("poll_range_and_second_fail", poll, ready().failing(2, 0x1E, 21).failing(4, 0x0B, 23), 21),
        failed("poll_first_fails", poll, ready().failing(3, 0x0B, 22), 22),
        failed("poll_second_fails", poll, ready().failing(4, 0x0B, 23), 23),
        Trace::new("poll_not_ready", Some(up)).call(poll, silent().at(0x13, &[[0xF8]])).answered(7, 0),
        failed("continuous_status_fails", continuous, silent().at(0x13, &[[0x00]]).failing(2, 0x13, 24), 24),
        failed("continuous_range_fails", continuous, ready().failing(2, 0x1E, 21), 21),
        failed("continuous_range_and_first_fail", continuous, ready().failing(2, 0x1E, 21).failing(3, 0x0B, 22), 22),
        failed("continuous_range_and_second_fail", continuous, ready().failing(2, 0x1E, 21).failing(4, 0x0B, 23), 23),
        failed("continuous_second_fails", continuous, ready().failing(4, 0x0B, 23), 23),
        failed("single_stop_byte_fails", single, silent().failing(4, 0x91, 25), 25),
        failed("single_start_fails", single, silent().at(0x00, &[[0x01]]).failing(10, 0x00, 26), 26),
        failed("single_range_fails", single, ranging_single().failing(15, 0x1E, 21), 21),
        failed("single_range_and_first_fail", single, ranging_single().failing(15, 0x1E, 21).failing(16, 0x0B, 22), 22),
        failed(
            "single_range_and_second_fail",
            single,
            ranging_single().failing(15, 0x1E, 21).failing(17, 0x0B, 23),
            23,
        ),
    ]
}

fn failed_calls(up: Fields) -> Vec<Trace> {
    use GpioFunctionality::OutOfWindow;
    use GpioPolarity::ActiveHigh;
    let failed = |name, call, sensor, code| Trace::new(name, Some(up)).call(call, sensor).answered(3, code);
    let bench = || timing(silent(), &[BENCH]);
    vec![
        failed("who_am_i_fails", Call::WhoAmI, silent().failing(1, 0xC0, 1), 1),
        failed("set_address_fails", Call::SetAddress(0x30), silent().failing(1, 0x8A, 2), 2),
        failed("oscillator_fails", Call::StartContinuous(50), silent().failing(8, 0xF8, 3), 3),
        failed("stop_fails", Call::StopContinuous, silent().failing(6, 0xFF, 4), 4),
        failed("set_budget_read_fails", Call::SetBudget(33_000), bench().failing(3, 0x71, 5), 5),
        failed("set_budget_write_fails", Call::SetBudget(33_000), bench().failing(7, 0x71, 6), 6),
        failed("set_thresholds_fails", Call::SetThresholds(301, 8190), silent().failing(2, 0x0C, 7), 7),
        failed("get_thresholds_fails", Call::GetThresholds, silent().at(0x0E, &[[0, 9]]).failing(2, 0x0C, 8), 8),
        failed("pin_fails", Call::SetGpioConfig(OutOfWindow, ActiveHigh), silent().failing(2, 0x84, 9), 9),
        failed("clearing_fails", Call::ClearInterruptStatus, silent().failing(2, 0x0B, 10), 10),
        failed("rate_fails", Call::SetSignalRateLimit(0x3E80_0000), silent().failing(1, 0x44, 11), 11),
        failed("get_budget_fails", Call::GetBudget, bench().failing(6, 0x70, 12), 12),
    ]
}

/// The budget is kept as the first six reads give it: below 20,000, and with no time left by the second six.
fn unset_budgets() -> Vec<Trace> {
    let mut slow = BENCH;
    slow[1..5].copy_from_slice(&[0x02, 0x96, 0x03, 0xFE]);
    let nothing_on = [0x00, 0x00, 0x96, 0x01, 0xFE, 0x06, 0x25, 0x04];
    vec![
        bring_up("short_budget", timing(calm(), &[nothing_on])).answered(0, 0),
        bring_up("no_time_in_bring_up", timing(calm(), &[BENCH, slow])).answered(0, 0),
    ]
}

/// In the first six budget reads, and in the second.
fn broken_bring_ups() -> Vec<Trace> {
    let (mut first, mut second) = (BENCH, BENCH);
    first[6] = 0xFF;
    second[7] = 0x7F;
    vec![
        bring_up("place5_in_bring_up", timing(calm(), &[first])).answered(8, 5),
        bring_up("place8_in_bring_up", timing(calm(), &[BENCH, second])).answered(8, 8),
    ]
}

fn places(up: Fields) -> Vec<Trace> {
    let place = |name, call, sensor, place| Trace::new(name, Some(up)).call(call, sensor).answered(8, place);
    let (get, set) = (Call::GetBudget, Call::SetBudget(33_000));
    let with = |changes: &[(usize, u8)]| {
        let mut replies = BENCH;
        changes.iter().for_each(|&(index, byte)| replies[index] = byte);
        timing(silent(), &[replies])
    };
    let pre_shift = || with(&[(1, 0x10)]);
    let final_shift = || with(&[(3, 0xFF)]);
    let less = || with(&[(3, 0x00), (4, 0x95)]);
    let pre_period = || with(&[(5, 0xFF)]);
    let final_period = || with(&[(7, 0xFF)]);
    let msrc = || with(&[(6, 0xFF)]);
    let long = || with(&[(1, 0x0F), (2, 0xFF), (3, 0x0F), (4, 0xFF), (5, 0x7E)]);
    let wide = [0xC0, 0x0F, 0xFF, 0x0F, 0xFF, 0x00, 0x00, 0x00];
    let no_time = || with(&[(1, 0x01), (3, 0x02)]);
    vec![
        place("start_place1", Call::StartContinuous(65538), silent().at(0xF8, &[[0xFF, 0xFF]]), 1),
        place("get_place2_pre", get, pre_shift(), 2),
        place("get_place2_final", get, final_shift(), 2),
        place("get_place3", get, less(), 3),
        place("get_place4_pre", get, pre_period(), 4),
        place("get_place4_final", get, final_period(), 4),
        place("get_place5", get, msrc(), 5),
        place("get_place6", get, long(), 6),
        place("set_place2_pre", set, pre_shift(), 2),
        place("set_place2_final", set, final_shift(), 2),
        place("set_place3", set, less(), 3),
        place("set_place4_pre", set, pre_period(), 4),
        place("set_place4_final", set, final_period(), 4),
        place("set_place5", set, msrc(), 5),
        place("set_place6", set, long(), 6),
        place("set_place7", Call::SetBudget(u32::MAX), with(&[]), 7),
        place("set_place8", set, with(&[(7, 0x7F)]), 8),
        place("set_place9", Call::SetBudget(503_268), timing(silent(), &[wide]), 9),
        Trace::new("set_no_time", Some(up)).call(Call::SetBudget(20_000), no_time()).answered(1, 0),
    ]
}

fn at_once(up: Fields) -> Vec<Trace> {
    let answered = |name, call, number, value| {
        let trace = Trace::new(name, Some(up)).call(call, silent()).answered(number, value);
        assert_eq!(trace.steps.len(), 1);
        trace
    };
    vec![
        answered("address_below", Call::SetAddress(0x07), 5, 0x07),
        answered("address_above", Call::SetAddress(0x78), 5, 0x78),
        answered("high_above", Call::SetThresholds(0, 8191), 6, 0),
        answered("both_above", Call::SetThresholds(8191, 8191), 6, 0),
        answered("low_over_high", Call::SetThresholds(301, 300), 6, 0),
        answered("budget_below", Call::SetBudget(19_999), 1, 0),
        answered("rate_nan", Call::SetSignalRateLimit(0x7FC0_0000), 1, 0),
        answered("rate_negative", Call::SetSignalRateLimit(0x8000_0001), 1, 0),
        answered("rate_above", Call::SetSignalRateLimit(0x43FF_FEB9), 1, 0),
        answered("rate_infinite", Call::SetSignalRateLimit(0x7F80_0000), 1, 0),
    ]
}
