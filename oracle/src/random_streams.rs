//! Streams of pseudo-random scenarios: calm and bad sensors, refused records in between, and any end.

use crate::budget_cases::{random_case, replies, Case, BENCH};
use crate::call::{Call, Record, CALLS, LAST_CODE};
use crate::calm_sensor::CalmSensor;
use crate::later_cases::read_and_set;
use crate::numbers::Numbers;
use crate::random_traces::{call_up_to, failure_code, on};
use crate::refused::Refusing;
use crate::stream::{Files, Stream};
use crate::stream_cases::{bring_up_budget, RANGE_READS, WAITS};
use crate::trace_cases::{silent, timing};
use crate::{rate, threshold};

const SCENARIOS: [fn(&mut Stream, &mut Numbers); 8] =
    [calm_session, bad_session, failed_transfer, failed_range_read, budget, budget_in_bring_up, arguments, rate_limits];

/// Some scenarios; now and then a long wait, a cut, records without a plan; any number of spare bytes.
pub fn files() -> Files {
    let mut numbers = Numbers::new(9);
    let mut stream = Stream::new();
    stream.refusing = match numbers.below(3) {
        0 => Refusing::Nothing,
        1 => Refusing::OneIn(50, numbers.split()),
        _ => Refusing::OneIn(6, numbers.split()),
    };
    let records = 2_500 << numbers.below(4);
    while stream.len() < records {
        numbers.one_of(&SCENARIOS)(&mut stream, &mut numbers);
    }
    match numbers.below(16) {
        0 | 1 => wait(&mut stream, &mut numbers),
        2 => stream.cut(numbers.below(40) as usize),
        3..10 => stream.cut(stream.len() - numbers.below(200) as usize),
        _ => (),
    }
    let mut tail = Vec::new();
    if numbers.one_in(3) {
        (0..numbers.below(2_000)).for_each(|_| tail.extend(any_record(&mut numbers)));
    }
    (0..numbers.below(8)).for_each(|_| tail.push(numbers.byte()));
    stream.files(&tail)
}

/// Any call but a bring-up.
fn call(numbers: &mut Numbers) -> Call {
    call_up_to(LAST_CODE, numbers)
}

/// A driver that is up, often by a new bring-up, and a sensor for it.
fn up(stream: &mut Stream, numbers: &mut Numbers) -> CalmSensor {
    let mut sensor = CalmSensor::new(numbers.split());
    if stream.up.is_none() || numbers.one_in(3) {
        stream.call(Call::WithAddress(numbers.byte()), sensor.failing(&[]));
    }
    sensor
}

/// Any calls, on a sensor that works.
fn calm_session(stream: &mut Stream, numbers: &mut Numbers) {
    let mut sensor = up(stream, numbers);
    for _ in 0..numbers.below(30) {
        stream.call(call(numbers), sensor.failing(&[]));
    }
}

/// Bring-ups and any calls, with any replies and failures.
fn bad_session(stream: &mut Stream, numbers: &mut Numbers) {
    for _ in 0..numbers.below(4) {
        stream.play(on(stream.trace(), Call::WithAddress(numbers.byte()), numbers, 400));
    }
    up(stream, numbers);
    for _ in 0..numbers.below(30) {
        stream.play(on(stream.trace(), call(numbers), numbers, 25));
    }
}

/// One failed transfer.
fn failed_transfer(stream: &mut Stream, numbers: &mut Numbers) {
    let mut sensor = up(stream, numbers);
    let call = numbers.one_of(&CALLS);
    let most = if call.is_bring_up() { 160 } else { 12 };
    let failure = (1 + numbers.below(most) as usize, failure_code(numbers));
    stream.call(call, sensor.failing(&[failure]));
}

/// A failed range read, and perhaps a failure of the clearing after it.
fn failed_range_read(stream: &mut Stream, numbers: &mut Numbers) {
    let sensor = up(stream, numbers);
    let (call, n) = numbers.one_of(&RANGE_READS);
    let clearing = n + 1 + numbers.below(3) as usize;
    let failures = [(n, failure_code(numbers)), (clearing, failure_code(numbers))];
    stream.call(call, sensor.idle(&[0, 0]).failing(&failures));
}

/// Calls 15 and 9 on replies near an edge.
fn budget(stream: &mut Stream, numbers: &mut Numbers) {
    up(stream, numbers);
    for _ in 0..numbers.below(10) {
        let Case { replies, budget } = if numbers.one_in(8) { long_case(numbers) } else { random_case(numbers) };
        stream.play(stream.trace().call(Call::GetBudget, timing(silent(), &[replies])));
        stream.play(stream.trace().call(Call::SetBudget(budget), timing(silent(), &[replies])));
    }
}

/// Timeouts so long that place 9 is near.
fn long_case(numbers: &mut Numbers) -> Case {
    let replies = replies(0xC0, 0x0FFF, 0x0FFF, 0x00, numbers.byte(), 0x00);
    Case { replies, budget: 253_390 + numbers.below(1_000_000) }
}

/// A bring-up whose budget reads are replied so too.
fn budget_in_bring_up(stream: &mut Stream, numbers: &mut Numbers) {
    let first = if numbers.one_in(2) { BENCH } else { random_case(numbers).replies };
    stream.play(bring_up_budget(first, random_case(numbers).replies));
}

/// Arguments at their edges.
fn arguments(stream: &mut Stream, numbers: &mut Numbers) {
    let mut sensor = up(stream, numbers);
    for _ in 0..numbers.below(10) {
        let call = match numbers.below(4) {
            0 => Call::SetAddress(numbers.one_of(&[0x00, 0x07, 0x08, 0x77, 0x78, 0xFF])),
            1 => Call::SetBudget(numbers.one_of(&[0, 19_999, 20_000, 33_000, u32::MAX])),
            2 => Call::SetThresholds(numbers.one_of(&threshold::EDGES), numbers.one_of(&threshold::EDGES)),
            _ => Call::SetSignalRateLimit(numbers.one_of(&rate::edges())),
        };
        stream.call(call, sensor.failing(&[]));
    }
}

/// Rate limits that are read, and set as they were answered.
fn rate_limits(stream: &mut Stream, numbers: &mut Numbers) {
    up(stream, numbers);
    for _ in 0..numbers.below(10) {
        let word = if numbers.one_in(4) { numbers.one_of(&rate::WORDS) } else { numbers.below(65536) as u16 };
        stream.play(read_and_set(stream.trace(), word));
    }
}

/// A wait at its limit or near it.
fn wait(stream: &mut Stream, numbers: &mut Numbers) {
    let sensor = up(stream, numbers);
    let (call, idle, ..) = numbers.one_of(&WAITS);
    stream.call(call, sensor.idle(idle).failing(&[]));
}

/// A record that may be accepted or refused, whatever it meets.
fn any_record(numbers: &mut Numbers) -> Record {
    let mut record = match numbers.below(8) {
        0 => numbers.next().to_be_bytes(),
        1 => call(numbers).record(),
        2 => numbers.one_of(&CALLS).record(),
        _ => [2, 0, numbers.byte(), 0, 0, 0, 0, 0],
    };
    if numbers.one_in(8) {
        record[numbers.below(8) as usize] = numbers.spread(8) as u8;
    }
    record
}
