//! The scenarios of the fixed stream.

use crate::budget::{get, set, Replies, Set, LEAST};
use crate::budget_cases::{changes, edges, least_with_time, replies, Case, BENCH};
use crate::bus::ADDRESS;
use crate::bytes::with;
use crate::call::{Answer, Call, CALLS, FUNCTIONALITIES, POLARITIES};
use crate::calm_sensor::CalmSensor;
use crate::later_cases::read_and_set;
use crate::numbers::Numbers;
use crate::refused::Refusing;
use crate::stream::{Files, Stream};
use crate::trace_cases::{self, calm, silent, timing};
use crate::traces::Trace;
use crate::{rate, threshold};

/// The scenarios one after the other, then three spare bytes.
pub fn files() -> Files {
    let mut stream = Stream::new();
    let numbers = &mut Numbers::new(8);
    refused_everywhere(&mut stream, numbers);
    sessions(&mut stream, numbers);
    failed_transfers(&mut stream, numbers);
    failed_range_reads(&mut stream, numbers);
    traced_runs(&mut stream);
    addresses(&mut stream, numbers);
    arguments(&mut stream, numbers);
    rate_limits(&mut stream, numbers);
    periods(&mut stream);
    budgets(&mut stream);
    bring_up_budgets(&mut stream);
    waits(&mut stream, numbers);
    unanswered(&mut stream, numbers);
    let files = stream.files(&[0x02, 0x00, 0x00]);
    files.history.assert_complete();
    files
}

/// A small list to look at: a sensor is brought up, its budget set, and one distance read.
pub fn sample() -> Files {
    let mut stream = Stream::new();
    let mut sensor = CalmSensor::new(Numbers::new(9));
    for call in [BRING_UP, Call::SetBudget(33_000), Call::ReadRangeSingle] {
        done(&mut stream, call, &mut sensor);
    }
    stream.files(&[])
}

const BRING_UP: Call = Call::WithAddress(ADDRESS);

/// A call without failures is answered Done; a poll may come too early, and is made again.
fn done(stream: &mut Stream, call: Call, sensor: &mut CalmSensor) {
    let mut number = 7;
    while number == 7 {
        number = stream.call(call, sensor.failing(&[])).0;
    }
    assert_eq!(number, 0, "{call:?}");
}

/// Every kind of refused record while the driver is not up, while it is up, and after each transfer of each call; in a
/// bring-up that succeeds, some kinds after each transfer.
fn refused_everywhere(stream: &mut Stream, numbers: &mut Numbers) {
    let wrong_identity = |stream: &mut Stream| {
        stream.play(stream.trace().call(BRING_UP, silent().at(0xC0, &[[0xED]])).answered(2, 0xED));
    };
    stream.refusing = Refusing::Every;
    wrong_identity(stream);
    stream.refusing = Refusing::InTurn(0);
    let mut sensor = CalmSensor::new(numbers.split());
    done(stream, BRING_UP, &mut sensor);
    stream.refusing = Refusing::Every;
    for call in CALLS.into_iter().skip(1) {
        done(stream, call, &mut sensor);
    }
    wrong_identity(stream);
    wrong_identity(stream);
    stream.refusing = Refusing::Nothing;
}

/// All calls on sensors that work: settings, single and continuous measuring, a second bring-up.
fn sessions(stream: &mut Stream, numbers: &mut Numbers) {
    use Call::{ReadRange, ReadRangeContinuous, ReadRangeSingle, StartContinuous, StopContinuous};
    let back_to_back = [StartContinuous(0), ReadRange, ReadRange, ReadRange, StopContinuous];
    let timed = [StartContinuous(1000), ReadRangeContinuous, ReadRange, ReadRangeContinuous, StopContinuous];
    let again = [Call::WithAddress(0x30), ReadRangeSingle, ReadRangeSingle, Call::GetThresholds, Call::GetBudget];
    for _ in 0..4 {
        let mut sensor = CalmSensor::new(numbers.split());
        for call in CALLS.into_iter().chain(back_to_back).chain(timed).chain(again) {
            done(stream, call, &mut sensor);
        }
    }
}

/// Each call with its first transfer failed, with its second, and so on, until it is answered Done.
fn failed_transfers(stream: &mut Stream, numbers: &mut Numbers) {
    let mut sensor = CalmSensor::new(numbers.split());
    let mut codes = (1..=255).rev().cycle();
    for call in CALLS.into_iter().chain([Call::StartContinuous(0)]) {
        for (n, code) in (1..).zip(&mut codes) {
            let mut tried = sensor.idle(&[0, 1, 2]);
            let answer = stream.call(call, tried.failing(&[(n, code)]));
            if answer == Answer(3, code.into()) {
                continue;
            }
            assert_eq!(answer.0, 0, "{call:?}");
            sensor = tried;
            break;
        }
    }
}

/// The calls that read a range word, with the number of that transfer if no read is idle.
pub const RANGE_READS: [(Call, usize); 3] =
    [(Call::ReadRange, 2), (Call::ReadRangeContinuous, 2), (Call::ReadRangeSingle, 11)];

/// After a failed range read clearing succeeds, fails at its first write, and fails at its second.
fn failed_range_reads(stream: &mut Stream, numbers: &mut Numbers) {
    let sensor = CalmSensor::new(numbers.split()).idle(&[0, 0]);
    for (call, n) in RANGE_READS {
        for failures in [&[(n, 41)][..], &[(n, 42), (n + 1, 52)], &[(n, 43), (n + 2, 53)]] {
            let reported = if matches!(call, Call::ReadRange) { failures[0] } else { failures[failures.len() - 1] };
            let answer = stream.call(call, sensor.clone().failing(failures));
            assert_eq!(answer, Answer(3, reported.1.into()));
        }
    }
}

/// The runs of the crate traces that start from a fresh driver, or from one that its calm bring-up left.
fn traced_runs(stream: &mut Stream) {
    let calm = || Trace::new("calm", None).call(BRING_UP, calm());
    let up = calm().after;
    for trace in trace_cases::files().into_iter().flat_map(|file| file.traces) {
        if trace.before == up && stream.up != up {
            stream.play(calm());
        }
        if trace.before == up || trace.before.is_none() {
            stream.play(trace);
        }
    }
}

/// Bring-ups at addresses of all kinds, and changes of address that succeed, fail or are invalid.
fn addresses(stream: &mut Stream, numbers: &mut Numbers) {
    const ADDRESSES: [u8; 9] = [0x00, 0x07, 0x08, 0x29, 0x77, 0x78, 0x7F, 0x80, 0xFF];
    for address in ADDRESSES {
        let mut sensor = CalmSensor::new(numbers.split());
        done(stream, Call::WithAddress(address), &mut sensor);
        for new_address in ADDRESSES {
            stream.call(Call::SetAddress(new_address), sensor.failing(&[]));
            done(stream, Call::WhoAmI, &mut sensor);
        }
        stream.call(Call::SetAddress(0x30), sensor.failing(&[(1, 60)]));
        done(stream, Call::WhoAmI, &mut sensor);
    }
}

/// Budgets, thresholds and rate limits at the edges of their range, and each pin setting on several registers.
fn arguments(stream: &mut Stream, numbers: &mut Numbers) {
    let mut calls = [0, 1, 19_999, 20_000, 20_001, u32::MAX].map(Call::SetBudget).to_vec();
    for low in threshold::EDGES {
        calls.extend(threshold::EDGES.map(|high| Call::SetThresholds(low, high)));
        calls.push(Call::GetThresholds);
    }
    calls.extend(rate::edges().into_iter().map(Call::SetSignalRateLimit));
    let mut sensor = CalmSensor::new(numbers.split());
    done(stream, BRING_UP, &mut sensor);
    for call in calls {
        stream.call(call, sensor.failing(&[]));
    }
    for functionality in FUNCTIONALITIES {
        for polarity in POLARITIES {
            for byte in [0x00, 0x10, 0xEF, 0xFF] {
                let pins = silent().at(0x84, &[[byte]]);
                stream.play(stream.trace().call(Call::SetGpioConfig(functionality, polarity), pins));
            }
        }
    }
}

/// The rate limit that a bring-up leaves; then words at every edge, read by call 16, and what it answered set by call 14.
fn rate_limits(stream: &mut Stream, numbers: &mut Numbers) {
    let mut sensor = CalmSensor::new(numbers.split());
    done(stream, BRING_UP, &mut sensor);
    assert_eq!(stream.call(Call::GetSignalRateLimit, sensor.failing(&[])), Answer(0, 0x3E80_0000));
    for word in rate::WORDS {
        stream.play(read_and_set(stream.trace(), word));
    }
}

/// Products of period and oscillator word on both sides of place 1.
fn periods(stream: &mut Stream) {
    for word in [0_u16, 1, 2, 0x0190, 0x7FFF, 0x8000, 0xFFFF] {
        let last = u32::MAX.checked_div(word.into()).unwrap_or(u32::MAX);
        for period in [1, last, last.saturating_add(1), u32::MAX] {
            let answer = if period > last { (8, 1) } else { (0, 0) };
            let oscillator = silent().at(0xF8, &[word.to_be_bytes()]);
            let trace = stream.trace().call(Call::StartContinuous(period), oscillator);
            stream.play(trace.answered(answer.0, answer.1));
        }
    }
}

/// Calls 15 and 9 on both sides of every edge of the budget list: places 2 to 9, and no time left.
fn budgets(stream: &mut Stream) {
    let mut last = None;
    for Case { replies, budget } in edges() {
        if last.replace(replies) != Some(replies) {
            stream.play(stream.trace().call(Call::GetBudget, timing(silent(), &[replies])));
        }
        stream.play(stream.trace().call(Call::SetBudget(budget), timing(silent(), &[replies])));
    }
}

/// A bring-up with these replies to its first and its second six budget reads. It does what call 15 does with the first
/// and, from 20,000 on, what call 9 does with the second; only a place ends it.
pub fn bring_up_budget(first: Replies, second: Replies) -> Trace {
    let (reads, place): (&[Replies], _) = match get(first).0 {
        Err(panic) => (&[first], Some(panic.place)),
        Ok(budget) => match set(second, budget) {
            Set::Panics(panic) => (&[first, second], Some(panic.place)),
            Set::TooShort => (&[first], None),
            Set::Word(_) | Set::NoTime => (&[first, second], None),
        },
    };
    let trace = Trace::new("bring-up", None).call(BRING_UP, timing(calm(), reads));
    match place {
        Some(place) => trace.answered(8, place.into()),
        None => trace.answered(0, 0),
    }
}

/// Replies to which call 15 gives this budget.
fn giving(budget: u32) -> Replies {
    let bytes = |sequence| (0..255).flat_map(move |msrc| (0..256).map(move |low| (sequence, msrc, low)));
    let all = [0x80, 0x84, 0x88, 0x90, 0x94, 0x98].into_iter().flat_map(bytes);
    all.map(|(sequence, msrc, low)| replies(sequence, 0x0000, 0x0300 | low, 0x00, msrc, 0x00))
        .find(|replies| get(*replies).0 == Ok(budget))
        .expect("a budget near 20,000")
}

/// Bring-ups whose first or second budget reads have a place; those that miss the least budget, or the time for the
/// final range, by a microsecond and that just reach it.
fn bring_up_budgets(stream: &mut Stream) {
    for replies in changes() {
        stream.play(bring_up_budget(replies, BENCH));
        stream.play(bring_up_budget(BENCH, replies));
    }
    let slow = with(BENCH, 2, 0xE1);
    let enough = least_with_time(slow);
    assert!(enough > LEAST);
    for (budget, second) in [(LEAST - 1, BENCH), (LEAST, BENCH), (enough - 1, slow), (enough, slow)] {
        stream.play(bring_up_budget(giving(budget), second));
    }
    let long = replies(0xC0, 0x0FFF, 0x08FF, 0x10, 0x00, 0x10);
    stream.play(bring_up_budget(long, BENCH).answered(8, 7));
    let wide = replies(0xC0, 0x0FFF, 0x0FFF, 0x00, 0x00, 0x00);
    stream.play(bring_up_budget(with(wide, 5, 0x01), wide).answered(8, 9));
}

const DONE: u8 = 0;
const TIMEOUT: u8 = 4;

/// Calls with so many idle reads in their waits, the answer and the transfers: each wait idle to its limit; all ready on
/// the read before the last; all ready on the last, which makes the most transfers; and idle reads of two waits that
/// reach the limit only together.
pub const WAITS: [(Call, &[u32], u8, usize); 13] = [
    (BRING_UP, &[65_535], TIMEOUT, 65_561),
    (BRING_UP, &[0, 10_000], TIMEOUT, 10_145),
    (BRING_UP, &[0, 0, 10_000], TIMEOUT, 10_151),
    (BRING_UP, &[65_533, 9_998, 9_998], DONE, 85_685),
    (BRING_UP, &[65_534, 9_999, 9_999], DONE, 85_688),
    (Call::ReadRangeContinuous, &[10_000], TIMEOUT, 10_000),
    (Call::ReadRangeContinuous, &[9_998], DONE, 10_002),
    (Call::ReadRangeContinuous, &[9_999], DONE, 10_003),
    (Call::ReadRangeSingle, &[10_000], TIMEOUT, 10_008),
    (Call::ReadRangeSingle, &[0, 10_000], TIMEOUT, 10_009),
    (Call::ReadRangeSingle, &[9_998, 9_998], DONE, 20_009),
    (Call::ReadRangeSingle, &[9_999, 9_999], DONE, 20_011),
    (Call::ReadRangeSingle, &[4_000, 6_000], DONE, 10_013),
];

/// Waits at their limits, and one that fails on its last read.
fn waits(stream: &mut Stream, numbers: &mut Numbers) {
    let sensor = CalmSensor::new(numbers.split());
    for (call, idle, number, transfers) in WAITS {
        let before = stream.len();
        let answer = stream.call(call, sensor.idle(idle).failing(&[]));
        assert_eq!((answer.0, stream.len() - before), (number, 1 + transfers), "{call:?} {idle:?}");
    }
    let answer = stream.call(Call::ReadRangeContinuous, sensor.idle(&[10_000]).failing(&[(10_000, 70)]));
    assert_eq!(answer, Answer(3, 70));
}

/// A call that waits when the list ends, after some idle reads.
fn unanswered(stream: &mut Stream, numbers: &mut Numbers) {
    let before = stream.len();
    stream.call(Call::ReadRangeSingle, CalmSensor::new(numbers.split()).idle(&[9]).failing(&[]));
    stream.cut(before + 12);
}
