//! Chosen cases: every call, a failure at each of its transfers, each wait at its limit, each place.

use crate::bus::{Bus, ADDRESS};
use crate::call::{Answer, Call, CALLS, FUNCTIONALITIES, POLARITIES};
use crate::refused::Refusing;
use crate::sides::Sides;
use crate::tally::Tally;
use std::num::NonZeroU8;
use vl53l0x::inner::{self, Fields};
use vl53l0x::VL53L0x;
use vl53l0x_session::{Outcome, Session};
use vl53l0x_simulator::{Simulator, Wait, NOBODY_ANSWERS};

const BRING_UP: Call = Call::WithAddress(ADDRESS);
const DONE: Answer = Answer(0, 0);

pub fn run(tally: &mut Tally) {
    every_call(tally);
    new();
    failed_transfers(tally);
    failed_range_reads(tally);
    waits(tally);
    addresses(tally);
    arguments(tally);
    limits(tally);
    periods(tally);
    budgets(tally);
    bring_up_budgets(tally);
}

fn code(code: u8) -> NonZeroU8 {
    NonZeroU8::new(code).expect("a failure code")
}

/// Both drivers, up.
fn up<'a>(what: &str, tally: &'a mut Tally) -> Sides<'a> {
    let mut sides = Sides::new(what, Simulator::new(1), tally);
    assert_eq!(sides.make(BRING_UP), DONE);
    sides
}

/// All calls on several sensors. On the first of them every refused record comes before every other.
fn every_call(tally: &mut Tally) {
    for seed in 1..=4 {
        let mut sides = Sides::new(format!("sensor {seed}"), Simulator::new(seed), tally);
        sides.refusing = if seed == 1 { Refusing::Every } else { Refusing::InTurn(0) };
        sides.sensor.set_distance(505);
        for call in CALLS.into_iter().filter(|call| !measures(*call)) {
            assert_eq!(sides.make(call).0, 0, "{call:?}");
        }
        assert_eq!(sides.make(Call::ReadRangeSingle), Answer(0, 505));
        sides.sensor.plan_wait(Wait::Status, 1);
        sides.make(Call::StartContinuous(0));
        assert_eq!(sides.make(Call::ReadRange), Answer(7, 0));
        assert_eq!(sides.make(Call::ReadRange), Answer(0, 505));
        assert_eq!(sides.make(Call::ReadRangeContinuous), Answer(0, 505));
        assert_eq!(sides.make(Call::StopContinuous), DONE);
        assert_eq!(sides.make(Call::WithAddress(0x30)), DONE);
    }
}

/// The call `NEW` of the wrapper on the replies that the Rust driver's own `new` has had.
fn new() {
    for seed in 1..=4 {
        let mut sensor = Simulator::new(seed);
        let mut spoil = |_: &[u8], _: &mut [u8]| ();
        let mut bus = Bus::new(&mut sensor, &mut spoil);
        let fields = VL53L0x::new(&mut bus).map(|chip| inner::fields(&chip)).expect("no failure");
        let Fields { stop_variable, measurement_timing_budget_microseconds, address } = fields;

        let mut session = Session::new();
        let mut outcome = session.begin(vl53l0x_session::Call::NEW);
        for exchange in &bus.exchanges {
            assert_eq!(Some(outcome), Outcome::from_bytes(&exchange.outcome()), "sensor {seed}, new");
            outcome = session.step(&exchange.record());
        }
        let (answer, transfers) = (vl53l0x_session::Answer::Done(0), bus.exchanges.len() as u32);
        assert_eq!(outcome, Outcome::Answer { answer, transfers }, "sensor {seed}, new");
        assert_eq!(
            (session.up(), session.address(), session.stop(), session.budget()),
            (true, address, stop_variable, measurement_timing_budget_microseconds)
        );
    }
}

/// Whether a call needs a measurement that is under way, or is one.
fn measures(call: Call) -> bool {
    matches!(call, Call::ReadRange | Call::ReadRangeContinuous | Call::ReadRangeSingle)
}

/// Each call with its first transfer failed, with its second, and so on, until it is answered Done. Each attempt is on
/// a sensor of its own, since a call that was broken off leaves the registers in any state.
fn failed_transfers(tally: &mut Tally) {
    for call in CALLS.into_iter().chain([Call::StartContinuous(0)]) {
        // A call that does not wait has to find its reading.
        let idle = if matches!(call, Call::ReadRange) { [0; 2] } else { [2; 2] };
        for n in 0.. {
            let mut sides = ready_for(call, &idle, "failed transfers", tally);
            let code = NonZeroU8::MIN.saturating_add((n % 255) as u8);
            sides.sensor.fail_after(n, code);
            let answer = sides.make(call);
            if answer != Answer(3, code.get().into()) {
                assert_eq!(answer.0, 0, "{call:?}");
                break;
            }
        }
    }
}

/// Both drivers just before a call, with so many idle reads in its first and its second wait.
fn ready_for<'a>(call: Call, idle: &[u32], what: &str, tally: &'a mut Tally) -> Sides<'a> {
    if call.is_bring_up() {
        let mut sides = Sides::new(what, Simulator::new(1), tally);
        idle.iter().for_each(|idle| sides.sensor.plan_wait(Wait::Status, *idle));
        return sides;
    }
    let mut sides = up(what, tally);
    match call {
        Call::ReadRange | Call::ReadRangeContinuous => {
            sides.sensor.plan_wait(Wait::Status, idle[0]);
            assert_eq!(sides.make(Call::StartContinuous(0)), DONE);
        }
        Call::ReadRangeSingle => {
            sides.sensor.plan_wait(Wait::Start, idle[0]);
            sides.sensor.plan_wait(Wait::Status, idle[1]);
        }
        _ => (),
    }
    sides
}

/// After a failed range read clearing succeeds, fails at its first write, and fails at its second. Call 6 reports the
/// code of the read, calls 7 and 8 the last one.
fn failed_range_reads(tally: &mut Tally) {
    for (call, n) in [(Call::ReadRange, 1), (Call::ReadRangeContinuous, 1), (Call::ReadRangeSingle, 10)] {
        for (after, clearing) in [(None, 41), (Some(0), 52), (Some(1), 53)] {
            let mut sides = ready_for(call, &[0, 0], "failed range reads", tally);
            sides.sensor.fail_after(n, code(41));
            if let Some(after) = after {
                sides.sensor.fail_after(after, code(clearing));
            }
            let reported = if matches!(call, Call::ReadRange) { 41 } else { clearing };
            assert_eq!(sides.make(call), Answer(3, reported.into()), "{call:?}");
        }
    }
}

/// Every wait idle to its limit, and ready on its last read; the two waits of call 8 do not add up; a failure in a long
/// wait.
fn waits(tally: &mut Tally) {
    for (idle, number) in [(65_535, 4), (65_534, 0)] {
        let mut sides = Sides::new("detector wait", Simulator::new(1), tally);
        sides.sensor.plan_wait(Wait::Detector, idle);
        assert_eq!(sides.make(BRING_UP).0, number, "{idle}");
    }
    let single = Call::ReadRangeSingle;
    for (call, idle, number) in [
        (BRING_UP, [10_000, 0], 4),
        (BRING_UP, [9_999, 0], 0),
        (BRING_UP, [0, 10_000], 4),
        (BRING_UP, [0, 9_999], 0),
        (Call::ReadRangeContinuous, [10_000, 0], 4),
        (Call::ReadRangeContinuous, [9_999, 0], 0),
        (single, [10_000, 0], 4),
        (single, [9_999, 0], 0),
        (single, [0, 10_000], 4),
        (single, [0, 9_999], 0),
        (single, [4_000, 6_000], 0),
    ] {
        let mut sides = ready_for(call, &idle, "waits", tally);
        assert_eq!(sides.make(call).0, number, "{call:?} {idle:?}");
    }
    let mut sides = ready_for(single, &[4_000, 6_000], "a failure in a wait", tally);
    sides.sensor.fail_after(9_000, code(77));
    assert_eq!(sides.make(single), Answer(3, 77));
}

/// Addresses that the sensor takes, that it cannot take, and where it is not; devices that are something else.
fn addresses(tally: &mut Tally) {
    let mut sides = up("addresses", tally);
    for (address, number) in [(0x08, 0), (0x77, 0), (0x07, 5), (0x78, 5), (0x00, 5), (0xFF, 5)] {
        assert_eq!(sides.make(Call::SetAddress(address)).0, number, "{address}");
        assert_eq!(sides.make(Call::WhoAmI), Answer(0, 0xEE));
    }
    for address in [0x00, 0x29, 0xFF] {
        assert_eq!(sides.make(Call::WithAddress(address)), Answer(3, NOBODY_ANSWERS.get().into()));
    }
    for identity in [0x00, 0xED, 0xFF] {
        let mut other = |written: &[u8], read: &mut [u8]| {
            if written == [0xC0] {
                read[0] = identity;
            }
        };
        assert_eq!(sides.make_with(Call::WithAddress(0x77), &mut other), Answer(2, identity.into()));
    }
}

/// Arguments at their edges.
fn arguments(tally: &mut Tally) {
    let mut sides = up("arguments", tally);
    for (low, high, number) in
        [(0, 0, 0), (8190, 8190, 0), (0, 8191, 6), (8191, 8191, 6), (301, 300, 6), (300, 301, 0), (0, u16::MAX, 6)]
    {
        assert_eq!(sides.make(Call::SetThresholds(low, high)).0, number, "{low} {high}");
        assert_eq!(sides.make(Call::GetThresholds).0, 0);
    }
    for (bits, number) in [
        (0x0000_0000, 0), // 0.0
        (0x0000_0001, 0), // the least number above it
        (0x3E80_0000, 0), // 0.25
        (0x43FF_FEB8, 0), // 511.99
        (0x43FF_FEB9, 1),
        (0x7F80_0000, 1), // infinity
        (0x7FC0_0000, 1), // no number
        (0x8000_0000, 0), // -0.0
        (0x8000_0001, 1),
        (0xBE80_0000, 1), // -0.25
    ] {
        assert_eq!(sides.make(Call::SetSignalRateLimit(bits)).0, number, "{bits:08X}");
    }
    for functionality in FUNCTIONALITIES {
        for polarity in POLARITIES {
            assert_eq!(sides.make(Call::SetGpioConfig(functionality, polarity)), DONE);
        }
    }
}

/// Every word as the limit that the sensor holds; each is set again as it was read.
fn limits(tally: &mut Tally) {
    let mut sides = up("limits", tally);
    for word in 0..=u16::MAX {
        let mut held = |written: &[u8], read: &mut [u8]| {
            if written == [0x44] {
                read.copy_from_slice(&word.to_be_bytes());
            }
        };
        let bits = (f32::from(word) / 128.0).to_bits();
        assert_eq!(sides.make_with(Call::GetSignalRateLimit, &mut held), Answer(0, bits), "{word}");
        // Only the greatest word reads as a limit above 511.99.
        let (number, left) = if word < u16::MAX { (0, word) } else { (1, u16::MAX - 1) };
        assert_eq!(sides.make(Call::SetSignalRateLimit(bits)), Answer(number, 0), "{word}");
        assert_eq!(sides.sensor.word(0x44), left);
    }
}

/// Both sides of place 1.
fn periods(tally: &mut Tally) {
    let mut sides = up("periods", tally);
    for (oscillator, period, answer) in [
        (0, u32::MAX, DONE),
        (1, u32::MAX, DONE),
        (2, 0x7FFF_FFFF, DONE),
        (2, 0x8000_0000, Answer(8, 1)),
        (0xFFFF, 65_537, DONE),
        (0xFFFF, 65_538, Answer(8, 1)),
        (0xFFFF, 0, DONE),
    ] {
        let mut word = |written: &[u8], read: &mut [u8]| {
            if written == [0xF8] {
                read.copy_from_slice(&u16::to_be_bytes(oscillator));
            }
        };
        assert_eq!(sides.make_with(Call::StartContinuous(period), &mut word), answer, "{oscillator} {period}");
    }
}

/// The replies to the budget reads: 0x01, 0x51 (two bytes), 0x71 (two), 0x50, 0x46, 0x70.
pub type Replies = [u8; 8];

/// Gives these replies to the budget reads, the next ones each time that 0x01 is read.
pub fn timing(all: &[Replies]) -> impl FnMut(&[u8], &mut [u8]) + '_ {
    let mut all = all.iter();
    let mut replies = &[0; 8];
    move |written, read| match *written {
        [0x01] => {
            replies = all.next().expect("as many replies as budget reads");
            read[0] = replies[0];
        }
        [0x51] => read.copy_from_slice(&replies[1..3]),
        [0x71] => read.copy_from_slice(&replies[3..5]),
        [0x50] => read[0] = replies[5],
        [0x46] => read[0] = replies[6],
        [0x70] => read[0] = replies[7],
        _ => (),
    }
}

/// What a sensor replies once its tuning settings are loaded.
const CALM: Replies = [0xE8, 0x00, 0x96, 0x01, 0xFE, 0x06, 0x25, 0x04];

/// Replies at which both calls panic, with the place.
const PANICS: [(Replies, u32); 9] = [
    ([0xE8, 0x10, 0x00, 0x01, 0xFE, 0x06, 0x25, 0x04], 2),
    ([0xE8, 0x00, 0x96, 0x10, 0x00, 0x06, 0x25, 0x04], 2),
    ([0xE8, 0x02, 0x96, 0x01, 0xFE, 0x06, 0x25, 0x04], 3),
    ([0xE8, 0x00, 0x96, 0x01, 0xFE, 0xFF, 0x25, 0x04], 4),
    ([0xE8, 0x00, 0x96, 0x01, 0xFE, 0x06, 0x25, 0xFF], 4),
    ([0xE8, 0x00, 0x96, 0x01, 0xFE, 0x06, 0xFF, 0x04], 5),
    ([0x00, 0x05, 0x8B, 0x00, 0x00, 0x7E, 0x00, 0x00], 6),
    ([0x00, 0x00, 0x00, 0x05, 0x8B, 0x00, 0x00, 0x7E], 6),
    ([0x00, 0x05, 0xD4, 0x00, 0x00, 0x52, 0x00, 0x00], 6), // the product fits, but not the sum
];

/// No time is left for the final range with 34,000 microseconds.
const NO_TIME: Replies = [0xE8, 0x02, 0xFE, 0x03, 0xFE, 0x06, 0x25, 0x04];
/// The period of the final range is 0.
const NO_PERIOD: Replies = [0x00, 0x00, 0x00, 0x00, 0x00, 0x00, 0x00, 0x7F];
/// Timeouts so long that place 9 is near.
const LONG: Replies = [0xC0, 0x0F, 0xFF, 0x0F, 0xFF, 0x00, 0x00, 0x00];

/// Calls 15 and 9.
fn budgets(tally: &mut Tally) {
    let mut sides = up("budgets", tally);
    assert_eq!(sides.make_with(Call::GetBudget, &mut timing(&[CALM])), Answer(0, 31_326));
    for (replies, place) in PANICS {
        assert_eq!(sides.make_with(Call::GetBudget, &mut timing(&[replies])), Answer(8, place));
        assert_eq!(sides.make_with(Call::SetBudget(33_000), &mut timing(&[replies])), Answer(8, place));
    }
    for (budget, replies, answer) in [
        (33_000, CALM, DONE),
        (20_000, CALM, DONE),
        (34_000, NO_TIME, Answer(1, 0)),
        (4_294_967 + 2_280, NO_PERIOD, Answer(8, 8)),
        (4_294_968 + 2_280, NO_PERIOD, Answer(8, 7)),
        (u32::MAX, [0; 8], Answer(8, 7)),
        (4_294_963 + 2_280, [0; 8], DONE),
        (4_294_964 + 2_280, [0; 8], Answer(8, 7)), // the product fits, but not the sum
        (503_267, LONG, DONE),
        (503_268, LONG, Answer(8, 9)),
        (753_890, LONG, DONE),
    ] {
        assert_eq!(sides.make_with(Call::SetBudget(budget), &mut timing(&[replies])), answer, "{budget}");
    }
    for budget in [0, 19_999] {
        assert_eq!(sides.make(Call::SetBudget(budget)), Answer(1, 0));
    }
}

/// Bring-ups with these replies to the first and to the second budget reads.
fn bring_up_budgets(tally: &mut Tally) {
    /// Make a first budget of more than half a second, and of about eight.
    const HALF_SECOND: Replies = [0x80, 0x00, 0x00, 0x03, 0x82, 0x00, 0x00, 0x3F];
    const EIGHT_SECONDS: Replies = [0xC0, 0x06, 0x80, 0x07, 0x80, 0x3F, 0x00, 0x3F];
    let at_first = PANICS.map(|(replies, place)| (replies, CALM, Answer(8, place)));
    let then = PANICS.map(|(replies, place)| (CALM, replies, Answer(8, place)));
    let others = [
        (CALM, CALM, DONE),
        (CALM, NO_TIME, DONE),
        (CALM, NO_PERIOD, Answer(8, 8)),
        (EIGHT_SECONDS, [0; 8], Answer(8, 7)),
        (HALF_SECOND, LONG, Answer(8, 9)),
    ];
    for (first, second, answer) in at_first.into_iter().chain(then).chain(others) {
        let mut sides = Sides::new("bring-up budgets", Simulator::new(1), tally);
        assert_eq!(sides.make_with(BRING_UP, &mut timing(&[first, second])), answer, "{first:02X?} {second:02X?}");
    }
    // A budget that is too short is not set, and read only once.
    let mut sides = Sides::new("bring-up budgets", Simulator::new(1), tally);
    assert_eq!(sides.make_with(BRING_UP, &mut timing(&[[0; 8]])), DONE);
}
