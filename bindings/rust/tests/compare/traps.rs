//! What the Rust driver answers after a call that one failed transfer has broken: Done, where the sensor does not have
//! what it says. docs/DIFFERENCES.md has these cases, and tests/after_failure counts them.

use crate::bus::ADDRESS;
use crate::call::{Answer, Call};
use crate::sides::Sides;
use crate::tally::Tally;
use std::num::NonZeroU8;
use vl53l0x_simulator::{Failure, Simulator, Wait};

const BRING_UP: Call = Call::WithAddress(ADDRESS);
const CODE: NonZeroU8 = NonZeroU8::new(7).unwrap();
const BUS_ERROR: Answer = Answer(3, 7);
const DONE: Answer = Answer(0, 0);
/// The bits of the limit 1.0.
const ONE: u32 = 0x3F80_0000;

pub fn run(tally: &mut Tally) {
    old_distance(tally);
    lost_settings(tally);
    no_identity(tally);
    lost_address(tally);
}

fn up<'a>(what: &str, tally: &'a mut Tally) -> Sides<'a> {
    let mut sides = Sides::new(what, Simulator::new(1), tally);
    assert_eq!(sides.make(BRING_UP), DONE);
    sides
}

fn break_at(sides: &mut Sides, transfer: u32, failure: Failure, call: Call) {
    sides.sensor.break_after(transfer - 1, failure, CODE);
    assert_eq!(sides.make(call), BUS_ERROR);
}

/// The interrupt is not cleared: the next reading is the old one.
fn old_distance(tally: &mut Tally) {
    let mut sides = up("an old distance", tally);
    sides.sensor.plan_wait(Wait::Start, 0);
    sides.sensor.plan_wait(Wait::Status, 0);
    sides.sensor.set_distance(900);
    // 8 writes, a read of each wait, the range read, and then the first write of the clearing.
    break_at(&mut sides, 12, Failure::NotMade, Call::ReadRangeSingle);
    sides.sensor.set_distance(100);
    assert_eq!(sides.make(Call::ReadRangeSingle), Answer(0, 900));
}

/// Page 1 stays selected: the next settings go there, and what is read back comes from there.
fn lost_settings(tally: &mut Tally) {
    for transfer in 3..=6 {
        let mut sides = up("lost settings", tally);
        break_at(&mut sides, transfer, Failure::NotMade, Call::ReadRangeSingle);
        let words = |sides: &Sides| [0x71, 0x0E, 0x0C, 0x44].map(|register| sides.sensor.word(register));
        let before = words(&sides);
        // On page 1 the budget reads find no timeouts, so that time is left for any budget.
        assert_eq!(sides.make(Call::SetBudget(50_000)), DONE);
        assert_eq!(sides.make(Call::SetThresholds(100, 300)), DONE);
        assert_eq!(sides.make(Call::GetThresholds), Answer(0, 100 << 16 | 300));
        assert_eq!(sides.make(Call::SetSignalRateLimit(ONE)), DONE);
        assert_eq!(sides.make(Call::GetSignalRateLimit), Answer(0, ONE));
        assert_eq!(sides.make(Call::SetAddress(0x30)), DONE);
        assert_eq!(words(&sides), before);
        let fields = sides.fields.as_ref().expect("up");
        assert_eq!((fields.measurement_timing_budget_microseconds, fields.address), (50_000, 0x30));
        assert_eq!(sides.sensor.address(), ADDRESS);
    }
}

/// Page 1 stays selected: the next bring-ups find no identity there.
fn no_identity(tally: &mut Tally) {
    let mut sides = Sides::new("no identity", Simulator::new(1), tally);
    break_at(&mut sides, 8, Failure::NotMade, BRING_UP);
    for _ in 0..5 {
        assert_eq!(sides.make(BRING_UP), Answer(2, 0));
    }
}

/// The sensor has its new address, the driver the old one.
fn lost_address(tally: &mut Tally) {
    let mut sides = up("a lost address", tally);
    break_at(&mut sides, 1, Failure::ReplyLost, Call::SetAddress(0x30));
    assert_eq!(sides.sensor.address(), 0x30);
    assert_eq!(sides.make(Call::WhoAmI), Answer(3, 4));
}
