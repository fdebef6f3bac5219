//! Is the next distance right?

use crate::calls::CALLS;
use crate::rig::{Rig, AFTER, BEFORE, CONTINUOUS, MEANWHILE, SINGLE};
use crate::{Count, Table, SEEDS};
use std::collections::BTreeMap;
use vl53l0x_session::{Answer, Call};

/// The calls that measure nothing and select no page, but for call 3 (settings.rs), after which the sensor may be at
/// another address.
fn others() -> impl Iterator<Item = Call> {
    CALLS.iter().copied().filter(|call| match call {
        Call::WithAddress(_) | Call::SetAddress(_) | Call::StartContinuous(_) | Call::StopContinuous => false,
        call => ![Call::ReadRangeMm, CONTINUOUS, SINGLE].contains(call),
    })
}

/// What a caller may do before the next single reading, and how often that reading was right.
#[derive(Default)]
struct Ways {
    thrown_away: Count,
    lagging: Count,
    cleared: Count,
    recovered: Count,
}

impl Ways {
    fn add(&mut self, rig: &Rig) {
        let thrown_away = rig.clone().moved(MEANWHILE).after(SINGLE);
        self.thrown_away.add(thrown_away.clone().reads_right());
        self.lagging.add(thrown_away.paused().reads_right());
        self.cleared.add_all(rig.clone().thrown_away_and_cleared().at_once_and_later().map(Rig::reads_right));
        self.recovered.add_all(rig.clone().recovered().at_once_and_later().map(Rig::reads_right));
    }

    fn show(&self, table: &mut Table) {
        table.always("right: one single reading thrown away, the next one at once", self.thrown_away);
        table.at_times("right: one single reading thrown away, a pause, the next one", self.lagging);
        table.always("right: one thrown away, a pause, call 13, the next one", self.cleared);
        table.always("right: page 0 by hand, one thrown away, a pause, call 13, the next one", self.recovered);
    }
}

/// Whether ten single readings, with a pause after each, are all the distance of the one before.
fn stays_behind(rig: &Rig) -> bool {
    let mut rig = rig.clone();
    let distances = [BEFORE].into_iter().chain(AFTER..AFTER + 10);
    distances.zip(AFTER..).take(10).all(|(before, now)| {
        rig.sensor.set_distance(now);
        let is_before = rig.call(SINGLE) == Answer::Done(before.into());
        rig.sensor.pass_time();
        is_before
    })
}

/// Call 8 breaks, the roll moves, and call 8 is made again.
pub fn the_same_reading_again(table: &mut Table) {
    for (later, when) in ["at once", "after a pause"].into_iter().enumerate() {
        let (mut old, mut behind, mut ways, mut places) = <(Count, Count, Ways, BTreeMap<_, Count>)>::default();
        let (mut same, mut by_hand) = <(Count, Count)>::default();
        for seed in SEEDS {
            let up = Rig::up(seed);
            let whole = up.clone().after(SINGLE).registers();
            for (rig, place) in up.broken(SINGLE) {
                let rig = &rig.at_once_and_later()[later];
                let answer = rig.clone().moved(AFTER).call(SINGLE);
                let is_old = answer == Answer::Done(BEFORE.into());
                assert!(is_old || answer == Answer::Done(AFTER.into()), "{answer}");
                old.add(is_old);
                places.entry(place).or_default().add(is_old);
                behind.add(stays_behind(rig));
                ways.add(rig);
                let read = |rig: Rig| rig.moved(BEFORE).after(SINGLE).registers();
                same.add(read(rig.clone().thrown_away_and_cleared()) == whole);
                by_hand.add(read(rig.clone().recovered()) == whole);
            }
        }
        table.title(&format!("call 8 broken at 900 mm; the roll moves to 100 mm; {when} call 8 again"));
        table.at_times("Done with 900 mm, the old reading", old);
        for (place, count) in places.iter().filter(|(_, count)| count.so > 0) {
            table.count(&format!("  where it broke at {place}"), *count);
        }
        table.at_times("old, and the nine after it are one behind, with a pause after each", behind);
        ways.show(table);
        table.at_times("all registers as if nothing broke: one thrown away, a pause, call 13, the next one", same);
        table.always("the same with page 0 by hand first", by_hand);
    }
}

/// Call 8 breaks, then a call of the recipe breaks too, and the recipe is begun again.
pub fn the_recipe_breaks(table: &mut Table) {
    let mut right = Count::default();
    for seed in SEEDS {
        for rig in Rig::up(seed).broken(SINGLE).flat_map(|(rig, _)| rig.at_once_and_later()) {
            let first = rig.selected().moved(MEANWHILE);
            let last = first.clone().after(SINGLE).paused();
            for (rig, call) in [(first, SINGLE), (last, Call::ClearInterruptStatus)] {
                for rig in rig.broken(call).flat_map(|(rig, _)| rig.at_once_and_later()) {
                    right.add(rig.recovered().reads_right());
                }
            }
        }
    }
    table.title("call 8 broken; page 0 by hand; then call 8 or 13 of the recipe broken too");
    table.always("right: page 0 by hand, one thrown away, a pause, call 13, the next one", right);
}

/// Calls that measure nothing and select no page. Made again, the sensor has to be as if nothing had been.
pub fn after_other_calls(table: &mut Table) {
    let (mut done, mut same, mut right) = <(Count, Count, Count)>::default();
    for seed in SEEDS {
        let up = Rig::up(seed);
        for call in others() {
            let mut whole = up.clone();
            let answer = whole.call(call);
            for (mut rig, _) in up.broken(call) {
                done.add(rig.call(call) == answer);
                same.add(rig.registers() == whole.registers());
                right.add(rig.reads_right());
            }
        }
    }
    table.title(&format!("each of calls 2 and 9 to {} broken; then the same call", CALLS.len()));
    table.always("answered as if nothing broke", done);
    table.always("and then all registers are as if nothing broke", same);
    table.always("and a single reading is right", right);
}

/// A measurement that takes longer than call 8 waits.
pub fn after_a_timeout(table: &mut Table) {
    let (mut again, mut recovered) = <(Count, Count)>::default();
    for seed in SEEDS {
        let mut rig = Rig::up_with(seed, Some(20_000));
        assert_eq!(rig.call(SINGLE), Answer::Timeout);
        let rig = rig.paused();
        again.add(rig.clone().moved(AFTER).gives(SINGLE, BEFORE));
        recovered.add(rig.recovered().reads_right());
    }
    table.title("call 8 ended in Timeout; the measurement ends; the roll moves; call 8 again");
    table.always("Done with the old reading", again);
    table.always("right: page 0 by hand, one thrown away, a pause, call 13, the next one", recovered);
}

/// Calls 6 and 7 break while the sensor measures continuously.
pub fn while_continuous(table: &mut Table) {
    let (mut again, mut thrown, mut by_single) = <(Count, Count, Count)>::default();
    for seed in SEEDS {
        let running = Rig::running(seed);
        for (rig, call) in [(running.clone().paused(), Call::ReadRangeMm), (running, CONTINUOUS)] {
            for (rig, _) in rig.broken(call) {
                again.add(rig.clone().moved(AFTER).gives(CONTINUOUS, AFTER));
                for rig in rig.clone().at_once_and_later() {
                    thrown.add(rig.moved(MEANWHILE).after(CONTINUOUS).moved(AFTER).gives(CONTINUOUS, AFTER));
                }
                by_single.add(rig.after(SINGLE).moved(AFTER).gives(CONTINUOUS, AFTER));
            }
        }
    }
    table.title("calls 6 and 7 broken while the sensor measures continuously; the roll moves; call 7");
    table.at_times("right", again);
    table.always("right: one reading of call 7 thrown away, call 7", thrown);
    table.never("right: one reading of call 8 thrown away, call 7 (call 8 stops the measurements)", by_single);
}

/// Calls 4 and 5 break.
pub fn started_or_stopped(table: &mut Table) {
    let (mut started, mut stopped) = <(Count, Count)>::default();
    let (mut by_single, mut in_recipe) = <(Count, Count)>::default();
    for seed in SEEDS {
        let up = Rig::up(seed);
        for call in [Call::StartContinuous(0), Call::StartContinuous(50)] {
            for rig in up.broken(call).flat_map(|(rig, _)| rig.at_once_and_later()) {
                let rig = rig.moved(MEANWHILE).selected().after(call).after(CONTINUOUS);
                started.add(rig.moved(AFTER).gives(CONTINUOUS, AFTER));
            }
        }
        for (rig, call) in [(up, Call::StartContinuous(50)), (Rig::running(seed), Call::StopContinuous)] {
            for rig in rig.broken(call).flat_map(|(rig, _)| rig.at_once_and_later()) {
                by_single.add(rig.clone().call(SINGLE) == Answer::Timeout);
                let rig = rig.selected().after(Call::StopContinuous);
                in_recipe.add(rig.clone().call(SINGLE) == Answer::Timeout);
                stopped.add_all(rig.thrown_away_and_cleared().at_once_and_later().map(Rig::reads_right));
            }
        }
    }
    table.title("call 4 or 5 broken");
    table.always("right: page 0 by hand, call 4 again, one reading of call 7 thrown away, call 7", started);
    table.at_times("a single reading ends in Timeout, since the sensor measures continuously", by_single);
    table.never("the same: page 0 by hand, call 5 first", in_recipe);
    table.always("right: page 0 by hand, call 5, one single reading thrown away, a pause, call 13, the next", stopped);
}
