//! A program that is begun anew in the middle of a call, with the session that it put away or without; a sensor that
//! was without power.

use crate::rig::{Rig, AFTER, BEFORE, CONTINUOUS, MEANWHILE, SINGLE};
use crate::{Count, Table, SEEDS};
use vl53l0x_session::{Answer, Call, Session};
use vl53l0x_simulator::Simulator;

/// Call 8 is left at each of its transfers and goes on when the roll has moved.
pub fn a_reading_goes_on(table: &mut Table) {
    let (mut old, mut next, mut recovered) = <(Count, Count, Count)>::default();
    for seed in SEEDS {
        for rig in Rig::up(seed).left(SINGLE).into_iter().flat_map(Rig::at_once_and_later) {
            let mut rig = rig.moved(MEANWHILE);
            old.add(rig.go_on() == Answer::Done(BEFORE.into()));
            let rig = rig.paused();
            next.add(rig.clone().reads_right());
            recovered.add_all(rig.recovered().at_once_and_later().map(Rig::reads_right));
        }
    }
    table.title(
        "call 8 left at each of its transfers, made or not; the roll moves; at once or after a pause it goes on",
    );
    table.at_times("Done with the distance of before", old);
    table.at_times("the next reading, after a pause, is right", next);
    table.always("right: page 0 by hand, one thrown away, a pause, call 13, the next one", recovered);
}

/// Calls 1, 4, 5, 6, 7 and 8 are left at each of their transfers, and nothing is known of the sensor any more.
pub fn the_session_is_lost(table: &mut Table) {
    let (mut first, mut second, mut right) = <(Count, Count, Count)>::default();
    for seed in SEEDS {
        let (up, running) = (Rig::up(seed), Rig::running(seed));
        let left = [
            Rig::new(seed).moved(BEFORE).left(Call::NEW),
            up.left(SINGLE),
            up.left(Call::StartContinuous(0)),
            running.clone().paused().left(Call::ReadRangeMm),
            running.left(CONTINUOUS),
            running.left(Call::StopContinuous),
        ];
        for rig in left.into_iter().flatten().flat_map(Rig::at_once_and_later) {
            let mut rig = Rig { session: Session::new(), ..rig }.selected();
            let answer = rig.call(Call::NEW);
            assert!(matches!(answer, Answer::Done(0) | Answer::Timeout), "{answer}");
            first.add(answer == Answer::Done(0));
            if answer == Answer::Timeout {
                rig = rig.selected();
                second.add(rig.call(Call::NEW) == Answer::Done(0));
            }
            right.add_all(rig.at_once_and_later().map(Rig::reads_right));
        }
    }
    table.title("call 1 or 4 to 8 left so; the session is lost; page 0 by hand, and a bring-up in a fresh session");
    table.at_times("Done, else Timeout", first);
    table.always("after Timeout the same again: Done", second);
    table.always("and a single reading is right, at once or after a pause", right);
}

/// The session says that the sensor is up, and the sensor is as it is after power-up.
pub fn the_sensor_was_without_power(table: &mut Table) {
    let (mut done, mut bare, mut same) = <(Count, Count, Count)>::default();
    for seed in SEEDS {
        let brought_up = Rig::new(seed).moved(AFTER).after(Call::NEW);
        let rig = Rig { sensor: Simulator::new(seed), ..Rig::up(seed) }.moved(AFTER);
        done.add(rig.clone().gives(SINGLE, AFTER));
        bare.add(rig.clone().after(SINGLE).registers() != brought_up.clone().after(SINGLE).registers());
        same.add(rig.after(Call::NEW).registers() == brought_up.registers());
    }
    table.title("a sensor that is up was without power");
    table.always("call 8 is Done", done);
    table.always("and the registers are not those of a sensor that is up", bare);
    table.always("all registers are as after power-up and a bring-up: a bring-up first", same);
}
