//! Does the next bring-up come up?

use crate::rig::{Rig, BEFORE};
use crate::{Count, Table, SEEDS};
use vl53l0x_session::{Answer, Call};

/// A bring-up breaks once, and is made again. After that the sensor has to be as if nothing had been.
pub fn the_next_bring_up(table: &mut Table) {
    let (mut up, mut other, mut ever) = <(Count, Count, Count)>::default();
    let (mut selected, mut right, mut same) = <(Count, Count, Count)>::default();
    for seed in SEEDS {
        let new = Rig::new(seed).moved(BEFORE);
        let whole = new.clone().after(Call::NEW).registers();
        for (rig, _) in new.broken(Call::NEW) {
            let mut again = rig.clone();
            let answers = [(); 5].map(|()| again.call(Call::NEW));
            up.add(answers[0] == Answer::Done(0));
            other.add(matches!(answers[0], Answer::InvalidDevice(_)));
            ever.add(answers.contains(&Answer::Done(0)));
            for rig in rig.at_once_and_later() {
                let mut rig = rig.selected();
                selected.add(rig.call(Call::NEW) == Answer::Done(0));
                same.add(rig.registers() == whole);
                right.add_all(rig.at_once_and_later().map(Rig::reads_right));
            }
        }
    }
    table.title("a bring-up broken; then a bring-up");
    table.at_times("Done", up);
    table.at_times("InvalidDevice", other);
    table.at_times("Done, the first or one of the next four", ever);
    table.always("Done: page 0 by hand first, at once or after a pause", selected);
    table.always("and then all registers are as if nothing broke", same);
    table.always("and a single reading is right, at once or after a pause", right);
}
