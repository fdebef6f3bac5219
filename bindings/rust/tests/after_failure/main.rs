//! What the driver answers after a call that broke, and what helps: measured on the simulator, with every call broken
//! at each of its transfers, both where the transfer was not made and where it was made and its reply was lost. The
//! figures are stored beside this file; `-- --nocapture` prints them.

mod bring_ups;
#[allow(dead_code)]
#[path = "../calls/mod.rs"]
mod calls;
mod longest;
mod readings;
mod restarts;
mod rig;
mod settings;

use std::fmt::{self, Display, Formatter};
use std::ops::RangeInclusive;

/// The sensors. The seed decides how long a sensor's waits are, and so how many transfers its calls make.
const SEEDS: RangeInclusive<u64> = 1..=20;

const STORED: &str = include_str!("figures");

/// How often something was so, of how many.
#[derive(Clone, Copy, Default, PartialEq, Eq)]
struct Count {
    so: u32,
    of: u32,
}

impl Count {
    fn add(&mut self, so: bool) {
        self.so += u32::from(so);
        self.of += 1;
    }

    fn add_all(&mut self, so: impl IntoIterator<Item = bool>) {
        so.into_iter().for_each(|so| self.add(so));
    }
}

/// The figures, with what they are of.
#[derive(Default)]
struct Table(Vec<String>);

impl Table {
    fn title(&mut self, title: &str) {
        self.0.push(format!("\n{title}"));
    }

    fn line(&mut self, line: String) {
        self.0.push(format!("  {line}"));
    }

    fn count(&mut self, what: &str, count: Count) {
        self.line(format!("{:>6} of {:>6}  {what}", count.so, count.of));
    }

    /// What is so each time.
    fn always(&mut self, what: &str, count: Count) {
        assert!(count.of > 0 && count.so == count.of, "{what}: {} of {}", count.so, count.of);
        self.count(what, count);
    }

    /// What is so now and then, which is why a caller has to know of it.
    fn at_times(&mut self, what: &str, count: Count) {
        assert!(0 < count.so && count.so < count.of, "{what}: {} of {}", count.so, count.of);
        self.count(what, count);
    }

    /// What is never so.
    fn never(&mut self, what: &str, count: Count) {
        assert!(count.of > 0 && count.so == 0, "{what}: {} of {}", count.so, count.of);
        self.count(what, count);
    }
}

impl Display for Table {
    fn fmt(&self, f: &mut Formatter) -> fmt::Result {
        self.0.iter().try_for_each(|line| writeln!(f, "{line}"))
    }
}

#[test]
fn what_follows_a_failure() {
    let mut table = Table::default();
    table.0.push(format!(
        "{} sensors; each call is broken at each of its transfers, and each time in two ways:",
        SEEDS.count()
    ));
    table.0.push("the transfer is not made, or it is made and its reply is lost".to_string());
    readings::the_same_reading_again(&mut table);
    readings::the_recipe_breaks(&mut table);
    readings::after_other_calls(&mut table);
    readings::after_a_timeout(&mut table);
    readings::while_continuous(&mut table);
    readings::started_or_stopped(&mut table);
    settings::the_next_setting(&mut table);
    settings::a_lost_setting_is_read_back(&mut table);
    settings::after_set_address(&mut table);
    bring_ups::the_next_bring_up(&mut table);
    restarts::a_reading_goes_on(&mut table);
    restarts::the_session_is_lost(&mut table);
    restarts::the_sensor_was_without_power(&mut table);
    longest::timeouts(&mut table);
    println!("{table}");
    assert!(table.to_string() == STORED, "the figures are not those that are stored");
}
