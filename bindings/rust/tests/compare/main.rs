//! The exported functions against the Rust driver that was ported, built with overflow checks.
//!
//! Each call is made on the Rust driver first, with a simulated sensor on its bus, and each transfer is kept with its
//! reply; call 16, which it does not have, is made by the function that oracle/src/later.rs gives it. Then the exported
//! functions get the record of the call and the same replies. They have to make the same transfers, byte by byte, give
//! the same answer (a panic is answer 8 with its place), and leave the same fields; what is out and the count of
//! transfers are tested at each step, and records that have to be refused come in between.
//!
//! Arguments: how many seeds for random calls (1000 if none), the first seed (1 if none).

mod bus;
mod fixed;
mod random;
mod sides;
mod tally;
mod traps;

#[allow(dead_code)]
#[path = "../calls/mod.rs"]
mod calls;

// From the repository's oracle: the calls as records and on the Rust driver with its answers by number, its panics as
// places, and records that are refused.
#[allow(dead_code)]
#[path = "../../../../oracle/src/bytes.rs"]
mod bytes;
#[allow(dead_code)]
#[path = "../../../../oracle/src/call.rs"]
mod call;
#[allow(dead_code)]
#[path = "../../../../oracle/src/numbers.rs"]
mod numbers;
#[allow(dead_code)]
#[path = "../../../../oracle/src/place.rs"]
mod place;
#[path = "../../../../oracle/src/refused.rs"]
mod refused;

use std::hint::black_box;
use std::ops::Range;
use std::{env, panic, process};
use tally::Tally;

/// The Rust driver answers otherwise where it overflows and nothing is checked.
fn assert_overflow_checks() {
    let print = panic::take_hook();
    panic::set_hook(Box::new(|_| ()));
    let checked = panic::catch_unwind(|| black_box(u8::MAX) + black_box(1)).is_err();
    panic::set_hook(print);
    assert!(checked, "the comparison needs overflow checks: build it without --release");
}

/// The seeds that the arguments ask for; none where they are no such numbers.
fn seeds() -> Option<Range<u64>> {
    let numbers: Vec<u64> = env::args().skip(1).map(|argument| argument.parse().ok()).collect::<Option<_>>()?;
    let (count, first) = match numbers[..] {
        [] => (1000, 1),
        [count] => (count, 1),
        [count, first] => (count, first),
        _ => return None,
    };
    Some(first..first.checked_add(count)?).filter(|seeds| !seeds.is_empty())
}

fn main() {
    assert_overflow_checks();
    // From here on any panic that is not one of the Rust driver's ends the program.
    place::install();
    let Some(seeds) = seeds() else {
        eprintln!("usage: compare [SEEDS [FIRST SEED]], numbers, SEEDS from 1");
        process::exit(2)
    };
    let mut tally = Tally::default();
    fixed::run(&mut tally);
    tally.assert_complete();
    traps::run(&mut tally);
    for seed in seeds {
        random::run(seed, &mut tally);
    }
    tally.assert_complete();
    print!("{tally}");
}
