//! One selection of detectors: the step of the library that sends the new map, and lib.rs's loop over the map.
//! `bindings/cost` runs this under callgrind, which writes down its count and begins anew where a function returns whose
//! name begins with `count`. So a case gives four counts: of all that made it, of the step before the one that sends the
//! map, of that one, and of the loop.

use std::hint::black_box;
use vl53l0x_session::{exported, Call, Outcome, Session};

type Map = [u8; 6];

/// The map's register. A write of seven bytes that begins with it sends the new map.
const REF_0: u8 = 0xB0;

/// A session in a bring-up, the reply that it waits for, and what that leads to.
struct Step {
    session: [u8; Session::SIZE],
    record: [u8; 8],
    outcome: [u8; Outcome::SIZE],
}

impl Step {
    /// The step that sends the new map, and the one before it.
    fn of_the_map(map: Map, count: u8, aperture: bool) -> (Self, Self) {
        let mut session = *Session::new().as_bytes();
        let mut record = Call::NEW.record();
        let mut last = None;
        loop {
            let (before, outcome) = (session, [0; Outcome::SIZE]);
            let mut step = Step { session, record, outcome };
            step.make();
            (session, step.session) = (step.session, before);
            let register = step.outcome[3];
            if register == REF_0 && step.outcome[2] == 7 {
                return (step, last.expect("a bring-up begins otherwise"));
            }
            record = [2, 0, 0, 0, 0, 0, 0, 0];
            match register {
                REF_0 => record[2..].copy_from_slice(&map),
                0x92 => record[2] = count | u8::from(aperture) << 7,
                0x83 => record[2] = 1,
                0xC0 => record[2] = 0xEE,
                _ => {}
            }
            last = Some(step);
        }
    }

    fn make(&mut self) {
        assert_eq!(exported::step(&mut self.session, &self.record, &mut self.outcome), exported::TRANSFER);
    }
}

#[no_mangle]
#[inline(never)]
extern "C" fn count_from_here() {
    black_box(());
}

#[no_mangle]
#[inline(never)]
extern "C" fn count_step(step: &mut Step) {
    step.make();
}

#[no_mangle]
#[inline(never)]
extern "C" fn count_loop(map: &mut Map, count: u8, aperture: u8) {
    *map = vl53l0x::select_spads(*map, count, aperture);
}

fn main() {
    let maps = [
        ("FF FF FF FF FF FF", [0xFF; 6]),
        ("0F F0 03 00 80 01", [0x0F, 0xF0, 0x03, 0x00, 0x80, 0x01]),
        ("F7 DB FF 7F BE EF", [0xF7, 0xDB, 0xFF, 0x7F, 0xBE, 0xEF]),
    ];
    for (name, map) in maps {
        for count in [48, 24, 5, 0] {
            for aperture in [false, true] {
                let (mut step, mut before) = Step::of_the_map(map, count, aperture);
                let mut new = black_box(map);
                count_from_here();
                count_step(&mut before);
                count_step(&mut step);
                count_loop(&mut new, count, aperture.into());
                assert_eq!(step.outcome[4..10], new, "lib.rs selects the same");
                println!("{name}\t{count}\t{}", if aperture { 12 } else { 0 });
            }
        }
    }
}
