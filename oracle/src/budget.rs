//! The timing budget read from six replies, and the word that a new budget writes.

use crate::budget_cases::{cases, Case};
use crate::bus::{Bus, Transfer, ADDRESS, FRESH};
use crate::bytes::hex;
use crate::list::{Kind, List};
use crate::place::{run, text, Panic};
use std::ops::Range;
use vl53l0x::inner::{driver, fields, get_measurement_timing_budget};

/// The eight bytes of the six replies, in the order of the reads.
pub type Replies = [u8; 8];

/// The registers read, in order, and the bytes of each reply.
pub const READS: [(u8, Range<usize>); 6] =
    [(0x01, 0..1), (0x51, 1..3), (0x71, 3..5), (0x50, 5..6), (0x46, 6..7), (0x70, 7..8)];

/// Below this a budget is refused before any transfer.
pub const LEAST: u32 = 20_000;

fn sensor(replies: Replies) -> Bus<impl FnMut(&[u8], &mut [u8]) -> Result<(), u8>> {
    Bus::new(move |written: &[u8], read: &mut [u8]| {
        if let [register] = *written {
            let (_, bytes) = READS.into_iter().find(|(at, _)| *at == register).expect("one of the six registers");
            read.copy_from_slice(&replies[bytes]);
        }
        Ok(())
    })
}

fn assert_reads(transfers: &[Transfer]) {
    for (transfer, (register, bytes)) in transfers.iter().zip(READS) {
        assert_eq!(*transfer, Transfer { address: ADDRESS, written: vec![register], read: bytes.len() });
    }
}

/// What `get_measurement_timing_budget` does, and the replies that it got.
pub fn get(replies: Replies) -> (Result<u32, Panic>, usize) {
    let mut bus = sensor(replies);
    let answer = run(|| get_measurement_timing_budget(&mut driver(&mut bus, FRESH)).expect("no failure"));
    assert_reads(&bus.transfers);
    assert!(bus.transfers.len() == 6 || answer.is_err());
    (answer, bus.transfers.len())
}

#[derive(Clone, Copy, Debug, PartialEq, Eq)]
pub enum Set {
    Word(u16),
    /// Below the least budget.
    TooShort,
    NoTime,
    Panics(Panic),
}

impl Set {
    pub fn is_place(self, place: u8) -> bool {
        matches!(self, Set::Panics(panic) if panic.place == place)
    }
}

/// What `set_measurement_timing_budget` does.
pub fn set(replies: Replies, budget: u32) -> Set {
    let mut bus = sensor(replies);
    let answer = run(|| {
        let mut driver = driver(&mut bus, FRESH);
        let answer = driver.set_measurement_timing_budget(budget).expect("no failure");
        (answer, fields(&driver).measurement_timing_budget_microseconds)
    });
    let (reads, writes) = bus.transfers.split_at(bus.transfers.len().min(READS.len()));
    assert_reads(reads);
    let set = match (answer, reads.len(), writes) {
        (Ok((true, stored)), 6, [write]) if stored == budget => Set::Word(write.word_at(0x71)),
        (Ok((false, 0)), 0, []) => Set::TooShort,
        (Ok((false, 0)), 6, []) => Set::NoTime,
        (Err(panic), _, []) => Set::Panics(panic),
        (answer, _, writes) => panic!("{replies:02X?} {budget}: {answer:?} {writes:?}"),
    };
    assert_eq!(set == Set::TooShort, budget < LEAST);
    set
}

/// Both are `N` in the list's lines.
const TOO_SHORT: &str = "N before any transfer";
const NO_TIME: &str = "N after the reads";

pub fn list() -> List {
    let mut list = List::new("budget");
    for case in cases() {
        record(&mut list, case);
    }
    list.must_panic_at(&[983, 663, 1029, 668, 1012, 1023, 799]);
    list.must_reach(TOO_SHORT);
    list.must_reach(NO_TIME);
    list.must_have("budget E8 0096 01FE 06 25 04 33000 31326 658 -");
    list
}

fn record(list: &mut List, Case { replies, budget }: Case) {
    let (number, replied) = get(replies);
    let answer = set(replies, budget);
    let (set_text, outcome) = match answer {
        Set::Word(word) => (word.to_string(), "word".to_string()),
        Set::TooShort => ("N".to_string(), TOO_SHORT.to_string()),
        Set::NoTime => ("N".to_string(), NO_TIME.to_string()),
        Set::Panics(panic) => (panic.to_string(), panic.outcome()),
    };
    // The replies alone decide places 2 to 6, so both calls meet the same one; but call 9 reads none for a budget that is
    // too short.
    let by_replies = match answer {
        Set::Panics(panic) if panic.place <= 6 => Some(panic),
        _ => None,
    };
    assert!(answer == Set::TooShort || number.err() == by_replies);
    let first = number.err().map_or("-".to_string(), |panic| format!("{replied}:{panic}"));
    let shown: Vec<String> = READS.map(|(_, bytes)| hex(&replies[bytes])).to_vec();
    let line = format!("budget {} {budget} {} {set_text} {first}", shown.join(" "), text(number));
    let case = [&replies[..], &budget.to_be_bytes()].concat();
    list.record(Kind::Budget, &case, &line, &[outcome, format!("first place {first}")]);
}
