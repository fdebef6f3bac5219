//! Input that the exported functions refuse: what they say to it, and that all else stays as it was.

#[allow(dead_code)]
mod calls;

use vl53l0x_session::{exported, Outcome, Session};

/// The lengths of a session and of an outcome.
const SESSION: usize = Session::SIZE;
const OUTCOME: usize = Outcome::SIZE;

const FRESH: [u8; SESSION] = [0; SESSION];
const BRING_UP: [u8; 8] = [1, 1, 0, 0, 0, 0x29, 0, 0];
const WHO_AM_I: [u8; 8] = [1, 2, 0, 0, 0, 0, 0, 0];
const REPLY: [u8; 8] = [2, 0, 0xEE, 0, 0, 0, 0, 0];
const FAILURE: [u8; 8] = [2, 7, 0, 0, 0, 0, 0, 0];

/// The measurement timing budget of a sensor that is up, in microseconds.
const BUDGET: u32 = 33_000;

/// A session of a sensor that is up.
fn up() -> [u8; SESSION] {
    with(with(FRESH, 0, &[1, 0x29, 0x3C]), 3, &BUDGET.to_le_bytes())
}

/// A session that waits for the reply to `who_am_i`.
fn waiting() -> [u8; SESSION] {
    let mut session = up();
    assert_eq!(step(&mut session, &WHO_AM_I).0, exported::TRANSFER);
    session
}

/// A session that waits in a call.
fn waiting_in(code: u8, a: u32, b: u16, at: u8, idle: u32, transfers: u32) -> [u8; SESSION] {
    let session = if code == 1 { FRESH } else { up() };
    let session = with(session, 7, &[code]);
    let session = with(with(session, 8, &a.to_le_bytes()), 12, &b.to_le_bytes());
    with(with(with(session, 14, &[at]), 15, &idle.to_le_bytes()), 19, &transfers.to_le_bytes())
}

/// The bytes with others from an index on.
fn with<const N: usize>(mut bytes: [u8; N], from: usize, others: &[u8]) -> [u8; N] {
    bytes[from..][..others.len()].copy_from_slice(others);
    bytes
}

/// The outcome of a refusal.
fn refusal(number: u8) -> [u8; OUTCOME] {
    with([0; OUTCOME], 0, &[number])
}

/// Lends a copy that stands between other bytes to a function, and tells what it returned and left. The others have to
/// stay.
fn lend(bytes: &[u8], function: impl FnOnce(&mut [u8]) -> u8) -> (u8, Vec<u8>) {
    const AROUND: [u8; 64] = [0xA5; 64];
    let mut memory = [&AROUND, bytes, &AROUND].concat();
    let returned = function(&mut memory[64..][..bytes.len()]);
    let (before, rest) = memory.split_at(64);
    let (inside, after) = rest.split_at(bytes.len());
    assert!(before == AROUND && after == AROUND, "bytes around what was lent were written");
    (returned, inside.to_vec())
}

/// One record: what was returned, the session and the outcome after it. The record has to stay.
fn raw_step(session: &[u8], record: &[u8], outcome: &[u8]) -> (u8, Vec<u8>, Vec<u8>) {
    let (mut session_after, mut outcome_after) = (Vec::new(), Vec::new());
    let (returned, record_after) = lend(record, |record| {
        let (returned, session) = lend(session, |session| {
            let (returned, outcome) = lend(outcome, |outcome| exported::step(session, record, outcome));
            outcome_after = outcome;
            returned
        });
        session_after = session;
        returned
    });
    assert_eq!(record_after, record);
    (returned, session_after, outcome_after)
}

/// One record, with an outcome of the right length.
fn step<const N: usize>(session: &mut [u8; N], record: &[u8]) -> (u8, [u8; OUTCOME]) {
    let (returned, after, outcome) = raw_step(session, record, &[0xA5; OUTCOME]);
    session.copy_from_slice(&after);
    (returned, outcome.try_into().expect("an outcome"))
}

/// The record is refused so, and the session stays.
fn assert_refused(session: &[u8], record: &[u8], number: u8) {
    let (returned, after, outcome) = raw_step(session, record, &[0xA5; OUTCOME]);
    assert_eq!((returned, &outcome[..]), (number, &refusal(number)[..]), "{session:02X?} {record:02X?}");
    assert_eq!(after, session, "{record:02X?}");
}

/// What is out is this, and the session stays.
fn assert_outstanding(session: &[u8], expected: [u8; OUTCOME]) {
    let (returned, after) = lend(session, |session| {
        let (returned, outcome) = lend(&[0xA5; OUTCOME], |outcome| exported::outstanding(session, outcome));
        assert_eq!(outcome, expected, "{session:02X?}");
        returned
    });
    assert_eq!((returned, &after[..]), (expected[0], session));
}

#[test]
fn a_fresh_session_has_52_bytes() {
    assert_eq!(lend(&[0xA5; SESSION], exported::fresh), (0, FRESH.to_vec()));
    for length in [0, 1, 51, 53, 104] {
        let bytes = vec![0x5A; length];
        assert_eq!(lend(&bytes, exported::fresh), (15, bytes));
    }
}

/// The session that the tests lay out is the one that the library leaves once it has set that budget.
#[test]
fn a_budget_stands_low_byte_first() {
    let mut session = with(up(), 3, &[0; 4]);
    let mut record = with([1, 9, 0, 0, 0, 0, 0, 0], 2, &BUDGET.to_be_bytes());
    while step(&mut session, &record).0 == exported::TRANSFER {
        record = [2, 0, 0, 0, 0, 0, 0, 0];
    }
    assert_eq!(session, up());
}

#[test]
fn an_outcome_has_25_bytes() {
    assert_eq!((OUTCOME, exported::TRANSFER, exported::NOT_PUT), (25, 255, 254));
    for length in [0, 1, 24, 26, 50] {
        let outcome = vec![0x5A; length];
        for session in [FRESH, up(), waiting()] {
            for record in [&BRING_UP[..], &WHO_AM_I, &REPLY, &FAILURE, &[0; 8], &[], &[2; 9]] {
                assert_eq!(raw_step(&session, record, &outcome), (254, session.to_vec(), outcome.clone()));
            }
            // Also where the session is none.
            for session in [&session[..], &session[1..]] {
                assert_eq!(raw_step(session, &REPLY, &outcome), (254, session.to_vec(), outcome.clone()));
                assert_eq!(lend(&outcome, |outcome| exported::outstanding(session, outcome)), (254, outcome.clone()));
            }
        }
    }
}

#[test]
fn a_record_has_8_bytes() {
    for session in [FRESH, up(), waiting()] {
        for record in [BRING_UP, WHO_AM_I, REPLY, FAILURE] {
            for length in [0, 1, 7, 9, 16] {
                let record: Vec<u8> = record.into_iter().chain([0; 8]).take(length).collect();
                assert_refused(&session, &record, 14);
                // Also where the session is none.
                assert_refused(&session[1..], &record, 14);
                assert_refused(&with(session, 0, &[2]), &record, 14);
            }
        }
    }
}

#[test]
fn a_session_has_52_bytes() {
    for session in [FRESH, up(), waiting()] {
        for length in [0, 1, 7, 51, 53, 104] {
            let session: Vec<u8> = session.into_iter().chain([0; 52]).take(length).collect();
            for record in [BRING_UP, WHO_AM_I, REPLY, FAILURE] {
                assert_refused(&session, &record, 15);
            }
            assert_outstanding(&session, refusal(15));
        }
    }
}

#[test]
fn the_first_byte_of_a_session_is_0_or_1() {
    for session in [FRESH, up(), waiting()] {
        for first in 2..=255 {
            let session = with(session, 0, &[first]);
            for record in [BRING_UP, WHO_AM_I, REPLY, FAILURE, [0; 8]] {
                assert_refused(&session, &record, 15);
            }
            assert_outstanding(&session, refusal(15));
        }
    }
}

/// For each code: greatest A, greatest B, number of steps, most transfers.
const CALLS: &[(u8, u32, u16, u8, u32)] = &[
    (1, 255, 0, 156, 85_688),
    (2, 0, 0, 1, 1),
    (3, 255, 0, 1, 1),
    (4, u32::MAX, 0, 10, 10),
    (5, 0, 0, 6, 6),
    (6, 0, 0, 4, 4),
    (7, 0, 0, 4, 10_003),
    (8, 0, 0, 13, 20_011),
    (9, u32::MAX, 0, 7, 7),
    (10, 65_535, 65_535, 2, 2),
    (11, 0, 0, 2, 2),
    (12, 3, 1, 5, 5),
    (13, 0, 0, 2, 2),
    (14, u32::MAX, 0, 1, 1),
    (15, 0, 0, 6, 6),
    (16, 0, 0, 1, 1),
];

/// What is no code of a call.
fn no_codes() -> impl Iterator<Item = u8> {
    (0..=255).filter(|code| !calls::codes().contains(code))
}

/// The steps that are waits: code, step, limit.
const WAITS: &[(u8, u8, u32)] =
    &[(1, 26, 65_535), (1, 145, 10_000), (1, 151, 10_000), (7, 0, 10_000), (8, 8, 10_000), (8, 9, 10_000)];

/// Whatever it meets, a session that waits in no call refuses it.
fn assert_ill_formed(session: [u8; SESSION]) {
    for record in [BRING_UP, WHO_AM_I, REPLY, FAILURE, [0; 8], [0xFF; 8]] {
        assert_refused(&session, &record, 15);
    }
    assert_outstanding(&session, refusal(15));
}

/// A session that waits has a transfer out and takes its failure.
fn assert_waits(session: [u8; SESSION]) {
    let (returned, outcome) = lend(&[0xA5; OUTCOME], |outcome| exported::outstanding(&session, outcome));
    assert_eq!((returned, outcome[0]), (exported::TRANSFER, exported::TRANSFER), "{session:02X?}");
    assert_refused(&session, &BRING_UP, 10);
    let mut after = session;
    assert!([3, exported::TRANSFER].contains(&step(&mut after, &FAILURE).0), "{session:02X?}");
    assert_ne!(after, session);
}

/// Each has its row above, and no other code has one.
#[test]
fn the_calls_are_those_of_the_list() {
    assert_eq!(CALLS.iter().map(|call| call.0).collect::<Vec<_>>(), calls::codes());
}

#[test]
fn a_call_waits_within_its_bounds() {
    for &(code, a, b, steps, ceiling) in CALLS {
        assert_waits(waiting_in(code, a, b, 0, 0, 1));
        assert_waits(waiting_in(code, 0, 0, steps - 1, 0, ceiling));
        assert_ill_formed(waiting_in(code, 0, 0, steps, 0, 1));
        assert_ill_formed(waiting_in(code, 0, 0, 255, 0, 1));
        assert_ill_formed(waiting_in(code, 0, 0, 0, 0, 0));
        assert_ill_formed(waiting_in(code, 0, 0, 0, 0, ceiling + 1));
        assert_ill_formed(waiting_in(code, 0, 0, 0, 0, u32::MAX));
        if let Some(a) = a.checked_add(1) {
            assert_ill_formed(waiting_in(code, a, 0, 0, 0, 1));
        }
        if let Some(b) = b.checked_add(1) {
            assert_ill_formed(waiting_in(code, 0, b, 0, 0, 1));
        }
        let session = waiting_in(code, 0, 0, 0, 0, 1);
        assert_ill_formed(with(session, 0, &[1 - session[0]]));
    }
    for code in no_codes().filter(|code| *code != 0) {
        assert_ill_formed(waiting_in(code, 0, 0, 0, 0, 1));
    }
}

#[test]
fn idle_reads_are_those_of_a_wait() {
    for &(code, _, _, steps, _) in CALLS {
        for at in 0..steps {
            let limit = WAITS.iter().find(|wait| (wait.0, wait.1) == (code, at)).map_or(1, |wait| wait.2);
            assert_waits(waiting_in(code, 0, 0, at, limit - 1, 1));
            assert_ill_formed(waiting_in(code, 0, 0, at, limit, 1));
            assert_ill_formed(waiting_in(code, 0, 0, at, u32::MAX, 1));
        }
    }
}

#[test]
fn a_record_is_a_call_or_a_reply() {
    for session in [FRESH, up(), waiting()] {
        for kind in (0..=255).filter(|kind| ![1, 2].contains(kind)) {
            for record in [BRING_UP, WHO_AM_I, REPLY, FAILURE, [0; 8]] {
                assert_refused(&session, &with(record, 0, &[kind]), 13);
            }
        }
        for code in no_codes() {
            assert_refused(&session, &[1, code, 0, 0, 0, 0, 0, 0], 13);
        }
    }
}

#[test]
fn arguments_are_in_range() {
    for session in [FRESH, up(), waiting()] {
        for &(code, a, b, ..) in CALLS {
            if let Some(a) = a.checked_add(1) {
                for a in [a, u32::MAX] {
                    assert_refused(&session, &with([1, code, 0, 0, 0, 0, 0, 0], 2, &a.to_be_bytes()), 13);
                }
            }
            if let Some(b) = b.checked_add(1) {
                for b in [b, u16::MAX] {
                    assert_refused(&session, &with([1, code, 0, 0, 0, 0, 0, 0], 6, &b.to_be_bytes()), 13);
                }
            }
        }
    }
}

#[test]
fn calls_and_replies_come_in_turn() {
    for &(code, a, b, ..) in CALLS {
        let [a0, a1, a2, a3] = a.to_be_bytes();
        let [b0, b1] = b.to_be_bytes();
        for record in [[1, code, 0, 0, 0, 0, 0, 0], [1, code, a0, a1, a2, a3, b0, b1]] {
            if code != 1 {
                assert_refused(&FRESH, &record, 9);
            }
            assert_refused(&waiting(), &record, 10);
        }
    }
    for session in [FRESH, up()] {
        for reply in [REPLY, FAILURE, [2, 0, 0, 0, 0, 0, 0, 0], [2; 8], [2, 0xFF, 0, 0, 0, 0, 0, 1]] {
            assert_refused(&session, &reply, 11);
        }
        assert_outstanding(&session, refusal(11));
    }
    assert_outstanding(&waiting(), with([0; OUTCOME], 0, &[255, 0x29, 1, 0xC0, 0, 0, 0, 0, 0, 0, 1]));
}

#[test]
fn a_reply_has_the_bytes_that_were_read() {
    // Of set_address, who_am_i, get_interrupt_thresholds_mm, get_signal_rate_limit, the detector map of a bring-up.
    for (reads, session) in [
        (0, waiting_in(3, 0x30, 0, 0, 0, 1)),
        (1, waiting_in(2, 0, 0, 0, 0, 1)),
        (2, waiting_in(11, 0, 0, 0, 0, 1)),
        (2, waiting_in(16, 0, 0, 0, 0, 1)),
        (6, waiting_in(1, 0x29, 0, 37, 0, 38)),
    ] {
        for index in 0..6 {
            for byte in [0x01, 0x80, 0xFF] {
                let good = with([2, 0, 0, 0, 0, 0, 0, 0], 2 + index, &[byte]);
                if index < reads {
                    assert_ne!(step(&mut session.clone(), &good).0, 12, "{session:02X?} {good:02X?}");
                } else {
                    assert_refused(&session, &good, 12);
                }
                assert_refused(&session, &with(good, 1, &[1 + index as u8]), 12);
            }
        }
    }
}
