//! How long does a call take that ends in Timeout?

use crate::rig::SINGLE;
use crate::Table;
use vl53l0x_session::{drive, Answer, Call, Session};
use vl53l0x_simulator::{Simulator, Wait};

/// The bits of a transfer: a start, the address and each byte with its acknowledgement, a start again and the address
/// before what is read, a stop.
fn bits(written: usize, read: usize) -> u64 {
    let bytes = |count: usize| 9 * count as u64;
    let reading = if read == 0 { 0 } else { 1 + 9 + bytes(read) };
    1 + 9 + bytes(written) + reading + 1
}

/// A call with these idle reads ends in Timeout: its transfers and its bits.
fn timeout(sensor: &mut Simulator, session: &mut Session, call: Call, waits: &[(Wait, u32)]) -> (u32, u64) {
    waits.iter().for_each(|(wait, idle)| sensor.plan_wait(*wait, *idle));
    let mut sum = 0;
    let mut bus = |address: u8, write: &[u8], read: &mut [u8]| {
        sum += bits(write.len(), read.len());
        sensor.transfer(address, write, read)
    };
    let (answer, transfers) = drive(session, &mut bus, call);
    assert_eq!(answer, Answer::Timeout);
    (transfers, sum)
}

/// Waits that never end, and all waits of a call as long as they can be.
pub fn timeouts(table: &mut Table) {
    let up = || {
        let (mut sensor, mut session) = (Simulator::new(1), Session::new());
        let mut bus = |address: u8, write: &[u8], read: &mut [u8]| sensor.transfer(address, write, read);
        assert_eq!(drive(&mut session, &mut bus, Call::NEW).0, Answer::Done(0));
        (sensor, session)
    };
    let not_up = || (Simulator::new(1), Session::new());
    table.title("calls that end in Timeout, at 400 kHz");
    for (what, (mut sensor, mut session), call, waits) in [
        (
            "a single reading, a measurement that never ends",
            up(),
            SINGLE,
            &[(Wait::Start, 0), (Wait::Status, 10_000)][..],
        ),
        (
            "a single reading, both waits as long as can be",
            up(),
            SINGLE,
            &[(Wait::Start, 9_999), (Wait::Status, 10_000)],
        ),
        ("a bring-up, no detector information", not_up(), Call::NEW, &[(Wait::Detector, 65_535)]),
        (
            "a bring-up, all waits as long as can be",
            not_up(),
            Call::NEW,
            &[(Wait::Detector, 65_534), (Wait::Status, 9_999), (Wait::Status, 10_000)],
        ),
    ] {
        let (transfers, bits) = timeout(&mut sensor, &mut session, call, waits);
        table.line(format!("{transfers} transfers, {:.2} s: {what}", bits as f64 / 400_000.0));
    }
}
