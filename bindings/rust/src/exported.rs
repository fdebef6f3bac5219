//! The three functions that the static library exports, over slices of any length. Lengths are checked there; all
//! `unsafe` of this crate is here.

#![allow(unsafe_code)]

/// What is returned, and byte 0 of the outcome, where that is a transfer.
pub const TRANSFER: u8 = 255;

/// What is returned where the outcome has another length than [`Outcome::SIZE`](crate::Outcome::SIZE). A bus may fail
/// with the codes 254 and 255, which is something else: a failure code never stands in byte 0 of an outcome.
pub const NOT_PUT: u8 = 254;

extern "C" {
    fn vl53l0x_fresh(session: *mut u8, session_len: usize) -> u8;

    fn vl53l0x_step(
        session: *mut u8,
        session_len: usize,
        record: *const u8,
        record_len: usize,
        outcome: *mut u8,
        outcome_len: usize,
    ) -> u8;

    fn vl53l0x_outstanding(session: *const u8, session_len: usize, outcome: *mut u8, outcome_len: usize) -> u8;
}

/// Makes a fresh session and returns 0. If the length is not 52: changes nothing and returns 15.
pub fn fresh(session: &mut [u8]) -> u8 {
    // SAFETY: the pointer and the length are those of one slice, which is lent for this call alone, and the function
    // keeps no pointer.
    unsafe { vl53l0x_fresh(session.as_mut_ptr(), session.len()) }
}

/// Hands a record to a session, writes both the session that it leads to and the outcome, and returns byte 0 of the
/// outcome. With a record that is not 8 bytes long the outcome is answer 14, with bytes that are no session answer 15,
/// and the session is as it was. If the outcome is not 25 bytes long: changes nothing and returns [`NOT_PUT`].
#[inline]
pub fn step(session: &mut [u8], record: &[u8], outcome: &mut [u8]) -> u8 {
    // SAFETY: each pointer goes with the length of its own slice; the two slices that are written are borrowed
    // mutably, so nothing overlaps them; all are lent for this call alone, and the function keeps no pointer.
    unsafe {
        vl53l0x_step(
            session.as_mut_ptr(),
            session.len(),
            record.as_ptr(),
            record.len(),
            outcome.as_mut_ptr(),
            outcome.len(),
        )
    }
}

/// Writes the transfer that a waiting session has out and returns [`TRANSFER`]; the outcome is answer 11 where no call
/// waits, and 15 where the session is ill-formed or none. If the outcome is not 25 bytes long: changes nothing and
/// returns [`NOT_PUT`].
pub fn outstanding(session: &[u8], outcome: &mut [u8]) -> u8 {
    // SAFETY: as in `step`; the session is only read.
    unsafe { vl53l0x_outstanding(session.as_ptr(), session.len(), outcome.as_mut_ptr(), outcome.len()) }
}
