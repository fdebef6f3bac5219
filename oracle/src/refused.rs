//! Records that are refused: 9 to 13 of SCOPE 9.1.

use crate::bytes::with;
use crate::call::{Call, Record, CALLS, FUNCTIONALITIES, LAST_CODE, POLARITIES};
use crate::numbers::Numbers;

/// Where a session stands between two records.
#[derive(Clone, Copy)]
pub enum State {
    NotUp,
    Up,
    /// A call waits for the reply to a transfer that reads so many bytes.
    Waiting(usize),
}

/// A record, and the number of the answer that refuses it.
pub type Refused = (Record, u8);

/// Calls that are answered 5, 6 and 1 without a transfer, unless they are refused.
const AT_ONCE: [Call; 4] = [
    Call::SetAddress(0x07),
    Call::SetThresholds(301, 300),
    Call::SetBudget(19_999),
    Call::SetSignalRateLimit(0x7FC0_0000),
];

/// Which refused records come before each of the others.
pub enum Refusing {
    Nothing,
    Every,
    /// A few, other ones each time; this counts the times.
    InTurn(usize),
    /// One, once in so many times; each answer as often as any other.
    OneIn(u32, Numbers),
}

impl Refusing {
    pub fn next(&mut self, state: State) -> Vec<Refused> {
        match self {
            Refusing::Nothing => Vec::new(),
            Refusing::Every => refused(state),
            Refusing::InTurn(turn) => {
                *turn += 1;
                refused(state).into_iter().skip(*turn % 40).step_by(40).collect()
            }
            Refusing::OneIn(times, numbers) => {
                if !numbers.one_in(*times) {
                    return Vec::new();
                }
                let mut all = refused(state);
                let mut answers: Vec<u8> = all.iter().map(|(_, number)| *number).collect();
                answers.dedup();
                let answer = numbers.one_of(&answers);
                all.retain(|(_, number)| *number == answer);
                vec![numbers.one_of(&all)]
            }
        }
    }
}

/// Every kind of record that is refused in this state.
fn refused(state: State) -> Vec<Refused> {
    let by = |number, records: Vec<Record>| records.into_iter().map(move |record| (record, number));
    let calls = CALLS.into_iter().chain(AT_ONCE).map(Call::record);
    let malformed = by(13, malformed());
    match state {
        State::NotUp => malformed.chain(by(9, calls.skip(1).collect())).chain(by(11, replies())).collect(),
        State::Up => malformed.chain(by(11, replies())).collect(),
        State::Waiting(read) => malformed.chain(by(10, calls.collect())).chain(by(12, stray(read))).collect(),
    }
}

/// The bytes of a record that the arguments of a call may fill.
fn arguments(call: Call) -> &'static [usize] {
    match call {
        Call::WithAddress(_) | Call::SetAddress(_) => &[5],
        Call::StartContinuous(_) | Call::SetBudget(_) | Call::SetSignalRateLimit(_) => &[2, 3, 4, 5],
        Call::SetThresholds(..) => &[4, 5, 6, 7],
        Call::SetGpioConfig(..) => &[5, 7],
        Call::WhoAmI | Call::StopContinuous | Call::ReadRange | Call::ReadRangeContinuous => &[],
        Call::ReadRangeSingle | Call::GetThresholds | Call::ClearInterruptStatus | Call::GetBudget => &[],
        Call::GetSignalRateLimit => &[],
    }
}

/// 13: other kinds, other codes, arguments out of range, unused bytes that are not zero.
fn malformed() -> Vec<Record> {
    let mut all = vec![[0; 8], [0xFF; 8]];
    all.extend([0, 3, 0x10, 0x81, 0xFF].map(|kind| with(CALLS[0].record(), 0, kind)));
    all.extend([0, LAST_CODE + 1, LAST_CODE + 2, 0x81, 0xFF].map(|code| [1, code, 0, 0, 0, 0, 0, 0]));
    for call in CALLS.into_iter().chain(AT_ONCE) {
        let record = call.record();
        let unused = (2..8).filter(|index| !arguments(call).contains(index));
        all.extend(unused.map(|index| with(record, index, 1 << index)));
    }
    let pin = Call::SetGpioConfig(FUNCTIONALITIES[3], POLARITIES[1]).record();
    all.extend([with(pin, 5, 4), with(pin, 5, 0xFF), with(pin, 7, 2), with(pin, 7, 0xFF)]);
    all
}

/// 11 while no call waits, also those that would be stray.
fn replies() -> Vec<Record> {
    let mut all = vec![[2, 0, 0, 0, 0, 0, 0, 0], [2, 0, 0xEE, 0, 0, 0, 0, 0], [2, 0xFF, 0, 0, 0, 0, 0, 0]];
    all.extend(stray(1));
    all
}

/// 12: a byte past the read length, or any byte with a failure.
fn stray(read: usize) -> Vec<Record> {
    let reply = |failure, index: usize| with([2, failure, 0, 0, 0, 0, 0, 0], 2 + index, 1 << index);
    let mut all: Vec<Record> = (read..6).map(|index| reply(0, index)).collect();
    all.extend((0..6).map(|index| reply(0x80 | index as u8, index)));
    all.push([2, 1, 0xFF, 0xFF, 0xFF, 0xFF, 0xFF, 0xFF]);
    all
}
