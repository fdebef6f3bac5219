//! A sensor with its session, calls that break on it, and what a caller does then.

use std::num::NonZeroU8;
use vl53l0x_session::{drive, go_on, select_page_0, Answer, Call, Outcome, Session, DEFAULT_ADDRESS};
use vl53l0x_simulator::{Failure, Simulator, Wait, NOBODY_ANSWERS};

pub const SINGLE: Call = Call::ReadRangeSingleMillimetersBlocking;
pub const CONTINUOUS: Call = Call::ReadRangeContinuousMillimetersBlocking;

/// The code of the failures.
pub const CODE: NonZeroU8 = NonZeroU8::new(7).unwrap();

/// Both kinds of failure, with their names.
pub const FAILURES: [(Failure, &str); 2] = [(Failure::NotMade, "not made"), (Failure::ReplyLost, "reply lost")];

/// What the sensor measures, in millimetres, before the failure, while the caller does something about it, and then.
pub const BEFORE: u16 = 900;
pub const MEANWHILE: u16 = 500;
pub const AFTER: u16 = 100;

#[derive(Clone)]
pub struct Rig {
    pub sensor: Simulator,
    pub session: Session,
}

impl Rig {
    /// A sensor that nobody has brought up.
    pub fn new(seed: u64) -> Self {
        Rig { sensor: Simulator::new(seed), session: Session::new() }
    }

    /// A sensor that is up. Its measurements are never over when they are first looked at; how long they take differs
    /// from seed to seed.
    pub fn up(seed: u64) -> Self {
        Rig::up_with(seed, None)
    }

    /// The same, where the first measurement is looked at in vain so often.
    pub fn up_with(seed: u64, first: Option<u32>) -> Self {
        let mut rig = Rig::new(seed);
        assert_eq!(rig.call(Call::NEW), Answer::Done(0));
        rig.sensor.set_distance(BEFORE);
        first.into_iter().for_each(|idle| rig.sensor.plan_wait(Wait::Status, idle));
        for _ in 0..16 {
            rig.sensor.plan_wait(Wait::Start, (seed % 3) as u32);
            rig.sensor.plan_wait(Wait::Status, 1 + (seed % 5) as u32);
        }
        rig
    }

    /// The same, while it measures continuously.
    pub fn running(seed: u64) -> Self {
        let mut rig = Rig::up(seed);
        assert_eq!(rig.call(Call::StartContinuous(0)), Answer::Done(0));
        assert_eq!(rig.call(CONTINUOUS), Answer::Done(BEFORE.into()));
        rig
    }

    pub fn call(&mut self, call: Call) -> Answer {
        self.drive(call).0
    }

    /// The answer, the transfers, and the bytes that the last of them wrote.
    fn drive(&mut self, call: Call) -> (Answer, u32, Vec<u8>) {
        let mut last = Vec::new();
        let mut bus = |address: u8, write: &[u8], read: &mut [u8]| {
            last = write.to_vec();
            self.sensor.transfer(address, write, read)
        };
        let (answer, transfers) = drive(&mut self.session, &mut bus, call);
        (answer, transfers, last)
    }

    /// The call broken at each of its transfers, in each way: a rig for each, with what was broken.
    pub fn broken(&self, call: Call) -> impl Iterator<Item = (Rig, String)> + '_ {
        let (answer, places, _) = self.clone().drive(call);
        assert!(matches!(answer, Answer::Done(_)), "{call:?}: {answer}");
        (0..places).flat_map(move |place| {
            FAILURES.map(|(failure, name)| {
                let mut rig = self.clone();
                rig.sensor.break_after(place, failure, CODE);
                let (answer, _, written) = rig.drive(call);
                assert_eq!(answer, Answer::BusError(CODE), "{call:?} at place {place}");
                (rig, format!("{written:02X?} {name}"))
            })
        })
    }

    /// The call left at each of its transfers, before that is made, and when it is made and its reply not handed in.
    pub fn left(&self, call: Call) -> Vec<Rig> {
        let (mut rig, mut rigs) = (self.clone(), Vec::new());
        let mut outcome = rig.session.begin(call);
        while let Outcome::Transfer(transfer) = outcome {
            let mut data = [0; 6];
            let read = &mut data[..transfer.reads()];
            rigs.push(rig.clone());
            rig.sensor.transfer(transfer.address(), transfer.written(), read).expect("no failure");
            rigs.push(rig.clone());
            outcome = rig.session.reply(Ok(read));
        }
        assert!(matches!(outcome, Outcome::Answer { answer: Answer::Done(_), .. }), "{call:?}: {outcome:?}");
        rigs
    }

    /// The call that was left is taken up again.
    pub fn go_on(&mut self) -> Answer {
        let mut bus = |address: u8, write: &[u8], read: &mut [u8]| self.sensor.transfer(address, write, read);
        go_on(&mut self.session, &mut bus).0
    }

    /// The roll moves.
    pub fn moved(mut self, millimetres: u16) -> Self {
        self.sensor.set_distance(millimetres);
        self
    }

    /// A while passes, in which a measurement ends.
    pub fn paused(mut self) -> Self {
        self.sensor.pass_time();
        self
    }

    /// The call is made, whatever it answers.
    pub fn after(mut self, call: Call) -> Self {
        let _ = self.call(call);
        self
    }

    /// This rig at once, and after a while.
    pub fn at_once_and_later(self) -> [Rig; 2] {
        [self.clone(), self.paused()]
    }

    /// The roll moves, and a single reading is made: whether that is right.
    pub fn reads_right(self) -> bool {
        self.moved(AFTER).gives(SINGLE, AFTER)
    }

    /// Page 0 is selected by hand, or nobody answers: after call 3 the sensor may be at another address.
    pub fn selected(mut self) -> Self {
        let mut bus = |address: u8, write: &[u8], read: &mut [u8]| self.sensor.transfer(address, write, read);
        assert!(matches!(select_page_0(&mut bus, DEFAULT_ADDRESS), Ok(()) | Err(NOBODY_ANSWERS)));
        self
    }

    /// One single reading is thrown away; in a pause after it the roll moves; the interrupt is cleared.
    pub fn thrown_away_and_cleared(self) -> Self {
        self.after(SINGLE).moved(MEANWHILE).paused().after(Call::ClearInterruptStatus)
    }

    /// The recipe of bindings/README.md for a call that broke while nothing is measured continuously.
    pub fn recovered(self) -> Self {
        self.selected().thrown_away_and_cleared()
    }

    /// Whether a call is Done with a value.
    pub fn gives(mut self, call: Call, value: u16) -> bool {
        self.call(call) == Answer::Done(value.into())
    }

    /// Every register of the sensor.
    pub fn registers(&self) -> Vec<u8> {
        (0..8).flat_map(|page| (0..=255).map(move |at| self.sensor.register(page, at))).collect()
    }
}
