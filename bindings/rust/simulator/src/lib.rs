//! A simulated sensor on a simulated bus: registers, waits and failures.

mod numbers;

use numbers::Numbers;
use std::collections::VecDeque;
use std::num::NonZeroU8;

/// The failure code of a transfer to an address that no device has.
pub const NOBODY_ANSWERS: NonZeroU8 = NonZeroU8::new(4).unwrap();

/// How much of a transfer that fails is made.
#[derive(Clone, Copy, Debug, PartialEq, Eq)]
pub enum Failure {
    /// Nothing: the sensor sees none of it.
    NotMade,
    /// All of it, but the reply does not arrive.
    ReplyLost,
}

/// What the driver waits for.
#[derive(Clone, Copy)]
pub enum Wait {
    /// The detector information: 0x83 is not 0.
    Detector,
    /// The start of a measurement: bit 0 of 0x00 is clear.
    Start,
    /// A measurement: the low three bits of 0x13 are not 0.
    Status,
}

/// A sensor, and the bus that it is on.
#[derive(Clone, PartialEq, Eq)]
pub struct Simulator {
    numbers: Numbers,
    /// A page of registers for each value that the driver gives to register 0xFF.
    pages: [[u8; 256]; 8],
    page: u8,
    address: u8,
    stop: u8,
    distance: u16,
    /// How many reads of each wait are still in vain.
    idle: [u32; 3],
    /// The same for waits to come; a few once these are used up.
    planned: [VecDeque<u32>; 3],
    measuring: bool,
    ready: bool,
    continuous: bool,
    /// Failures to come: so many transfers succeed, then one fails so and with this code.
    failures: VecDeque<(u32, Failure, NonZeroU8)>,
    /// One transfer in so many fails.
    fails_one_in: Option<u32>,
    last_failure: Option<NonZeroU8>,
    transfers: u32,
}

/// The idle reads of a wait that nobody has planned are at most so many.
const LONGEST_WAIT: u32 = 20;

/// Registers whose content differs from sensor to sensor: page and register.
const FACTORY: [(usize, usize); 14] = [
    (0, 0x60),
    (0, 0x84),
    (0, 0x89),
    (0, 0xB0),
    (0, 0xB1),
    (0, 0xB2),
    (0, 0xB3),
    (0, 0xB4),
    (0, 0xB5),
    (0, 0xF8),
    (0, 0xF9),
    (1, 0x91),
    (6, 0x83),
    (7, 0x92),
];

/// Registers that all sensors start with: the identity and the budget.
const POWER_UP: [(usize, u8); 11] = [
    (0xC0, 0xEE),
    (0xC1, 0xAA),
    (0xC2, 0x10),
    (0x01, 0xFF),
    (0x46, 0x25),
    (0x50, 0x06),
    (0x51, 0x00),
    (0x52, 0x96),
    (0x70, 0x04),
    (0x71, 0x01),
    (0x72, 0xFE),
];

impl Simulator {
    /// A sensor as it is after power-up, at address 0x29. The seed decides what the factory left in it.
    pub fn new(seed: u64) -> Self {
        let mut numbers = Numbers::new(seed);
        let mut pages = [[0; 256]; 8];
        for (page, register) in FACTORY {
            pages[page][register] = numbers.byte();
        }
        for (register, byte) in POWER_UP {
            pages[0][register] = byte;
        }
        Simulator {
            numbers,
            pages,
            page: 0,
            address: 0x29,
            stop: pages[1][0x91],
            distance: 0,
            idle: [0; 3],
            planned: Default::default(),
            measuring: false,
            ready: false,
            continuous: false,
            failures: VecDeque::new(),
            fails_one_in: None,
            last_failure: None,
            transfers: 0,
        }
    }

    /// What the sensor measures from now on, in millimetres.
    pub fn set_distance(&mut self, millimetres: u16) {
        self.distance = millimetres;
    }

    /// The next wait of this kind, after those already planned, has so many idle reads.
    pub fn plan_wait(&mut self, wait: Wait, idle: u32) {
        self.planned[wait as usize].push_back(idle);
    }

    /// So many transfers succeed, from the last failure that is planned on, and the one after them is not made and
    /// fails with this code.
    pub fn fail_after(&mut self, good_transfers: u32, code: NonZeroU8) {
        self.break_after(good_transfers, Failure::NotMade, code);
    }

    /// As `fail_after`, with either kind of failure.
    pub fn break_after(&mut self, good_transfers: u32, failure: Failure, code: NonZeroU8) {
        self.failures.push_back((good_transfers, failure, code));
    }

    /// A while passes: a measurement that is under way ends.
    pub fn pass_time(&mut self) {
        if self.measuring {
            self.end_measurement();
        }
    }

    /// From now on one transfer in so many fails, with a random code; none with `None`.
    pub fn fail_one_in(&mut self, transfers: Option<u32>) {
        self.fails_one_in = transfers;
    }

    /// The sensor's address.
    pub fn address(&self) -> u8 {
        self.address
    }

    /// The byte that the sensor wants back when a measurement is started.
    pub fn stop(&self) -> u8 {
        self.stop
    }

    /// The code of the last transfer that failed, if one did.
    pub fn last_failure(&self) -> Option<NonZeroU8> {
        self.last_failure
    }

    /// The transfers that the bus has seen.
    pub fn transfers(&self) -> u32 {
        self.transfers
    }

    /// The page of registers that is selected.
    pub fn page(&self) -> u8 {
        self.page
    }

    /// The byte in a register.
    pub fn register(&self, page: u8, register: u8) -> u8 {
        self.pages[usize::from(page)][usize::from(register)]
    }

    /// The word in two registers of page 0, high byte first.
    pub fn word(&self, register: u8) -> u16 {
        let at = usize::from(register);
        u16::from_be_bytes([self.pages[0][at], self.pages[0][at + 1]])
    }

    /// One transfer on the bus, or its failure code.
    pub fn transfer(&mut self, address: u8, written: &[u8], read: &mut [u8]) -> Result<(), NonZeroU8> {
        self.transfers += 1;
        let failure = self.failure(address);
        if !matches!(failure, Some((Failure::NotMade, _))) {
            self.make(written, read);
        }
        let Some((_, code)) = failure else { return Ok(()) };
        self.last_failure = Some(code);
        Err(code)
    }

    /// The first byte names a register; each byte after it, written or read, goes to the next one.
    fn make(&mut self, written: &[u8], read: &mut [u8]) {
        let mut register = written[0];
        for byte in &written[1..] {
            self.write(register, *byte);
            register = register.wrapping_add(1);
        }
        for byte in read {
            *byte = self.read(register);
            register = register.wrapping_add(1);
        }
    }

    fn failure(&mut self, address: u8) -> Option<(Failure, NonZeroU8)> {
        match self.failures.front_mut() {
            Some((0, ..)) => return self.failures.pop_front().map(|(_, failure, code)| (failure, code)),
            Some((good_transfers, ..)) => *good_transfers -= 1,
            None => (),
        }
        match self.fails_one_in {
            Some(transfers) if self.numbers.one_in(transfers) => Some((Failure::NotMade, self.numbers.code())),
            _ if address != self.address => Some((Failure::NotMade, NOBODY_ANSWERS)),
            _ => None,
        }
    }

    fn write(&mut self, register: u8, byte: u8) {
        if register == 0xFF {
            self.page = byte & 7;
            return;
        }
        self.pages[usize::from(self.page)][usize::from(register)] = byte;
        match (self.page, register) {
            (0, 0x00) => self.start(byte),
            (0, 0x0B) if byte & 0x01 != 0 => self.clear_interrupt(),
            (0, 0x8A) => self.address = byte & 0x7F,
            (7, 0x83) if byte == 0x00 => self.begin_wait(Wait::Detector),
            _ => (),
        }
    }

    fn read(&mut self, register: u8) -> u8 {
        let byte = self.pages[usize::from(self.page)][usize::from(register)];
        match (self.page, register) {
            (0, 0x00) if self.is_idle(Wait::Start) => byte | 0x01,
            (0, 0x00) => byte & 0xFE,
            (0, 0x13) => self.interrupt_status(),
            (1, 0x91) => self.stop,
            (7, 0x83) if self.is_idle(Wait::Detector) => 0x00,
            (7, 0x83) => 0x10,
            _ => byte,
        }
    }

    fn begin_wait(&mut self, wait: Wait) {
        let planned = self.planned[wait as usize].pop_front();
        self.idle[wait as usize] = planned.unwrap_or_else(|| self.numbers.below(LONGEST_WAIT + 1));
    }

    /// Counts a read of a wait; true while it is in vain.
    fn is_idle(&mut self, wait: Wait) -> bool {
        let idle = &mut self.idle[wait as usize];
        let is_idle = *idle > 0;
        *idle = idle.saturating_sub(1);
        is_idle
    }

    /// A sensor measures only after it was given its stop byte back; it calibrates without.
    fn begin_measurement(&mut self) {
        let calibrates = self.pages[0][0x01] < 0x04;
        if calibrates || self.pages[1][0x91] == self.stop {
            self.measuring = true;
            self.begin_wait(Wait::Status);
        }
    }

    fn start(&mut self, mode: u8) {
        if mode & 0x01 != 0 && self.continuous {
            self.continuous = false;
            self.measuring = false;
        } else if mode & 0x01 != 0 {
            self.begin_wait(Wait::Start);
            self.begin_measurement();
        } else if mode & 0x06 != 0 {
            self.continuous = true;
            self.begin_measurement();
        }
    }

    fn clear_interrupt(&mut self) {
        self.ready = false;
        if self.continuous && !self.measuring {
            self.begin_measurement();
        }
    }

    fn end_measurement(&mut self) {
        self.measuring = false;
        self.ready = true;
        self.pages[0][0x1E..=0x1F].copy_from_slice(&self.distance.to_be_bytes());
    }

    fn interrupt_status(&mut self) -> u8 {
        if self.measuring && !self.is_idle(Wait::Status) {
            self.end_measurement();
        }
        if self.ready {
            0x44
        } else {
            0x40
        }
    }
}
