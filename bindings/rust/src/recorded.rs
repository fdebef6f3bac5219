//! A bus whose records are kept.

use crate::Bus;
use core::num::NonZeroU8;

/// A bus that hands every record to a recorder, and to the bus inside it. Records one after the other, eight bytes
/// each, are what `rolltrace` and `tools/trace` of the repository read.
#[derive(Clone, Copy, Debug)]
pub struct Recorded<B, R> {
    bus: B,
    recorder: R,
}

impl<B: Bus, R: FnMut(&[u8; 8])> Recorded<B, R> {
    /// Records what is made on this bus.
    pub fn new(bus: B, recorder: R) -> Self {
        Recorded { bus, recorder }
    }
}

impl<B: Bus, R: FnMut(&[u8; 8])> Bus for Recorded<B, R> {
    fn write_read(&mut self, address: u8, write: &[u8], read: &mut [u8]) -> Result<(), NonZeroU8> {
        self.bus.write_read(address, write, read)
    }

    fn record(&mut self, record: &[u8; 8]) {
        self.bus.record(record);
        (self.recorder)(record);
    }
}
