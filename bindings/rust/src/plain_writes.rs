//! A bus on which a write is a write alone.

use crate::Bus;
use core::num::NonZeroU8;

/// A bus that leaves out the reads after writes.
///
/// The Rust driver makes a write of registers as a write and a read, of one byte or six, and ignores what it has read.
/// Where more than one byte is written, this makes the write alone on the bus inside it and answers zeros. The bytes on
/// the bus are no longer the Rust driver's; the answers are.
#[derive(Clone, Copy, Debug)]
pub struct PlainWrites<B>(pub B);

impl<B: Bus> Bus for PlainWrites<B> {
    fn write_read(&mut self, address: u8, write: &[u8], read: &mut [u8]) -> Result<(), NonZeroU8> {
        if write.len() <= 1 {
            return self.0.write_read(address, write, read);
        }
        read.fill(0);
        self.0.write_read(address, write, &mut [])
    }

    fn record(&mut self, record: &[u8; 8]) {
        self.0.record(record);
    }
}
