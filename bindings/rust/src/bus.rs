//! A bus, as the caller has it.

use core::num::NonZeroU8;

/// A bus master that makes one transfer at a time.
pub trait Bus {
    /// Writes bytes to the device at an address and then reads as many bytes as `read` has; with none to read it is a
    /// write alone. All of `read` is filled, or the transfer has failed: a bus that has got fewer bytes answers with a
    /// failure. The code, 1 to 255, is the bus's own and comes back as [`Answer::BusError`](crate::Answer::BusError).
    fn write_read(&mut self, address: u8, write: &[u8], read: &mut [u8]) -> Result<(), NonZeroU8>;

    /// Is handed every record, of a call or of a reply, before the session is. Does nothing unless it is written
    /// otherwise; [`Recorded`](crate::Recorded) gives the records to a closure.
    fn record(&mut self, record: &[u8; 8]) {
        let _ = record;
    }
}

impl<F: FnMut(u8, &[u8], &mut [u8]) -> Result<(), NonZeroU8>> Bus for F {
    fn write_read(&mut self, address: u8, write: &[u8], read: &mut [u8]) -> Result<(), NonZeroU8> {
        self(address, write, read)
    }
}

/// Selects page 0 of the sensor's registers: one write alone, beside the driver and outside every session. Only for
/// while no call waits on that sensor. It is no record, so [`Bus::record`] is not handed one.
pub fn select_page_0<B: Bus + ?Sized>(bus: &mut B, address: u8) -> Result<(), NonZeroU8> {
    bus.write_read(address, &[0xFF, 0x00], &mut [])
}
