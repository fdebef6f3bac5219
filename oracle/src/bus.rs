//! A bus that replies from a function and keeps every transfer.

use hal::i2c::I2c;
use vl53l0x::inner::Fields;

pub const ADDRESS: u8 = 0x29;

/// The fields of a driver that has made no call.
pub const FRESH: Fields = Fields { stop_variable: 0, measurement_timing_budget_microseconds: 0, address: ADDRESS };

#[derive(Debug, PartialEq, Eq)]
pub struct Transfer {
    pub address: u8,
    pub written: Vec<u8>,
    pub read: usize,
}

impl Transfer {
    /// The word that this transfer writes at `register`, high byte first.
    pub fn word_at(&self, register: u8) -> u16 {
        match *self.written {
            [written, high, low] if written == register && self.address == ADDRESS && self.read == 1 => {
                u16::from_be_bytes([high, low])
            }
            _ => panic!("not a write of a word at {register:02X}: {self:?}"),
        }
    }
}

/// `reply` gets the written bytes and fills those to be read, or gives a failure code.
pub struct Bus<F> {
    reply: F,
    pub transfers: Vec<Transfer>,
}

impl<F: FnMut(&[u8], &mut [u8]) -> Result<(), u8>> Bus<F> {
    pub fn new(reply: F) -> Self {
        Bus { reply, transfers: Vec::new() }
    }
}

/// Lent to the driver, so that the transfers outlive a panic in it.
impl<F: FnMut(&[u8], &mut [u8]) -> Result<(), u8>> I2c for &mut Bus<F> {
    type Error = u8;

    fn write(&mut self, address: u8, write: &[u8]) -> Result<(), u8> {
        self.write_read(address, write, &mut [])
    }

    fn write_read(&mut self, address: u8, write: &[u8], read: &mut [u8]) -> Result<(), u8> {
        self.transfers.push(Transfer { address, written: write.to_vec(), read: read.len() });
        (self.reply)(write, read)
    }
}
