//! The simulated bus as the Rust driver sees it. It keeps each transfer with its reply.

use hal::i2c::I2c;
use std::num::NonZeroU8;
use vl53l0x_session::exported::TRANSFER;
use vl53l0x_session::Outcome;
use vl53l0x_simulator::Simulator;

/// The sensor's address after power-up.
pub const ADDRESS: u8 = 0x29;

#[derive(Debug)]
pub struct Exchange {
    address: u8,
    written: Vec<u8>,
    pub reads: usize,
    reply: Result<[u8; 6], u8>,
}

impl Exchange {
    /// The transfer, as the exported functions write it.
    pub fn outcome(&self) -> [u8; Outcome::SIZE] {
        let mut outcome = [0; Outcome::SIZE];
        outcome[..3].copy_from_slice(&[TRANSFER, self.address, self.written.len() as u8]);
        outcome[3..][..self.written.len()].copy_from_slice(&self.written);
        outcome[10] = self.reads as u8;
        outcome
    }

    /// The record of the reply.
    pub fn record(&self) -> [u8; 8] {
        let mut record = [2, 0, 0, 0, 0, 0, 0, 0];
        match self.reply {
            Ok(data) => record[2..].copy_from_slice(&data),
            Err(code) => record[1] = code,
        }
        record
    }
}

/// Changes the reply to a transfer: it gets the written bytes and those that were read.
pub type Spoil<'a> = &'a mut dyn FnMut(&[u8], &mut [u8]);

pub struct Bus<'a> {
    sensor: &'a mut Simulator,
    spoil: Spoil<'a>,
    pub exchanges: Vec<Exchange>,
}

impl<'a> Bus<'a> {
    pub fn new(sensor: &'a mut Simulator, spoil: Spoil<'a>) -> Self {
        Bus { sensor, spoil, exchanges: Vec::new() }
    }
}

/// Lent to the driver, so that the exchanges outlive a panic in it.
impl I2c for &mut Bus<'_> {
    type Error = u8;

    fn write(&mut self, address: u8, write: &[u8]) -> Result<(), u8> {
        self.write_read(address, write, &mut [])
    }

    fn write_read(&mut self, address: u8, write: &[u8], read: &mut [u8]) -> Result<(), u8> {
        let reply = self.sensor.transfer(address, write, read).map_err(NonZeroU8::get).map(|()| {
            (self.spoil)(write, read);
            let mut data = [0; 6];
            data[..read.len()].copy_from_slice(read);
            data
        });
        self.exchanges.push(Exchange { address, written: write.to_vec(), reads: read.len(), reply });
        reply.map(|_| ())
    }
}
