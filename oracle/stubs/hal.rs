//! The part of the crate `hal` that lib.rs names: an interface without behaviour.

#![no_std]

/// The bus.
pub mod i2c {
    /// A bus master that makes one transfer a call.
    pub trait I2c {
        /// Why a transfer failed.
        type Error;
        /// Writes bytes to an address.
        fn write(&mut self, address: u8, write: &[u8]) -> Result<(), Self::Error>;
        /// Writes bytes to an address, then reads as many bytes as `read` has.
        fn write_read(&mut self, address: u8, write: &[u8], read: &mut [u8]) -> Result<(), Self::Error>;
    }
}
