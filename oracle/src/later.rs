// The calls of later requests that lib.rs does not have, in its manner. This file is the port's own, no file of the
// Rust: it is appended after lib.rs's last line when that is built, and so reaches lib.rs's private functions.

impl<I2C, E> VL53L0x<I2C>
where
    I2C: I2c<Error = E>,
{
    fn get_signal_rate_limit(&mut self) -> Result<f32, E> {
        // Q9.7 fixed point format (9 integer bits, 7 fractional bits)
        let raw = self.read_16bit(Register::FINAL_RANGE_CONFIG_MIN_COUNT_RATE_RTN_LIMIT)?;
        Ok(raw as f32 / ((1 << 7) as f32))
    }
}
