/// The private functions and fields of lib.rs, and the calls of later.rs, which both stand above; reached from outside.
pub mod inner {
    use crate::{I2c, VL53L0x};

    /// `decode_timeout`
    pub fn decode_timeout(register_value: u16) -> u16 {
        crate::decode_timeout(register_value)
    }

    /// `encode_timeout`
    pub fn encode_timeout(timeout_mclks: u16) -> u16 {
        crate::encode_timeout(timeout_mclks)
    }

    /// `decode_vcsel_period`
    pub fn decode_vcsel_period(register_value: u8) -> u8 {
        crate::decode_vcsel_period(register_value)
    }

    /// `encode_vcsel_period`
    pub fn encode_vcsel_period(period_pclks: u8) -> u8 {
        crate::encode_vcsel_period(period_pclks)
    }

    /// `calc_macro_period`
    pub fn calc_macro_period(vcsel_period_pclks: u8) -> u32 {
        crate::calc_macro_period(vcsel_period_pclks)
    }

    /// `timeout_mclks_to_microseconds`
    pub fn timeout_mclks_to_microseconds(mclks: u16, vcsel_period_pclks: u8) -> u32 {
        crate::timeout_mclks_to_microseconds(mclks, vcsel_period_pclks)
    }

    /// `timeout_microseconds_to_mclks`
    pub fn timeout_microseconds_to_mclks(microseconds: u32, vcsel_period_pclks: u8) -> u32 {
        crate::timeout_microseconds_to_mclks(microseconds, vcsel_period_pclks)
    }

    /// `set_signal_rate_limit`
    pub fn set_signal_rate_limit<I2C: I2c>(driver: &mut VL53L0x<I2C>, limit: f32) -> Result<bool, I2C::Error> {
        driver.set_signal_rate_limit(limit)
    }

    /// `get_signal_rate_limit`, of later.rs
    pub fn get_signal_rate_limit<I2C: I2c>(driver: &mut VL53L0x<I2C>) -> Result<f32, I2C::Error> {
        driver.get_signal_rate_limit()
    }

    /// `get_measurement_timing_budget`
    pub fn get_measurement_timing_budget<I2C: I2c>(driver: &mut VL53L0x<I2C>) -> Result<u32, I2C::Error> {
        driver.get_measurement_timing_budget()
    }

    /// The fields that calls change.
    #[derive(Clone, Copy, Debug, PartialEq, Eq)]
    pub struct Fields {
        /// `stop_variable`
        pub stop_variable: u8,
        /// `measurement_timing_budget_microseconds`
        pub measurement_timing_budget_microseconds: u32,
        /// `address`
        pub address: u8,
    }

    /// A driver with these fields, without bring-up; the other fields as `with_address` sets them.
    pub fn driver<I2C: I2c>(com: I2C, fields: Fields) -> VL53L0x<I2C> {
        VL53L0x {
            com,
            revision_id: 0x00,
            io_mode2v8: true,
            stop_variable: fields.stop_variable,
            measurement_timing_budget_microseconds: fields.measurement_timing_budget_microseconds,
            address: fields.address,
        }
    }

    /// The fields of a driver.
    pub fn fields<I2C: I2c>(driver: &VL53L0x<I2C>) -> Fields {
        Fields {
            stop_variable: driver.stop_variable,
            measurement_timing_budget_microseconds: driver.measurement_timing_budget_microseconds,
            address: driver.address,
        }
    }
}
