//! Timeouts, laser periods, macro periods and the two conversions.

use crate::list::{Kind, List};
use crate::numbers::{last_that, Numbers};
use crate::place::{run, text, Panic};
use vl53l0x::inner::{
    calc_macro_period, decode_timeout, decode_vcsel_period, encode_timeout, encode_vcsel_period,
    timeout_mclks_to_microseconds, timeout_microseconds_to_mclks,
};

fn microseconds(mclks: u32, period: u8) -> Result<u32, Panic> {
    let mclks = u16::try_from(mclks).expect("a clock count has 16 bits");
    run(|| timeout_mclks_to_microseconds(mclks, period))
}

pub fn mclks(microseconds: u32, period: u8) -> Result<u32, Panic> {
    run(|| timeout_microseconds_to_mclks(microseconds, period))
}

/// The most microseconds before place 7.
pub fn most_microseconds(period: u8) -> u32 {
    last_that(0, u32::MAX, |microseconds| !matches!(mclks(microseconds, period), Err(panic) if panic.place == 7))
}

/// The most microseconds that give at most `count` clocks.
pub fn most_microseconds_within(count: u32, period: u8) -> u32 {
    last_that(0, most_microseconds(period), |microseconds| mclks(microseconds, period).unwrap() <= count)
}

pub fn list() -> List {
    let mut list = List::new("clock");
    list.rows("decode_timeout", 65536, |word| text(run(|| decode_timeout(word as u16))));
    list.rows("encode_timeout", 65536, |count| text(run(|| encode_timeout(count as u16))));
    list.rows("decode_vcsel_period", 256, |register| text(run(|| decode_vcsel_period(register as u8))));
    list.rows("encode_vcsel_period", 256, |period| text(run(|| encode_vcsel_period(period as u8))));
    list.rows("calc_macro_period", 256, |period| text(run(|| calc_macro_period(period as u8))));
    for period in 0..=255 {
        for clocks in clock_edges(period) {
            record(&mut list, Kind::Microseconds, clocks, period);
        }
    }
    for period in 0..=255 {
        for microseconds in microsecond_edges(period) {
            record(&mut list, Kind::Clocks, microseconds, period);
        }
    }
    let mut numbers = Numbers::new(1);
    for _ in 0..2000 {
        record(&mut list, Kind::Microseconds, numbers.spread(16), numbers.byte());
        let bits = if numbers.one_in(4) { 32 } else { 23 };
        record(&mut list, Kind::Clocks, numbers.spread(bits), numbers.byte());
    }
    bench();
    list.must_panic_at(&[1012, 1023]);
    list.must_have("timeout_microseconds_to_mclks 4294967 0 P8");
    list.must_have("timeout_microseconds_to_mclks 4294968 0 P7");
    list
}

/// The values of SCOPE 11.1, and the laser periods about place 4 (SCOPE 3.1).
fn bench() {
    let decoded = [0x0000, 0x0FFF, 0x1000, 0x0180].map(|word| text(run(|| decode_timeout(word))));
    assert_eq!(decoded, ["1", "32769", "P2", "257"]);
    assert_eq!([0, 256, 258, 65535].map(encode_timeout), [0, 0x00FF, 0x0180, 0x08FF]);
    let periods = [6, 127, 128, 255].map(|register| text(run(|| decode_vcsel_period(register))));
    assert_eq!(periods, ["14", "0", "2", "P4"]);
    assert_eq!([0, 1, 2].map(|period| text(run(|| encode_vcsel_period(period)))), ["P4", "P4", "0"]);
    assert_eq!(calc_macro_period(14), 53384);
}

fn record(list: &mut List, kind: Kind, number: u32, period: u8) {
    let (function, answer) = match kind {
        Kind::Microseconds => ("timeout_mclks_to_microseconds", microseconds(number, period)),
        _ => ("timeout_microseconds_to_mclks", mclks(number, period)),
    };
    let outcome = answer.map_or_else(Panic::outcome, |_| function.to_string());
    let [a, b, c, d] = number.to_be_bytes();
    let line = format!("{function} {number} {period} {}", text(answer));
    list.record(kind, &[a, b, c, d, period], &line, &[outcome]);
}

/// 0, 1 and 65535 clocks; the last count that fits and the next; the last whose product alone fits and the next.
fn clock_edges(period: u8) -> Vec<u32> {
    let fits = last_that(0, 65535, |clocks| microseconds(clocks, period).is_ok());
    let product_fits = u32::MAX.checked_div(calc_macro_period(period)).unwrap_or(u32::MAX).min(65535);
    let mut edges = vec![0, 1, fits, fits + 1, product_fits, product_fits + 1, 65535];
    edges.retain(|clocks| *clocks <= 65535);
    edges.sort();
    edges.dedup();
    edges
}

/// The last number before place 7, the last below 1 clock and the last that gives 16 bits, each with the next one;
/// for some periods also 0, 1, both sides of the product's own edge and the largest number.
fn microsecond_edges(period: u8) -> Vec<u32> {
    let most = most_microseconds(period);
    let mut edges = vec![most, most + 1];
    if period != 0 {
        for count in [0, 65535] {
            let last = most_microseconds_within(count, period);
            edges.extend([last, last + 1]);
        }
    }
    if [0, 1, 2, 14, 127, 128, 254, 255].contains(&period) {
        let product_fits = u32::MAX / 1000;
        edges.extend([0, 1, product_fits, product_fits + 1, u32::MAX]);
    }
    edges.sort();
    edges.dedup();
    edges
}
