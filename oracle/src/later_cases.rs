//! The runs of calls that lib.rs does not have.

use crate::call::{Answer, Call};
use crate::trace_cases::silent;
use crate::traces::{Sensor, Trace};
use vl53l0x::inner::Fields;

/// A signal rate limit as it is read.
fn limit(word: u16) -> Sensor {
    silent().at(0x44, &[word.to_be_bytes()])
}

/// Call 16 reads a word, and call 14 gets what was answered: it sends that word. 65535 is above the highest limit, so that
/// nothing is sent.
pub fn read_and_set(trace: Trace, word: u16) -> Trace {
    let trace = trace.call(Call::GetSignalRateLimit, limit(word));
    let (Answer(number, bits), before) = (trace.answer(), trace.steps.len());
    assert_eq!((number, f64::from(f32::from_bits(bits)) * 128.0), (0, word.into()));
    let trace = trace.call(Call::SetSignalRateLimit(bits), silent());
    let lines: Vec<String> = trace.steps[before..].iter().map(|(_, line)| line.to_string()).collect();
    let address = trace.after.expect("the driver is up").address;
    match word {
        0xFFFF => assert_eq!(lines, ["A 1 0 0"]),
        _ => assert_eq!(lines, [&format!("T {address:02X} 44{word:04X} 1"), "A 0 0 1"]),
    }
    trace
}

pub fn later_calls(up: Fields) -> Vec<Trace> {
    let run = |name| Trace::new(name, Some(up));
    let read = |name, word, bits| run(name).call(Call::GetSignalRateLimit, limit(word)).answered(0, bits);
    vec![
        read("get_rate_0000", 0x0000, 0x0000_0000),
        read("get_rate_0001", 0x0001, 0x3C00_0000),
        read("get_rate_0020", 0x0020, 0x3E80_0000),
        read("get_rate_0080", 0x0080, 0x3F80_0000),
        read("get_rate_1234", 0x1234, 0x4211_A000),
        read("get_rate_fffe", 0xFFFE, 0x43FF_FE00),
        read("get_rate_ffff", 0xFFFF, 0x43FF_FF00),
        run("get_rate_fails").call(Call::GetSignalRateLimit, silent().failing(1, 0x44, 13)).answered(3, 13),
        read_and_set(run("rate_read_and_set"), 0x0203),
        read_and_set(run("rate_read_and_not_set"), 0xFFFF),
    ]
}
