"""The numbers that an answer may have, and the places at which the driver may panic."""

# The answers that end a call, by number.
DONE, OK_FALSE, INVALID_DEVICE, BUS_ERROR, TIMEOUT, INVALID_ADDRESS, INVALID_ARGUMENT, WOULD_BLOCK, PANIC = range(9)

# The answers that refuse a record and end nothing.
REFUSALS = {
    9: "no sensor is up",
    10: "a call waits already",
    11: "a reply, but no call waits",
    12: "stray byte in a reply",
    13: "ill-formed record",
    14: "spare bytes after the last whole record",
    15: "ill-formed session",
}

# Where lib.rs panics: the places of docs/DIFFERENCES.md.
PLACES = {
    1: "period times oscillator word does not fit 32 bits (start_continuous, lib.rs:278)",
    2: "a timeout is shifted by 16 bits or more (decode_timeout, lib.rs:983)",
    3: "the final range timeout is less than the pre-range timeout (get_sequence_step_timeouts, lib.rs:663)",
    4: "a laser period's register plus 1 does not fit 8 bits (decode_vcsel_period, lib.rs:1029)",
    5: "the MSRC register plus 1 does not fit 8 bits (get_sequence_step_timeouts, lib.rs:668)",
    6: "clocks times macro period plus half of it does not fit 32 bits (timeout_mclks_to_microseconds, lib.rs:1012)",
    7: "nanoseconds plus half a macro period do not fit 32 bits (timeout_microseconds_to_mclks, lib.rs:1023)",
    8: "division by a macro period of 0 (timeout_microseconds_to_mclks, lib.rs:1023)",
    9: "final range clocks plus pre-range clocks do not fit 16 bits (set_measurement_timing_budget, lib.rs:799)",
}
