/* The state of a test: a session, its sensor and what the session has said last; calls that are Done from one. */
#ifndef STATE_H
#define STATE_H

#include "check.h"
#include "line.h"

struct state {
    uint8_t session[VL53L0X_SESSION_SIZE];
    uint8_t outcome[VL53L0X_OUTCOME_SIZE];
    struct line line;
};

/*
 * A call of each code, with arguments with which it can be Done. Whatever goes over all codes goes over these, and
 * bus_test.c holds them against the library.
 */
static const struct {
    uint8_t code;
    uint32_t a;
    uint16_t b;
} all_calls[] = {{VL53L0X_WITH_ADDRESS, 0x29, 0},
                 {VL53L0X_WHO_AM_I, 0, 0},
                 {VL53L0X_SET_ADDRESS, 0x30, 0},
                 {VL53L0X_START_CONTINUOUS, 50, 0},
                 {VL53L0X_STOP_CONTINUOUS, 0, 0},
                 {VL53L0X_READ_RANGE_MM, 0, 0},
                 {VL53L0X_READ_RANGE_CONTINUOUS_MILLIMETERS_BLOCKING, 0, 0},
                 {VL53L0X_READ_RANGE_SINGLE_MILLIMETERS_BLOCKING, 0, 0},
                 {VL53L0X_SET_MEASUREMENT_TIMING_BUDGET, 33000, 0},
                 {VL53L0X_SET_INTERRUPT_THRESHOLDS_MM, 100, 300},
                 {VL53L0X_GET_INTERRUPT_THRESHOLDS_MM, 0, 0},
                 {VL53L0X_SET_GPIO_CONFIG, VL53L0X_OUT_OF_WINDOW, VL53L0X_ACTIVE_HIGH},
                 {VL53L0X_CLEAR_INTERRUPT_STATUS, 0, 0},
                 {VL53L0X_SET_SIGNAL_RATE_LIMIT, 0x3E800000, 0},
                 {VL53L0X_GET_MEASUREMENT_TIMING_BUDGET, 0, 0},
                 {VL53L0X_GET_SIGNAL_RATE_LIMIT, 0, 0}};

enum { ALL_CALLS = sizeof all_calls / sizeof *all_calls };

static inline int same_session(const struct state *one, const struct state *other)
{
    return memcmp(one->session, other->session, VL53L0X_SESSION_SIZE) == 0;
}

static inline int same_end(const struct state *one, const struct state *other)
{
    return same_session(one, other) && memcmp(one->outcome, other->outcome, VL53L0X_OUTCOME_SIZE) == 0;
}

static inline int at_rest(const struct state *state)
{
    for (size_t i = 7; i < VL53L0X_SESSION_SIZE; i++) {
        if (state->session[i] != 0) {
            return 0;
        }
    }
    return vl53l0x_session_code(state->session) == 0;
}

static inline int is_reading(uint8_t code)
{
    return code >= VL53L0X_READ_RANGE_MM && code <= VL53L0X_READ_RANGE_SINGLE_MILLIMETERS_BLOCKING;
}

/* Whether the range read of a reading is out, which a failed reply does not end. */
static inline int range_is_read(const struct state *state)
{
    return is_reading(vl53l0x_session_code(state->session)) && vl53l0x_transfer_reads(state->outcome) == 2;
}

static inline uint8_t drive(struct state *state, const uint8_t *call)
{
    const struct vl53l0x_bus bus = bus_of(&state->line);
    uint8_t record[VL53L0X_RECORD_SIZE];
    memcpy(record, call, sizeof record);
    return vl53l0x_drive(state->session, &bus, record, state->outcome);
}

/* A call that is Done from a state in which it can be: not up, at rest, or measuring with a reading ready at once. */
static inline void a_call(struct state *state, uint8_t *record, uint8_t code)
{
    memset(state, 0, sizeof *state);
    simulator_power_up(&state->line.sensor, code);
    simulator_set_distance(&state->line.sensor, 511);
    CHECK(vl53l0x_fresh(state->session, sizeof state->session) == 0);
    if (code != VL53L0X_WITH_ADDRESS) {
        vl53l0x_put_new(record);
        CHECK(drive(state, record) == VL53L0X_DONE);
    }
    if (code == VL53L0X_READ_RANGE_MM || code == VL53L0X_READ_RANGE_CONTINUOUS_MILLIMETERS_BLOCKING) {
        state->line.sensor.longest_wait = 0;
        vl53l0x_put_call(record, VL53L0X_START_CONTINUOUS, 50, 0);
        CHECK(drive(state, record) == VL53L0X_DONE);
    }
    for (size_t i = 0; i < ALL_CALLS; i++) {
        if (all_calls[i].code == code) {
            vl53l0x_put_call(record, code, all_calls[i].a, all_calls[i].b);
        }
    }
}

#endif
