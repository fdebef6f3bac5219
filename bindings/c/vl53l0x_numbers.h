/*
 * The numbers of the proved VL53L0X driver by name, for C99 and C++: its calls, their arguments, its answers.
 * vl53l0x.h includes them.
 */
#ifndef VL53L0X_NUMBERS_H
#define VL53L0X_NUMBERS_H

#include <stdint.h>

#ifdef __cplusplus
extern "C" {
#endif

/* Codes of the calls, with their arguments A and B and their value. An argument that is not named is 0. */
enum {
    /* Bring-up. A: address, any byte. vl53l0x_put_new makes it with VL53L0X_DEFAULT_ADDRESS. */
    VL53L0X_WITH_ADDRESS = 1,
    /* Value: the identity. */
    VL53L0X_WHO_AM_I = 2,
    /* A: the new address, 0x08 to 0x77. */
    VL53L0X_SET_ADDRESS = 3,
    /* A: period in milliseconds, 0 for back to back. */
    VL53L0X_START_CONTINUOUS = 4,
    VL53L0X_STOP_CONTINUOUS = 5,
    /* Value: millimetres. VL53L0X_WOULD_BLOCK while there is no reading. */
    VL53L0X_READ_RANGE_MM = 6,
    /* Both wait for a reading. Value: millimetres. */
    VL53L0X_READ_RANGE_CONTINUOUS_MILLIMETERS_BLOCKING = 7,
    VL53L0X_READ_RANGE_SINGLE_MILLIMETERS_BLOCKING = 8,
    /* A: microseconds, at least 20,000. */
    VL53L0X_SET_MEASUREMENT_TIMING_BUDGET = 9,
    /* A: low, B: high, in millimetres, at most 8190. */
    VL53L0X_SET_INTERRUPT_THRESHOLDS_MM = 10,
    /* Value: low x 65536 + high, in millimetres. */
    VL53L0X_GET_INTERRUPT_THRESHOLDS_MM = 11,
    /* A: functionality, B: polarity, see below. */
    VL53L0X_SET_GPIO_CONFIG = 12,
    VL53L0X_CLEAR_INTERRUPT_STATUS = 13,
    /* A: bits of a float, see vl53l0x_float_bits. */
    VL53L0X_SET_SIGNAL_RATE_LIMIT = 14,
    /* Value: microseconds. */
    VL53L0X_GET_MEASUREMENT_TIMING_BUDGET = 15,
    /* Not in the Rust driver. Value: bits of a float, see vl53l0x_float_from_bits. */
    VL53L0X_GET_SIGNAL_RATE_LIMIT = 16
};

/* A of VL53L0X_SET_GPIO_CONFIG: which event is routed to the pin. */
enum {
    VL53L0X_NEW_SAMPLE_READY = 0,
    VL53L0X_LEVEL_LOW = 1,
    VL53L0X_LEVEL_HIGH = 2,
    VL53L0X_OUT_OF_WINDOW = 3
};

/* B of VL53L0X_SET_GPIO_CONFIG: the level of the pin while an interrupt is pending. */
enum { VL53L0X_ACTIVE_LOW = 0, VL53L0X_ACTIVE_HIGH = 1 };

/* What the functions return, and byte 0 of an outcome. */
enum {
    /* Answers, which end a call. */
    VL53L0X_DONE = 0,             /* value: see the call */
    VL53L0X_FALSE = 1,            /* the sensor cannot do that: the budget is too short, the limit out of range */
    VL53L0X_INVALID_DEVICE = 2,   /* value: the identity, which is not 0xEE */
    VL53L0X_BUS_ERROR = 3,        /* value: the failure code of a transfer */
    VL53L0X_TIMEOUT = 4,          /* the sensor was not ready after the most reads of a wait */
    VL53L0X_INVALID_ADDRESS = 5,  /* value: the address */
    VL53L0X_INVALID_ARGUMENT = 6, /* thresholds in the wrong order or above 8190 */
    VL53L0X_WOULD_BLOCK = 7,      /* no reading is ready yet */
    VL53L0X_PANIC = 8,            /* value: 1 to 9, the place where the Rust driver's arithmetic panics */
    /* Refusals: no transfer is made, and the session is as it was. */
    VL53L0X_NOT_UP = 9,              /* the sensor has not been brought up */
    VL53L0X_CALL_WAITS = 10,         /* a call while another waits for its reply */
    VL53L0X_NO_CALL_WAITS = 11,      /* a reply while no call waits */
    VL53L0X_STRAY_BYTE = 12,         /* a reply with bytes that were not read */
    VL53L0X_ILL_FORMED_RECORD = 13,  /* no call and no reply, or arguments out of range */
    VL53L0X_SPARE_BYTES = 14,        /* the record is not 8 bytes long */
    VL53L0X_ILL_FORMED_SESSION = 15, /* no session, or one that says that a call waits and is none that waits in it */
    /* No answer. Failure codes of a bus may be the same numbers, and never stand in byte 0 of an outcome. */
    VL53L0X_NOT_PUT = 254, /* only returned: the outcome is not 25 bytes long, and nothing was changed */
    VL53L0X_TRANSFER = 255 /* a transfer is to be made */
};

/* What the functions return, and byte 0 of an outcome, in words. */
static inline const char *vl53l0x_answer_text(uint8_t number)
{
    static const char *const texts[] = {
        "done",
        "the sensor cannot do that: the budget is too short, or the limit out of range",
        "the device is no VL53L0X: its identity is not 0xEE",
        "the bus failed",
        "the sensor was not ready after the most reads of a wait",
        "the address is not from 0x08 to 0x77",
        "the thresholds are in the wrong order or above 8190 mm",
        "no reading is ready yet",
        "the Rust driver's arithmetic panics here",
        "refused: the sensor has not been brought up",
        "refused: a call waits for its reply",
        "refused: no call waits for a reply",
        "refused: the reply has bytes that were not read",
        "refused: the record is no call and no reply, or has arguments out of range",
        "refused: the record is not 8 bytes long",
        "refused: the session is none, or says that a call waits and is none that waits in it",
    };
    if (number == VL53L0X_TRANSFER) {
        return "a transfer is to be made";
    }
    if (number == VL53L0X_NOT_PUT) {
        return "the outcome is not 25 bytes long";
    }
    return number < sizeof texts / sizeof *texts ? texts[number] : "no number of the library";
}

#ifdef __cplusplus
}
#endif

#endif
