/*
 * The proved VL53L0X driver (crate vl53l0x) for C99 and C++. Today the library is for x86-64 Linux.
 *
 * The library makes no transfer itself. A caller keeps a session, hands it records and does what each outcome says.
 * vl53l0x_bus.h does that on a bus; step by step it goes so:
 *
 *   1. vl53l0x_fresh makes a session.
 *   2. vl53l0x_step is handed the record of a call (vl53l0x_put_call), first of all a bring-up (vl53l0x_put_new).
 *   3. While it returns VL53L0X_TRANSFER, the caller makes that transfer on the bus and hands in the record of its
 *      reply (vl53l0x_put_reply_to or vl53l0x_put_failure). Anything else that it returns is the answer.
 *
 * Memory: session, record and outcome belong to the caller. The library has no memory of its own, allocates nothing
 * and keeps no pointer. Each pointer is not null, stands for as many bytes as the length after it says, and what a
 * function writes overlaps nothing else that it is given.
 *
 * Lengths are checked. If one of them is wrong, the functions say so and change no more than they say below.
 *
 * Threads: sessions are independent. One session is for one thread at a time.
 *
 * Numbers in a session and in an outcome are low byte first, those in a record high byte first.
 */
#ifndef VL53L0X_H
#define VL53L0X_H

#include "vl53l0x_numbers.h"

#include <stddef.h>
#include <stdint.h>
#include <string.h>

/* Before a function whose result has to be looked at: GCC and clang warn where it is not. */
#if defined(__GNUC__) || defined(__clang__)
#define VL53L0X_MUST_CHECK __attribute__((warn_unused_result))
#else
#define VL53L0X_MUST_CHECK
#endif

#ifdef __cplusplus
extern "C" {
#endif

enum {
    VL53L0X_SESSION_SIZE = 52,
    VL53L0X_RECORD_SIZE = 8,
    VL53L0X_OUTCOME_SIZE = 25,
    VL53L0X_MOST_WRITTEN = 7, /* bytes that a transfer writes at most */
    VL53L0X_MOST_READ = 6,    /* bytes that a transfer reads at most */
    VL53L0X_MOST_VALUES = 5,  /* values that an outcome has room for; today an answer has one */
    VL53L0X_DEFAULT_ADDRESS = 0x29 /* where a sensor answers after power-up */
};

/*
 * Makes a session for a sensor that has not been brought up, and returns 0.
 * If the length is not 52: changes nothing and returns VL53L0X_ILL_FORMED_SESSION.
 */
uint8_t vl53l0x_fresh(uint8_t *session, size_t session_len);

/*
 * Hands a record to a session. Writes the session that it leads to and the outcome, and returns byte 0 of the outcome.
 * If the record is not 8 bytes long the outcome is VL53L0X_SPARE_BYTES. If the session is not 52 bytes long, or its
 * byte 0 is above 1, it is none, and the outcome is VL53L0X_ILL_FORMED_SESSION. In both cases the session is as it was.
 * If the outcome is not 25 bytes long: changes nothing and returns VL53L0X_NOT_PUT.
 */
uint8_t vl53l0x_step(uint8_t *session, size_t session_len, const uint8_t *record, size_t record_len, uint8_t *outcome,
                     size_t outcome_len);

/*
 * Writes the transfer that a waiting session has out, and returns VL53L0X_TRANSFER. The outcome, and what is returned,
 * is VL53L0X_NO_CALL_WAITS where no call waits, VL53L0X_ILL_FORMED_SESSION as with vl53l0x_step.
 * If the outcome is not 25 bytes long: changes nothing and returns VL53L0X_NOT_PUT.
 */
uint8_t vl53l0x_outstanding(const uint8_t *session, size_t session_len, uint8_t *outcome, size_t outcome_len);

/* A number of a session or an outcome. */

static inline uint16_t vl53l0x_get_low_first_16(const uint8_t *bytes)
{
    return (uint16_t)((unsigned)bytes[1] << 8 | bytes[0]);
}

static inline uint32_t vl53l0x_get_low_first_32(const uint8_t *bytes)
{
    return (uint32_t)vl53l0x_get_low_first_16(bytes + 2) << 16 | vl53l0x_get_low_first_16(bytes);
}

/* A number of a record. */

static inline void vl53l0x_put_high_first_16(uint8_t *bytes, uint16_t number)
{
    bytes[0] = (uint8_t)(number >> 8);
    bytes[1] = (uint8_t)number;
}

static inline void vl53l0x_put_high_first_32(uint8_t *bytes, uint32_t number)
{
    vl53l0x_put_high_first_16(bytes, (uint16_t)(number >> 16));
    vl53l0x_put_high_first_16(bytes + 2, (uint16_t)number);
}

/* Records: each function writes 8 bytes. */

/* A call by its code. Arguments out of range are refused by vl53l0x_step. */
static inline void vl53l0x_put_call(uint8_t *record, uint8_t code, uint32_t a, uint16_t b)
{
    record[0] = 1;
    record[1] = code;
    vl53l0x_put_high_first_32(record + 2, a);
    vl53l0x_put_high_first_16(record + 6, b);
}

/* The Rust driver's `new`: a bring-up at the address that a sensor has after power-up. */
static inline void vl53l0x_put_new(uint8_t *record)
{
    vl53l0x_put_call(record, VL53L0X_WITH_ADDRESS, VL53L0X_DEFAULT_ADDRESS, 0);
}

/*
 * The reply to a transfer that failed. The code, 1 to 255, is the caller's own; it comes back as the value of
 * VL53L0X_BUS_ERROR. With code 0 the record is of no kind, which vl53l0x_step refuses.
 */
static inline void vl53l0x_put_failure(uint8_t *record, uint8_t code)
{
    memset(record, 0, VL53L0X_RECORD_SIZE);
    if (code != 0) {
        record[0] = 2;
        record[1] = code;
    }
}

/*
 * The argument A of VL53L0X_SET_SIGNAL_RATE_LIMIT: a limit in million counts a second. The answer to one below 0, to
 * one above 511.99 and to a NaN is VL53L0X_FALSE.
 */
static inline uint32_t vl53l0x_float_bits(float limit)
{
    uint32_t bits;
    memcpy(&bits, &limit, sizeof bits);
    return bits;
}

/* An outcome that is a transfer: byte 0 is VL53L0X_TRANSFER. */

static inline uint8_t vl53l0x_transfer_address(const uint8_t *outcome)
{
    return outcome[1];
}

/* How many bytes to write, 1 to 7. */
static inline uint8_t vl53l0x_transfer_count(const uint8_t *outcome)
{
    return outcome[2];
}

/* The bytes to write. They stand in the outcome. */
static inline const uint8_t *vl53l0x_transfer_written(const uint8_t *outcome)
{
    return outcome + 3;
}

/* How many bytes to read after that: 0, 1, 2 or 6. With 0 the transfer is a write alone. */
static inline uint8_t vl53l0x_transfer_reads(const uint8_t *outcome)
{
    return outcome[10];
}

/*
 * The record of a good reply to the transfer of an outcome, with the bytes that it read. Unless the outcome is a
 * transfer and `count` is what it reads, the record is of no kind, which vl53l0x_step refuses
 * (VL53L0X_ILL_FORMED_RECORD): a reply that is cut short becomes no distance.
 */
static inline void vl53l0x_put_reply_to(uint8_t *record, const uint8_t *outcome, const uint8_t *data, size_t count)
{
    memset(record, 0, VL53L0X_RECORD_SIZE);
    if (outcome[0] == VL53L0X_TRANSFER && count == vl53l0x_transfer_reads(outcome)) {
        record[0] = 2;
        if (count > 0) {
            memcpy(record + 2, data, count);
        }
    }
}

/* An outcome that is an answer: byte 0 is 0 to 15. */

/* The first value. What it is depends on the answer: a distance is taken by vl53l0x_done_value. */
static inline uint32_t vl53l0x_answer_value(const uint8_t *outcome)
{
    return vl53l0x_get_low_first_32(outcome + 1);
}

/* The transfers that the call made; 0 for a refusal. They stand after the room for all values. */
static inline uint32_t vl53l0x_answer_transfers(const uint8_t *outcome)
{
    return vl53l0x_get_low_first_32(outcome + 1 + 4 * VL53L0X_MOST_VALUES);
}

/*
 * Returns 1 and tells the value where the outcome is the answer VL53L0X_DONE. Else returns 0, and *value stays. A call
 * that is Done has made a transfer: zeros that nobody wrote there are no answer.
 */
VL53L0X_MUST_CHECK static inline int vl53l0x_done_value(const uint8_t *outcome, uint32_t *value)
{
    if (outcome[0] != VL53L0X_DONE || vl53l0x_answer_transfers(outcome) == 0) {
        return 0;
    }
    *value = vl53l0x_answer_value(outcome);
    return 1;
}

/*
 * The value of VL53L0X_GET_SIGNAL_RATE_LIMIT, which vl53l0x_done_value tells, as a limit in million counts a second:
 * the sensor's word / 128, exactly. Setting a limit that was read writes the same word. Only the greatest word, 65535,
 * reads as a limit that is not set again: 511.9921875 is above 511.99, and the answer to it is VL53L0X_FALSE.
 */
static inline float vl53l0x_float_from_bits(uint32_t bits)
{
    float limit;
    memcpy(&limit, &bits, sizeof limit);
    return limit;
}

/*
 * Makes a session of the bytes of one that was put away, and returns 0. If they are not 52, or byte 0 is above 1: makes
 * a fresh one, which refuses every call but a bring-up (VL53L0X_NOT_UP), and returns VL53L0X_ILL_FORMED_SESSION.
 */
VL53L0X_MUST_CHECK static inline uint8_t vl53l0x_session_from_bytes(uint8_t *session, const uint8_t *bytes,
                                                                    size_t count)
{
    if (count != VL53L0X_SESSION_SIZE || bytes[0] > 1) {
        vl53l0x_fresh(session, VL53L0X_SESSION_SIZE);
        return VL53L0X_ILL_FORMED_SESSION;
    }
    memcpy(session, bytes, VL53L0X_SESSION_SIZE);
    return 0;
}

/* A session. The first four are zero while the sensor is not up. */

static inline uint8_t vl53l0x_session_up(const uint8_t *session)
{
    return session[0];
}

static inline uint8_t vl53l0x_session_address(const uint8_t *session)
{
    return session[1];
}

/* The byte that the sensor wants back when a measurement is started. */
static inline uint8_t vl53l0x_session_stop(const uint8_t *session)
{
    return session[2];
}

/* The measurement timing budget in microseconds. */
static inline uint32_t vl53l0x_session_budget(const uint8_t *session)
{
    return vl53l0x_get_low_first_32(session + 3);
}

/* The code of the call that waits for a reply, 0 if none does. The rest is zero while none does. */
static inline uint8_t vl53l0x_session_code(const uint8_t *session)
{
    return session[7];
}

static inline uint32_t vl53l0x_session_a(const uint8_t *session)
{
    return vl53l0x_get_low_first_32(session + 8);
}

static inline uint16_t vl53l0x_session_b(const uint8_t *session)
{
    return vl53l0x_get_low_first_16(session + 12);
}

/* The step of the call that is out. */
static inline uint8_t vl53l0x_session_step(const uint8_t *session)
{
    return session[14];
}

/* How often the wait that the call stands at has been read in vain. */
static inline uint32_t vl53l0x_session_idle(const uint8_t *session)
{
    return vl53l0x_get_low_first_32(session + 15);
}

/* The transfers of the call so far, with the one that is out. */
static inline uint32_t vl53l0x_session_transfers(const uint8_t *session)
{
    return vl53l0x_get_low_first_32(session + 19);
}

/* The failure code of the range read, 0 if it did not fail. */
static inline uint8_t vl53l0x_session_failed(const uint8_t *session)
{
    return session[23];
}

/* The budget that a bring-up has read, in microseconds. */
static inline uint32_t vl53l0x_session_found_budget(const uint8_t *session)
{
    return vl53l0x_get_low_first_32(session + 24);
}

/* The 24 reply bytes that are carried on. They stand in the session. */
static inline const uint8_t *vl53l0x_session_carried(const uint8_t *session)
{
    return session + 28;
}

#ifdef __cplusplus
}
#endif

#endif
