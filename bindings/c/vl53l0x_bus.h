/*
 * Calls of the VL53L0X driver on a bus, for C99 and C++.
 *
 *   static int transfer(void *context, uint8_t address, const uint8_t *written, size_t count, uint8_t *read,
 *                       size_t reads, size_t *got) { ... }
 *
 *   const struct vl53l0x_bus bus = {transfer, NULL, NULL};
 *   uint8_t session[VL53L0X_SESSION_SIZE], record[VL53L0X_RECORD_SIZE], outcome[VL53L0X_OUTCOME_SIZE];
 *   uint32_t range;
 *   vl53l0x_fresh(session, sizeof session);
 *   vl53l0x_put_new(record);
 *   if (vl53l0x_drive(session, &bus, record, outcome) == VL53L0X_DONE) {
 *       vl53l0x_put_call(record, VL53L0X_READ_RANGE_SINGLE_MILLIMETERS_BLOCKING, 0, 0);
 *       if (vl53l0x_drive(session, &bus, record, outcome) == VL53L0X_DONE && vl53l0x_done_value(outcome, &range)) {
 *           ... range is the distance in millimetres
 *
 * Here sessions have 52 bytes, records 8 and outcomes 25. What vl53l0x.h says of memory and threads holds here too.
 *
 * After a failure. That is after any answer VL53L0X_BUS_ERROR or VL53L0X_TIMEOUT. The answers equal the Rust driver's,
 * also where a caller would not expect them: the session is right about what the driver knows, but what the sensor has
 * taken of the call is not known, and the next call may be VL53L0X_DONE and wrong.
 *
 *   - A single reading that broke may leave its interrupt pending, or a measurement under way that leaves it pending
 *     later. The next single reading then answers at once with the old distance. Its own measurement ends after that,
 *     so the reading after it may be one behind too, and so on.
 *   - A single reading, a start or a stop that broke may leave page 1 of the registers selected. What the next call
 *     sets goes to other registers; it is Done, and the sensor has not taken it. A window or a limit that is read back
 *     then comes from those registers too, and is the one that was set.
 *   - A bring-up that broke may leave another page selected too. Every bring-up after it is VL53L0X_INVALID_DEVICE.
 *
 * What to do. Each step has to be Done; where one is not, begin with the first again. "By hand" is
 * vl53l0x_select_page_0.
 *
 *   - A single reading, VL53L0X_READ_RANGE_SINGLE_MILLIMETERS_BLOCKING: select page 0 by hand, make one single reading
 *     and throw its value away, wait for longer than a measurement takes, which is about the timing budget, clear the
 *     interrupt (VL53L0X_CLEAR_INTERRUPT_STATUS). Then read. In bindings/c/example.c this is `recover`.
 *   - A reading while the sensor measures continuously: make one reading by
 *     VL53L0X_READ_RANGE_CONTINUOUS_MILLIMETERS_BLOCKING and throw its value away. A single reading would stop the
 *     measurements.
 *   - A start of continuous measurements: select page 0 by hand, start again, throw one reading away.
 *   - A stop: select page 0 by hand, stop again, then as after a single reading.
 *   - A change of address: if nobody answers at the old address, bring the sensor up at the new one
 *     (VL53L0X_WITH_ADDRESS); else change it again.
 *   - A bring-up: select page 0 by hand, then bring up again.
 *   - Any other call: make it again.
 *   - A single reading that was taken up again (vl53l0x_go_on) and is Done: throw its value away too, which may be the
 *     distance of before the stop, and go on as after a single reading that broke.
 *   - A session that was lost, as when a program ends in the middle of a call: as after a bring-up that broke. The
 *     first bring-up may be VL53L0X_TIMEOUT where the sensor was measuring continuously.
 *   - An answer VL53L0X_PANIC: an argument, or a number in the sensor's registers, is one that the Rust driver's
 *     arithmetic cannot take, and the same call is answered so again; make it with a smaller period or budget, and
 *     where it has neither, or that is no help, select page 0 by hand and bring up again.
 *
 * And at any time:
 *
 *   - A session does not notice that its sensor was without power. What the bring-up loaded is gone, and a reading is
 *     Done all the same. Bring the sensor up again.
 *   - No call reads the range status. "Out of range" is a number to the driver, as a rule some 8190 mm. A caller has to
 *     know which distances can be.
 *   - A sensor that is never ready is answered VL53L0X_TIMEOUT only after many transfers: a bring-up makes 65,561 where
 *     its first wait never ends, and up to 85,684 with every wait as long as it can be, which is 8.4 s at 400 kHz; a
 *     single reading makes up to 20,008, which is 2 s.
 *
 * How often all this happens and that the recipes help was measured on a simulated sensor: bindings/README.md.
 *
 * Records. The records that a recorder was handed, one after the other from a fresh session on, are a file for the
 * program rolltrace, which prints every transfer and answer of them again.
 */
#ifndef VL53L0X_BUS_H
#define VL53L0X_BUS_H

#include "vl53l0x.h"

#ifdef __cplusplus
extern "C" {
#endif

/*
 * Failure codes of transfers. Those of a bus's own are 1 to 253. A failure code stands in a record and is the value of
 * VL53L0X_BUS_ERROR; it is no number of an outcome, where 254 and 255 are VL53L0X_NOT_PUT and VL53L0X_TRANSFER.
 */
enum {
    VL53L0X_FAILURE_OTHER = 254,     /* the bus returned a number that is no code: below 0 or above 253 */
    VL53L0X_FAILURE_SHORT_READ = 255 /* the bus returned 0, but told another count of bytes than was asked for */
};

/*
 * Makes one transfer: writes `count` bytes to a device and then reads `reads` bytes from it; with 0 it is a write
 * alone. Tells in *got how many bytes were read, which is 0 before. Returns 0, or whatever number the bus's own
 * failures have. Only 0 with as many bytes as were asked for is a good transfer. So a status that is handed through as
 * it is, or a *got that is forgotten, never becomes a distance.
 */
typedef int vl53l0x_transfer(void *context, uint8_t address, const uint8_t *written, size_t count, uint8_t *read,
                             size_t reads, size_t *got);

/* Is handed every record before the session is. It cannot report: a failure of its own it keeps in its context. */
typedef void vl53l0x_recorder(void *context, const uint8_t *record);

struct vl53l0x_bus {
    vl53l0x_transfer *transfer;
    vl53l0x_recorder *recorder; /* or null */
    void *context;              /* handed to both */
};

/* Hands a record to the recorder and then to the session, as vl53l0x_step does. The bus may be null. */
static inline uint8_t vl53l0x_hand_in(uint8_t *session, const struct vl53l0x_bus *bus, const uint8_t *record,
                                      uint8_t *outcome)
{
    if (bus != NULL && bus->recorder != NULL) {
        bus->recorder(bus->context, record);
    }
    return vl53l0x_step(session, VL53L0X_SESSION_SIZE, record, VL53L0X_RECORD_SIZE, outcome, VL53L0X_OUTCOME_SIZE);
}

/* The failure code of a transfer that was to read so many bytes, by what it returned and told; 0 if it is good. */
static inline uint8_t vl53l0x_failure_code(int result, size_t reads, size_t got)
{
    if (result < 0 || result >= VL53L0X_FAILURE_OTHER) {
        return VL53L0X_FAILURE_OTHER;
    }
    if (result == 0 && got != reads) {
        return VL53L0X_FAILURE_SHORT_READ;
    }
    return (uint8_t)result;
}

/* Makes the transfer of an outcome, and the record of its reply. */
static inline void vl53l0x_make_transfer(const struct vl53l0x_bus *bus, const uint8_t *outcome, uint8_t *record)
{
    uint8_t data[VL53L0X_MOST_READ] = {0};
    uint8_t reads = vl53l0x_transfer_reads(outcome);
    size_t got = 0;
    int result = bus->transfer(bus->context, vl53l0x_transfer_address(outcome), vl53l0x_transfer_written(outcome),
                               vl53l0x_transfer_count(outcome), data, reads, &got);
    uint8_t code = vl53l0x_failure_code(result, reads, got);
    if (code == 0) {
        vl53l0x_put_reply_to(record, outcome, data, got);
    } else {
        vl53l0x_put_failure(record, code);
    }
}

/*
 * Hands a record in and makes every transfer up to the answer; the records of the replies are put where it was. The
 * outcome is the answer. Returns its byte 0.
 */
VL53L0X_MUST_CHECK static inline uint8_t vl53l0x_drive(uint8_t *session, const struct vl53l0x_bus *bus, uint8_t *record,
                                                       uint8_t *outcome)
{
    while (vl53l0x_hand_in(session, bus, record, outcome) == VL53L0X_TRANSFER) {
        vl53l0x_make_transfer(bus, outcome, record);
    }
    return outcome[0];
}

/*
 * Takes a waiting call up again, of a session that was put away: makes the transfer that is out, and drives the call to
 * its answer. Where no call waits, the outcome is that of vl53l0x_outstanding and no transfer is made.
 * All 52 bytes have to be those that were put away: with zeros for the last of them, as after a file that was cut
 * short, a reading may be VL53L0X_DONE with 0 mm. A session from a file is made by vl53l0x_session_from_bytes, which
 * refuses another count of bytes.
 */
VL53L0X_MUST_CHECK static inline uint8_t vl53l0x_go_on(uint8_t *session, const struct vl53l0x_bus *bus,
                                                       uint8_t *outcome)
{
    uint8_t record[VL53L0X_RECORD_SIZE];
    if (vl53l0x_outstanding(session, VL53L0X_SESSION_SIZE, outcome, VL53L0X_OUTCOME_SIZE) != VL53L0X_TRANSFER) {
        return outcome[0];
    }
    vl53l0x_make_transfer(bus, outcome, record);
    return vl53l0x_drive(session, bus, record, outcome);
}

/*
 * Ends a waiting call where the bus is gone: every transfer that it still asks for fails with this code, 1 to 253, and
 * the answer is VL53L0X_BUS_ERROR. That is one record, or two where the range read of a reading is out, after which its
 * interrupt is still to be cleared. Of the bus, which may be null, only the recorder is used. Where no call waits, the
 * outcome is that of vl53l0x_outstanding. With code 0 the record is refused (VL53L0X_ILL_FORMED_RECORD), and the call
 * still waits.
 */
static inline uint8_t vl53l0x_abandon(uint8_t *session, const struct vl53l0x_bus *bus, uint8_t code, uint8_t *outcome)
{
    uint8_t record[VL53L0X_RECORD_SIZE];
    vl53l0x_outstanding(session, VL53L0X_SESSION_SIZE, outcome, VL53L0X_OUTCOME_SIZE);
    while (outcome[0] == VL53L0X_TRANSFER) {
        vl53l0x_put_failure(record, code);
        vl53l0x_hand_in(session, bus, record, outcome);
    }
    return outcome[0];
}

/* Internal parts of vl53l0x_with_plain_writes: its transfer function and its recorder. The context is the inner bus. */

static inline int vl53l0x_plain_writes(void *context, uint8_t address, const uint8_t *written, size_t count,
                                       uint8_t *read, size_t reads, size_t *got)
{
    const struct vl53l0x_bus *inner = (const struct vl53l0x_bus *)context;
    if (count == 1 || reads == 0) {
        return inner->transfer(inner->context, address, written, count, read, reads, got);
    }
    size_t none = 0;
    int result = inner->transfer(inner->context, address, written, count, read, 0, &none);
    if (result == 0 && none == 0) {
        memset(read, 0, reads);
        *got = reads;
    }
    return result;
}

static inline void vl53l0x_plain_writes_recorder(void *context, const uint8_t *record)
{
    const struct vl53l0x_bus *inner = (const struct vl53l0x_bus *)context;
    if (inner->recorder != NULL) {
        inner->recorder(inner->context, record);
    }
}

/*
 * A bus that leaves a read out where it belongs to a register write, over an inner bus, which has to last as long. The
 * Rust driver makes each register write, but that of a new address, as a write and a read of one byte, six for the
 * detector map, and does not look at them. Here the write is made alone, and zeros stand for what was not read. The
 * transfers are no longer the Rust driver's; the answers are. Records go to the inner bus's recorder, if it has one.
 */
static inline struct vl53l0x_bus vl53l0x_with_plain_writes(struct vl53l0x_bus *inner)
{
    struct vl53l0x_bus bus = {vl53l0x_plain_writes, vl53l0x_plain_writes_recorder, inner};
    return bus;
}

/*
 * Selects page 0 of a sensor's registers by one write alone, outside every session: only while no call waits on that
 * sensor. Returns 0, or the failure code that vl53l0x_make_transfer would report, 1 to 255, which is no number of an
 * outcome. It is no record, and no recorder sees it.
 */
VL53L0X_MUST_CHECK static inline uint8_t vl53l0x_select_page_0(const struct vl53l0x_bus *bus, uint8_t address)
{
    static const uint8_t page_0[] = {0xFF, 0x00};
    uint8_t nothing[1] = {0};
    size_t got = 0;
    int result = bus->transfer(bus->context, address, page_0, sizeof page_0, nothing, 0, &got);
    return vl53l0x_failure_code(result, 0, got);
}

#ifdef __cplusplus
}
#endif

#endif
