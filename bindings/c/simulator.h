/* A simulated sensor on a simulated bus, for the example and the tests: registers, waits and failures. */
#ifndef SIMULATOR_H
#define SIMULATOR_H

#include <stdbool.h>
#include <stddef.h>
#include <stdint.h>

/* The failure code of a transfer to an address that no device has. */
enum { SIMULATOR_NOBODY_ANSWERS = 4 };

/* The failure codes are 1 to this one, which are those that a bus may have of its own. */
enum { SIMULATOR_LAST_CODE = 253 };

/* How much of a transfer that fails is made: nothing, or all of it, but the reply does not arrive. */
enum simulator_failure { SIMULATOR_NOT_MADE, SIMULATOR_REPLY_LOST };

struct simulator {
    uint64_t random;
    /* A page of registers for each value that the driver gives to register 0xFF. */
    uint8_t pages[8][256];
    uint8_t page;
    uint8_t address;
    uint8_t stop;
    uint16_t distance;
    /* How many reads of each wait are still in vain. */
    uint32_t detector_idle, start_idle, status_idle;
    uint32_t longest_wait;
    bool measuring, ready, continuous;
    /* So many transfers succeed before one fails so and with this code; none fails while the code is 0. */
    uint32_t good_transfers;
    enum simulator_failure failure;
    uint8_t failure_code;
    /* One transfer in so many fails with a random code; 0 for none. */
    uint32_t fails_one_in;
    uint8_t last_failure;
    uint32_t transfers;
};

/* A sensor as it is after power-up, at address 0x29. The seed decides what the factory left in it. */
void simulator_power_up(struct simulator *sensor, uint64_t seed);

/* What the sensor measures from now on, in millimetres. */
void simulator_set_distance(struct simulator *sensor, uint16_t millimetres);

/* So many transfers succeed, and the one after them is not made and fails with this code. */
void simulator_fail_after(struct simulator *sensor, uint32_t good_transfers, uint8_t code);

/* As simulator_fail_after, with either kind of failure. */
void simulator_break_after(struct simulator *sensor, uint32_t good_transfers, enum simulator_failure failure,
                           uint8_t code);

/* A while passes: a measurement that is under way ends. */
void simulator_pass_time(struct simulator *sensor);

/* From now on one transfer in so many fails, with a random code; none with 0. */
void simulator_fail_one_in(struct simulator *sensor, uint32_t transfers);

/* The word in two registers of page 0, high byte first. */
uint16_t simulator_word(const struct simulator *sensor, uint8_t reg);

/* One transfer on the bus. Returns 0, or the failure code. */
uint8_t simulator_transfer(struct simulator *sensor, uint8_t address, const uint8_t *written, size_t count,
                           uint8_t *read, size_t reads);

#endif
