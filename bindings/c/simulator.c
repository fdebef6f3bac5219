#include "simulator.h"

#include <string.h>

/* Pseudo-random numbers (xorshift64*): one below a limit. */
static uint32_t below(struct simulator *sensor, uint32_t limit)
{
    uint64_t x = sensor->random;
    x ^= x >> 12;
    x ^= x << 25;
    x ^= x >> 27;
    sensor->random = x;
    return (uint32_t)((x * UINT64_C(0x2545F4914F6CDD1D)) >> 32) % limit;
}

static uint8_t any_byte(struct simulator *sensor)
{
    return (uint8_t)below(sensor, 256);
}

/* Registers whose content differs from sensor to sensor: page and register. */
static const uint8_t FACTORY[][2] = {{0, 0x60}, {0, 0x84}, {0, 0x89}, {0, 0xB0}, {0, 0xB1}, {0, 0xB2}, {0, 0xB3},
                                     {0, 0xB4}, {0, 0xB5}, {0, 0xF8}, {0, 0xF9}, {1, 0x91}, {6, 0x83}, {7, 0x92}};

/* Registers that all sensors start with: the identity and the budget. */
static const uint8_t POWER_UP[][2] = {{0xC0, 0xEE}, {0xC1, 0xAA}, {0xC2, 0x10}, {0x01, 0xFF},
                                      {0x46, 0x25}, {0x50, 0x06}, {0x51, 0x00}, {0x52, 0x96},
                                      {0x70, 0x04}, {0x71, 0x01}, {0x72, 0xFE}};

void simulator_power_up(struct simulator *sensor, uint64_t seed)
{
    memset(sensor, 0, sizeof *sensor);
    /* The generator must not start at 0. */
    sensor->random = (seed * 2 + 1) * UINT64_C(0x9E3779B97F4A7C15);
    for (size_t i = 0; i < sizeof FACTORY / sizeof *FACTORY; i++) {
        sensor->pages[FACTORY[i][0]][FACTORY[i][1]] = any_byte(sensor);
    }
    for (size_t i = 0; i < sizeof POWER_UP / sizeof *POWER_UP; i++) {
        sensor->pages[0][POWER_UP[i][0]] = POWER_UP[i][1];
    }
    sensor->address = 0x29;
    sensor->stop = sensor->pages[1][0x91];
    sensor->longest_wait = 20;
}

void simulator_set_distance(struct simulator *sensor, uint16_t millimetres)
{
    sensor->distance = millimetres;
}

void simulator_fail_after(struct simulator *sensor, uint32_t good_transfers, uint8_t code)
{
    simulator_break_after(sensor, good_transfers, SIMULATOR_NOT_MADE, code);
}

void simulator_break_after(struct simulator *sensor, uint32_t good_transfers, enum simulator_failure failure,
                           uint8_t code)
{
    sensor->good_transfers = good_transfers;
    sensor->failure = failure;
    sensor->failure_code = code;
}

void simulator_fail_one_in(struct simulator *sensor, uint32_t transfers)
{
    sensor->fails_one_in = transfers;
}

uint16_t simulator_word(const struct simulator *sensor, uint8_t reg)
{
    return (uint16_t)(sensor->pages[0][reg] << 8 | sensor->pages[0][(uint8_t)(reg + 1)]);
}

static uint32_t wait_length(struct simulator *sensor)
{
    return below(sensor, sensor->longest_wait + 1);
}

/* A sensor measures only after it was given its stop byte back; it calibrates without. */
static void begin_measurement(struct simulator *sensor)
{
    bool calibrates = sensor->pages[0][0x01] < 0x04;
    if (calibrates || sensor->pages[1][0x91] == sensor->stop) {
        sensor->measuring = true;
        sensor->status_idle = wait_length(sensor);
    }
}

static void start(struct simulator *sensor, uint8_t mode)
{
    if (mode & 0x01 && sensor->continuous) {
        sensor->continuous = false;
        sensor->measuring = false;
    } else if (mode & 0x01) {
        sensor->start_idle = wait_length(sensor);
        begin_measurement(sensor);
    } else if (mode & 0x06) {
        sensor->continuous = true;
        begin_measurement(sensor);
    }
}

static void clear_interrupt(struct simulator *sensor)
{
    sensor->ready = false;
    if (sensor->continuous && !sensor->measuring) {
        begin_measurement(sensor);
    }
}

static void end_measurement(struct simulator *sensor)
{
    sensor->measuring = false;
    sensor->ready = true;
    sensor->pages[0][0x1E] = (uint8_t)(sensor->distance >> 8);
    sensor->pages[0][0x1F] = (uint8_t)sensor->distance;
}

void simulator_pass_time(struct simulator *sensor)
{
    if (sensor->measuring) {
        end_measurement(sensor);
    }
}

static void write_register(struct simulator *sensor, uint8_t reg, uint8_t byte)
{
    if (reg == 0xFF) {
        sensor->page = byte & 7;
        return;
    }
    sensor->pages[sensor->page][reg] = byte;
    if (sensor->page == 0 && reg == 0x00) {
        start(sensor, byte);
    } else if (sensor->page == 0 && reg == 0x0B && byte & 0x01) {
        clear_interrupt(sensor);
    } else if (sensor->page == 0 && reg == 0x8A) {
        sensor->address = byte & 0x7F;
    } else if (sensor->page == 7 && reg == 0x83 && byte == 0x00) {
        sensor->detector_idle = wait_length(sensor);
    }
}

/* Counts a read of a wait; true while it is in vain. */
static bool is_idle(uint32_t *idle)
{
    if (*idle == 0) {
        return false;
    }
    --*idle;
    return true;
}

static uint8_t interrupt_status(struct simulator *sensor)
{
    if (sensor->measuring && !is_idle(&sensor->status_idle)) {
        end_measurement(sensor);
    }
    return sensor->ready ? 0x44 : 0x40;
}

static uint8_t read_register(struct simulator *sensor, uint8_t reg)
{
    uint8_t byte = sensor->pages[sensor->page][reg];
    if (sensor->page == 0 && reg == 0x00) {
        return is_idle(&sensor->start_idle) ? byte | 0x01 : byte & 0xFE;
    }
    if (sensor->page == 0 && reg == 0x13) {
        return interrupt_status(sensor);
    }
    if (sensor->page == 1 && reg == 0x91) {
        return sensor->stop;
    }
    if (sensor->page == 7 && reg == 0x83) {
        return is_idle(&sensor->detector_idle) ? 0x00 : 0x10;
    }
    return byte;
}

/* The failure code of this transfer, or 0; whether the sensor sees it. */
static uint8_t failure(struct simulator *sensor, uint8_t address, bool *made)
{
    *made = false;
    if (sensor->failure_code != 0) {
        if (sensor->good_transfers == 0) {
            uint8_t code = sensor->failure_code;
            sensor->failure_code = 0;
            *made = sensor->failure == SIMULATOR_REPLY_LOST;
            return code;
        }
        sensor->good_transfers--;
    }
    if (sensor->fails_one_in != 0 && below(sensor, sensor->fails_one_in) == 0) {
        /* The simulator in Rust draws codes up to 255 from the same numbers; a bus in C has none above 253. */
        uint8_t code = (uint8_t)(1 + below(sensor, 255));
        if (code > SIMULATOR_LAST_CODE) {
            return SIMULATOR_LAST_CODE;
        }
        return code;
    }
    *made = address == sensor->address;
    return *made ? 0 : SIMULATOR_NOBODY_ANSWERS;
}

/* The first byte names a register; each byte after it, written or read, goes to the next one. */
static void make(struct simulator *sensor, const uint8_t *written, size_t count, uint8_t *read, size_t reads)
{
    uint8_t reg = written[0];
    for (size_t i = 1; i < count; i++) {
        write_register(sensor, reg++, written[i]);
    }
    for (size_t i = 0; i < reads; i++) {
        read[i] = read_register(sensor, reg++);
    }
}

uint8_t simulator_transfer(struct simulator *sensor, uint8_t address, const uint8_t *written, size_t count,
                           uint8_t *read, size_t reads)
{
    bool made;
    sensor->transfers++;
    uint8_t code = failure(sensor, address, &made);
    if (made) {
        make(sensor, written, count, read, reads);
    }
    if (code != 0) {
        sensor->last_failure = code;
    }
    return code;
}
