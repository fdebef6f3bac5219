/* The bus of a test: a simulated sensor, records that are kept, and what has come by. */
#ifndef LINE_H
#define LINE_H

#include "check.h"
#include "simulator.h"
#include "vl53l0x_bus.h"

enum { MOST_RECORDS = 400 };

/* The count of bytes that is not told. */
#define UNTOUCHED SIZE_MAX

struct line {
    struct simulator sensor;
    /* Which transfer from now on ends otherwise than it should, 0 for none; what it returns, and what it tells. */
    uint32_t odd_at;
    int odd;
    size_t odd_got;
    /* What has come by. */
    uint32_t transfers, reads_at_writes, records;
    uint8_t record[MOST_RECORDS][VL53L0X_RECORD_SIZE];
    uint8_t written[VL53L0X_MOST_WRITTEN];
    uint8_t address, count, reads;
};

static inline int transfer(void *context, uint8_t address, const uint8_t *written, size_t count, uint8_t *read,
                           size_t reads, size_t *got)
{
    struct line *line = (struct line *)context;
    CHECK(*got == 0);
    line->transfers++;
    line->reads_at_writes += count > 1 && reads > 0;
    line->address = address;
    memcpy(line->written, written, count);
    line->count = (uint8_t)count;
    line->reads = (uint8_t)reads;
    uint8_t code = simulator_transfer(&line->sensor, address, written, count, read, reads);
    bool odd = line->transfers == line->odd_at;
    size_t told = odd ? line->odd_got : code == 0 ? reads : 0;
    if (told != UNTOUCHED) {
        *got = told;
    }
    return odd ? line->odd : code;
}

static inline void recorder(void *context, const uint8_t *record)
{
    struct line *line = (struct line *)context;
    if (line->records < MOST_RECORDS) {
        memcpy(line->record[line->records], record, VL53L0X_RECORD_SIZE);
    }
    line->records++;
}

static inline struct vl53l0x_bus bus_of(struct line *line)
{
    struct vl53l0x_bus bus = {transfer, recorder, NULL};
    bus.context = line;
    line->odd_at = line->transfers = line->reads_at_writes = line->records = 0;
    return bus;
}

#endif
