/* The least that a program needs: a sensor is brought up, and one distance is read. The bus is a simulated one. */
#include "simulator.h"
#include "vl53l0x_bus.h"

#include <stdio.h>

/* Returns 0 or a failure code; tells how many bytes it has read. On a real bus this is all that is to be written. */
static int transfer(void *context, uint8_t address, const uint8_t *written, size_t count, uint8_t *read, size_t reads,
                    size_t *got)
{
    int code = simulator_transfer((struct simulator *)context, address, written, count, read, reads);
    if (code == 0) {
        *got = reads;
    }
    return code;
}

int main(void)
{
    static struct simulator sensor;
    const struct vl53l0x_bus bus = {transfer, NULL, &sensor};
    uint8_t session[VL53L0X_SESSION_SIZE], record[VL53L0X_RECORD_SIZE], outcome[VL53L0X_OUTCOME_SIZE];
    uint32_t range;
    simulator_power_up(&sensor, 1);
    simulator_set_distance(&sensor, 505);

    vl53l0x_fresh(session, sizeof session);
    vl53l0x_put_new(record);
    if (vl53l0x_drive(session, &bus, record, outcome) == VL53L0X_DONE) {
        vl53l0x_put_call(record, VL53L0X_READ_RANGE_SINGLE_MILLIMETERS_BLOCKING, 0, 0);
        if (vl53l0x_drive(session, &bus, record, outcome) == VL53L0X_DONE && vl53l0x_done_value(outcome, &range)) {
            printf("%lu mm\n", (unsigned long)range);
            if (fclose(stdout) != 0) {
                perror("standard output");
                return 1;
            }
            return 0;
        }
    }
    fprintf(stderr, "%s, value %lu\n", vl53l0x_answer_text(outcome[0]), (unsigned long)vl53l0x_answer_value(outcome));
    return 1;
}
