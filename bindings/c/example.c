/*
 * Brings up a simulated sensor and reads distances from it, also on a bus that fails. Whatever the driver says is held
 * to what the simulator knows; the program ends with status 1 at the first difference. The argument, if there is one,
 * names a file that every record is written to.
 */
#include "simulator.h"
#include "vl53l0x_bus.h"

#include <stdio.h>
#include <stdlib.h>

/* The failure codes of this example's bus. */
enum { BROKEN = 7, BUS_IS_GONE = 9 };

struct reader {
    uint8_t session[VL53L0X_SESSION_SIZE];
    uint8_t outcome[VL53L0X_OUTCOME_SIZE];
    struct simulator sensor;
    FILE *records; /* or null */
};

static void expect(const char *what, uint32_t found, uint32_t wanted)
{
    if (found != wanted) {
        fprintf(stderr, "%s is %lu and has to be %lu\n", what, (unsigned long)found, (unsigned long)wanted);
        exit(1);
    }
}

static void give_up(const char *what)
{
    perror(what);
    exit(1);
}

/* The two functions of the bus; the context is the reader. */

static int transfer(void *context, uint8_t address, const uint8_t *written, size_t count, uint8_t *read, size_t reads,
                    size_t *got)
{
    struct reader *reader = (struct reader *)context;
    int code = simulator_transfer(&reader->sensor, address, written, count, read, reads);
    if (code == 0) {
        *got = reads;
    }
    return code;
}

static void record_in_file(void *context, const uint8_t *record)
{
    struct reader *reader = (struct reader *)context;
    if (reader->records != NULL && fwrite(record, VL53L0X_RECORD_SIZE, 1, reader->records) != 1) {
        give_up("the file of records");
    }
}

static struct vl53l0x_bus bus_of(struct reader *reader)
{
    struct vl53l0x_bus bus = {transfer, record_in_file, NULL};
    bus.context = reader;
    return bus;
}

static uint32_t transfers(const struct reader *reader)
{
    return vl53l0x_answer_transfers(reader->outcome);
}

static uint32_t value(const struct reader *reader)
{
    return vl53l0x_answer_value(reader->outcome);
}

/* Runs the call of a record on a bus. It has to make as many transfers as the simulator sees. */
static uint8_t drive_on(struct reader *reader, const struct vl53l0x_bus *bus, uint8_t *record)
{
    uint32_t before = reader->sensor.transfers;
    uint8_t answer = vl53l0x_drive(reader->session, bus, record, reader->outcome);
    expect("the count of transfers", transfers(reader), reader->sensor.transfers - before);
    return answer;
}

static uint8_t drive(struct reader *reader, uint8_t *record)
{
    struct vl53l0x_bus bus = bus_of(reader);
    return drive_on(reader, &bus, record);
}

static uint8_t drive_call(struct reader *reader, uint8_t code, uint32_t a)
{
    uint8_t record[VL53L0X_RECORD_SIZE];
    vl53l0x_put_call(record, code, a, 0);
    return drive(reader, record);
}

/* Runs one call that has to be answered so. Returns its value. */
static uint32_t call(struct reader *reader, uint8_t answer, uint8_t code, uint32_t a)
{
    expect("the answer", drive_call(reader, code, a), answer);
    return value(reader);
}

/* The distance of a reading, which has to be Done. */
static uint32_t range(const struct reader *reader)
{
    uint32_t distance = 0;
    expect("whether there is a distance", (uint32_t)vl53l0x_done_value(reader->outcome, &distance), 1);
    return distance;
}

/* One single reading, which has to be this distance. */
static void expect_reading(struct reader *reader, uint16_t distance)
{
    drive_call(reader, VL53L0X_READ_RANGE_SINGLE_MILLIMETERS_BLOCKING, 0);
    expect("the single reading", range(reader), distance);
}

static uint8_t bring_up(struct reader *reader)
{
    uint8_t record[VL53L0X_RECORD_SIZE];
    vl53l0x_put_new(record);
    return drive(reader, record);
}

/* A bring-up that breaks on page 1 leaves the sensor there, where the next one finds no identity. */
static void bring_up_after_failure(struct reader *reader)
{
    const uint8_t *session = reader->session;
    const struct vl53l0x_bus bus = bus_of(reader);

    expect("what vl53l0x_fresh returns", vl53l0x_fresh(reader->session, sizeof reader->session), 0);
    simulator_fail_after(&reader->sensor, 7, BROKEN);
    expect("the answer", bring_up(reader), VL53L0X_BUS_ERROR);
    expect("the failure code", value(reader), BROKEN);
    expect("the transfer that broke", transfers(reader), 8);
    expect("up", vl53l0x_session_up(session), 0);
    printf("bring-up: the bus failed with code %lu at transfer %lu\n", (unsigned long)value(reader),
           (unsigned long)transfers(reader));

    expect("the answer", bring_up(reader), VL53L0X_INVALID_DEVICE);
    expect("the page", reader->sensor.page, 1);
    expect("the identity", value(reader), reader->sensor.pages[1][0xC0]);
    printf("bring-up again: identity 0x%02X is not 0xEE, for the sensor is still on page 1\n", (unsigned)value(reader));

    expect("the bus's result", vl53l0x_select_page_0(&bus, VL53L0X_DEFAULT_ADDRESS), 0);
    expect("the page", reader->sensor.page, 0);
    printf("page 0 selected by hand\n");

    expect("the answer", bring_up(reader), VL53L0X_DONE);
    expect("up", vl53l0x_session_up(session), 1);
    expect("the address", vl53l0x_session_address(session), reader->sensor.address);
    expect("the stop byte", vl53l0x_session_stop(session), reader->sensor.stop);
    printf("brought up at 0x%02X after %lu transfers: stop byte 0x%02X, timing budget %lu microseconds\n",
           vl53l0x_session_address(session), (unsigned long)transfers(reader), vl53l0x_session_stop(session),
           (unsigned long)vl53l0x_session_budget(session));
}

/* With the timeouts that bring-up loads, a budget of 33,000 microseconds leaves 0x0292 for the final range. */
static void set_budget(struct reader *reader)
{
    call(reader, VL53L0X_DONE, VL53L0X_SET_MEASUREMENT_TIMING_BUDGET, 33000);
    expect("the final range word", simulator_word(&reader->sensor, 0x71), 0x0292);
    expect("the budget", vl53l0x_session_budget(reader->session), 33000);
    printf("timing budget set to 33000 microseconds after %lu transfers\n", (unsigned long)transfers(reader));
}

static void read_single(struct reader *reader, uint16_t distance)
{
    simulator_set_distance(&reader->sensor, distance);
    expect_reading(reader, distance);
    printf("single reading: %lu mm after %lu transfers\n", (unsigned long)range(reader),
           (unsigned long)transfers(reader));
}

static void read_continuous(struct reader *reader, uint16_t distance)
{
    simulator_set_distance(&reader->sensor, distance);
    drive_call(reader, VL53L0X_READ_RANGE_CONTINUOUS_MILLIMETERS_BLOCKING, 0);
    expect("the continuous reading", range(reader), distance);
    printf("continuous reading: %lu mm after %lu transfers\n", (unsigned long)range(reader),
           (unsigned long)transfers(reader));
}

/*
 * The sensor measures this distance, and the bus breaks the transfer that would clear the interrupt, the last but one
 * of the reading. How many there are is found out on a copy.
 */
static void break_at_clearing(struct reader *reader, uint16_t distance)
{
    simulator_set_distance(&reader->sensor, distance);
    struct reader copy = *reader;
    copy.records = NULL;
    expect_reading(&copy, distance);

    simulator_fail_after(&reader->sensor, transfers(&copy) - 2, BROKEN);
    uint32_t code = call(reader, VL53L0X_BUS_ERROR, VL53L0X_READ_RANGE_SINGLE_MILLIMETERS_BLOCKING, 0);
    expect("the failure code", code, BROKEN);
    expect("the transfer that broke", transfers(reader), transfers(&copy) - 1);
    expect("a pending interrupt", reader->sensor.ready, 1);
    expect("up", vl53l0x_session_up(reader->session), 1);
}

/* Runs one call without arguments; false if the bus broke it. */
static bool is_done(struct reader *reader, uint8_t code)
{
    uint8_t answer = drive_call(reader, code, 0);
    if (answer == VL53L0X_BUS_ERROR) {
        expect("the failure code", value(reader), reader->sensor.last_failure);
        return false;
    }
    expect("the answer", answer, VL53L0X_DONE);
    return true;
}

/* Longer than a measurement takes. On a machine this waits, for twice the timing budget, say. */
static void pause_for_measurement(struct reader *reader)
{
    simulator_pass_time(&reader->sensor);
}

/*
 * What vl53l0x_bus.h says has to be done after a single reading that broke. False if one of the steps broke too; then
 * it is begun again. Tells the value that is thrown away.
 */
static bool recover(struct reader *reader, uint32_t *thrown_away)
{
    const struct vl53l0x_bus bus = bus_of(reader);
    uint8_t code = vl53l0x_select_page_0(&bus, vl53l0x_session_address(reader->session));
    if (code != 0) {
        expect("the failure code", code, reader->sensor.last_failure);
        return false;
    }
    if (!is_done(reader, VL53L0X_READ_RANGE_SINGLE_MILLIMETERS_BLOCKING)) {
        return false;
    }
    *thrown_away = range(reader);
    pause_for_measurement(reader);
    return is_done(reader, VL53L0X_CLEAR_INTERRUPT_STATUS);
}

/* The readings after one that broke may be old ones, each of them one behind. After `recover` they are not. */
static void read_after_failure(struct reader *reader)
{
    struct simulator *sensor = &reader->sensor;
    uint32_t thrown_away;

    break_at_clearing(reader, 900);
    printf("single reading at 900 mm: the bus failed with code %lu at transfer %lu, where the interrupt is cleared\n",
           (unsigned long)value(reader), (unsigned long)transfers(reader));
    simulator_pass_time(sensor);
    simulator_set_distance(sensor, 100);
    expect_reading(reader, 900);
    printf("the roll moves to 100 mm; the same call again: %lu mm, which is the old reading\n",
           (unsigned long)range(reader));
    simulator_pass_time(sensor);
    expect("what was measured meanwhile", simulator_word(sensor, 0x1E), 100);
    simulator_set_distance(sensor, 200);
    expect_reading(reader, 100);
    printf("a while later the roll moves to 200 mm; one more: %lu mm, one behind: throwing one away is not enough\n",
           (unsigned long)range(reader));
    expect("recovered", recover(reader, &thrown_away), true);

    break_at_clearing(reader, 900);
    simulator_pass_time(sensor);
    simulator_set_distance(sensor, 200);
    expect("recovered", recover(reader, &thrown_away), true);
    expect("the reading that is thrown away", thrown_away, 900);
    simulator_pass_time(sensor);
    simulator_set_distance(sensor, 100);
    expect_reading(reader, 100);
    printf("the same again, but recovered first (page 0 by hand, one reading thrown away: %lu mm, a pause, "
           "the interrupt cleared), then: %lu mm\n",
           (unsigned long)thrown_away, (unsigned long)range(reader));
}

/* A bus that breaks any transfer now and then. While a reading is recovered the roll is at 900 mm. */
static void read_on_noisy_bus(struct reader *reader)
{
    struct simulator *sensor = &reader->sensor;
    uint32_t broken = 0, thrown_away;
    simulator_fail_one_in(sensor, 100);
    for (uint16_t distance = 100; distance < 150; distance++) {
        simulator_set_distance(sensor, distance);
        while (!is_done(reader, VL53L0X_READ_RANGE_SINGLE_MILLIMETERS_BLOCKING)) {
            broken++;
            simulator_pass_time(sensor);
            simulator_set_distance(sensor, 900);
            while (!recover(reader, &thrown_away)) {
            }
            simulator_pass_time(sensor);
            simulator_set_distance(sensor, distance);
        }
        expect("the single reading", range(reader), distance);
        simulator_pass_time(sensor);
    }
    simulator_fail_one_in(sensor, 0);
    printf("one transfer in 100 fails: 50 single readings are right, "
           "with a recovery after each of the %lu that broke\n",
           (unsigned long)broken);
}

/* The first transfer of a reading is out and cannot be made. */
static void abandon_reading(struct reader *reader)
{
    const struct vl53l0x_bus bus = bus_of(reader);
    uint8_t record[VL53L0X_RECORD_SIZE];
    vl53l0x_put_call(record, VL53L0X_READ_RANGE_SINGLE_MILLIMETERS_BLOCKING, 0, 0);
    expect("the outcome", vl53l0x_hand_in(reader->session, &bus, record, reader->outcome), VL53L0X_TRANSFER);
    expect("the answer", vl53l0x_abandon(reader->session, &bus, BUS_IS_GONE, reader->outcome), VL53L0X_BUS_ERROR);
    expect("the failure code", value(reader), BUS_IS_GONE);
    expect("the count of transfers", transfers(reader), 1);
    expect("the call that waits", vl53l0x_session_code(reader->session), 0);
    printf("the bus is gone: the call that waits is given up with code %lu after %lu transfer\n",
           (unsigned long)value(reader), (unsigned long)transfers(reader));
}

static void read_with_plain_writes(struct reader *reader, uint16_t distance)
{
    struct vl53l0x_bus inner = bus_of(reader);
    const struct vl53l0x_bus plain = vl53l0x_with_plain_writes(&inner);
    uint8_t record[VL53L0X_RECORD_SIZE];

    simulator_set_distance(&reader->sensor, distance);
    vl53l0x_put_call(record, VL53L0X_READ_RANGE_SINGLE_MILLIMETERS_BLOCKING, 0, 0);
    expect("the answer", drive_on(reader, &plain, record), VL53L0X_DONE);
    expect("the single reading", range(reader), distance);
    printf("with plain writes: single reading %lu mm after %lu transfers\n", (unsigned long)range(reader),
           (unsigned long)transfers(reader));
}

static void read_continuously(struct reader *reader)
{
    call(reader, VL53L0X_DONE, VL53L0X_START_CONTINUOUS, 50);
    printf("continuous readings, one in 50 ms: started\n");
    read_continuous(reader, 88);
    read_continuous(reader, 89);
    read_continuous(reader, 640);
    call(reader, VL53L0X_DONE, VL53L0X_STOP_CONTINUOUS, 0);
    printf("continuous readings: stopped\n");
}

int main(int argc, char **argv)
{
    static struct reader reader;
    if (argc > 2) {
        fprintf(stderr, "usage: example [FILE FOR RECORDS]\n");
        return 2;
    }
    if (argc == 2 && (reader.records = fopen(argv[1], "wb")) == NULL) {
        give_up(argv[1]);
    }
    simulator_power_up(&reader.sensor, 1);

    bring_up_after_failure(&reader);
    set_budget(&reader);
    read_single(&reader, 505);
    read_single(&reader, 1207);
    read_after_failure(&reader);
    read_on_noisy_bus(&reader);
    abandon_reading(&reader);
    read_with_plain_writes(&reader, 640);
    read_continuously(&reader);
    printf("%lu transfers in all; every distance is the simulator's\n", (unsigned long)reader.sensor.transfers);

    if (fclose(stdout) != 0) {
        give_up("standard output");
    }
    if (reader.records != NULL && fclose(reader.records) != 0) {
        give_up(argv[1]);
    }
    return 0;
}
