/*
 * Calls that the Rust driver's arithmetic cannot end, by a number in the sensor's registers or by an argument, and what
 * vl53l0x_bus.h says has to be done then.
 */
#include "state.h"

enum { SENSORS = 20 };

/* Bytes in registers, and the place where the arithmetic ends for them. */
struct numbers {
    uint8_t reg, count, bytes[3], place;
};

static uint8_t make(struct state *state, uint8_t code, uint32_t a)
{
    uint8_t record[VL53L0X_RECORD_SIZE];
    vl53l0x_put_call(record, code, a, 0);
    return drive(state, record);
}

static bool panics(struct state *state, uint8_t code, uint32_t a, uint8_t place)
{
    return make(state, code, a) == VL53L0X_PANIC && vl53l0x_answer_value(state->outcome) == place;
}

/* Whether a single reading is this distance. */
static bool reads(struct state *state, uint16_t distance)
{
    uint32_t range = 0;
    simulator_set_distance(&state->line.sensor, distance);
    return make(state, VL53L0X_READ_RANGE_SINGLE_MILLIMETERS_BLOCKING, 0) == VL53L0X_DONE &&
           vl53l0x_done_value(state->outcome, &range) && range == distance;
}

/* A bring-up, and whether it is Done. */
static bool comes_up(struct state *state)
{
    return make(state, VL53L0X_WITH_ADDRESS, VL53L0X_DEFAULT_ADDRESS) == VL53L0X_DONE;
}

static void bring_up(struct state *state, uint64_t seed)
{
    memset(state, 0, sizeof *state);
    simulator_power_up(&state->line.sensor, seed);
    CHECK(vl53l0x_fresh(state->session, sizeof state->session) == 0);
    CHECK(comes_up(state));
    CHECK(reads(state, 505));
}

/* The call ends at numbers on this page, and again; after page 0 by hand and a bring-up all is as without them. */
static void by_numbers(const struct state *up, const struct numbers *numbers, uint8_t page, uint8_t code)
{
    uint32_t budget = code == VL53L0X_SET_MEASUREMENT_TIMING_BUDGET ? 33000 : 0;
    struct state state = *up, unbroken = *up;
    struct simulator *sensor = &state.line.sensor;
    sensor->page = page;
    memcpy(&sensor->pages[page][numbers->reg], numbers->bytes, numbers->count);
    CHECK(panics(&state, code, budget, numbers->place));
    CHECK(panics(&state, code, budget, numbers->place));
    if (page != 0) {
        CHECK(!comes_up(&state));
    }

    const struct vl53l0x_bus bus = bus_of(&state.line);
    CHECK(vl53l0x_select_page_0(&bus, VL53L0X_DEFAULT_ADDRESS) == 0);
    CHECK(comes_up(&state) && comes_up(&unbroken));
    CHECK(same_session(&state, &unbroken));
    CHECK(make(&state, code, budget) == VL53L0X_DONE && make(&unbroken, code, budget) == VL53L0X_DONE);
    CHECK(same_end(&state, &unbroken));
    CHECK(reads(&state, 100) && reads(&unbroken, 100));
    CHECK(memcmp(sensor->pages[0], unbroken.line.sensor.pages[0], sizeof sensor->pages[0]) == 0);
}

/* The call ends at its own argument, and again; with a smaller one it is Done, and a reading is right. */
static void by_argument(const struct state *up, uint8_t code, uint32_t large, uint32_t small, uint8_t place)
{
    struct state state = *up;
    CHECK(panics(&state, code, large, place));
    CHECK(panics(&state, code, large, place));
    CHECK(make(&state, code, small) == VL53L0X_DONE);
    if (code == VL53L0X_START_CONTINUOUS) {
        CHECK(make(&state, VL53L0X_STOP_CONTINUOUS, 0) == VL53L0X_DONE);
    }
    CHECK(reads(&state, 100));
}

int main(void)
{
    static const struct numbers either_page[] = {{0x51, 1, {0x10}, 2}, {0x71, 1, {0x10}, 2},
                                                 {0x50, 1, {0xFF}, 4}, {0x70, 1, {0xFF}, 4},
                                                 {0x46, 1, {0xFF}, 5}, {0x70, 3, {0x20, 0x0F, 0xFF}, 6}};
    static const struct numbers no_clocks = {0x71, 2, {0x00, 0x00}, 3}, no_period = {0x70, 1, {0x7F}, 8};
    static const uint8_t codes[] = {VL53L0X_SET_MEASUREMENT_TIMING_BUDGET, VL53L0X_GET_MEASUREMENT_TIMING_BUDGET};
    static struct state up;
    for (uint64_t seed = 1; seed <= SENSORS; seed++) {
        bring_up(&up, seed);
        for (size_t k = 0; k < sizeof codes / sizeof *codes; k++) {
            for (size_t i = 0; i < sizeof either_page / sizeof *either_page; i++) {
                by_numbers(&up, &either_page[i], 0, codes[k]);
                by_numbers(&up, &either_page[i], 1, codes[k]);
            }
            by_numbers(&up, &no_clocks, 0, codes[k]);
        }
        by_numbers(&up, &no_period, 0, VL53L0X_SET_MEASUREMENT_TIMING_BUDGET);
        by_argument(&up, VL53L0X_START_CONTINUOUS, UINT32_MAX, 50, 1);
        by_argument(&up, VL53L0X_SET_MEASUREMENT_TIMING_BUDGET, 5000000, 33000, 7);
        by_argument(&up, VL53L0X_SET_MEASUREMENT_TIMING_BUDGET, 2512000, 33000, 9);
    }
    if (failures == 0) {
        printf("after an answer 8 the sensor is right again by what the header says\n");
    }
    return failures != 0;
}
