/*
 * A single reading breaks at each of its transfers, in both ways; then comes the recipe of vl53l0x_bus.h. The trap that
 * the recipe is for has to be met, and each of its steps has to be needed.
 */
#include "check.h"
#include "line.h"

enum { CODE = 7, SENSORS = 20 };

/* The roll before the failure, while the recipe is followed, and when it is read again, in millimetres. */
enum { BEFORE = 900, MEANWHILE = 500, AFTER = 100 };

/* The steps of the recipe. */
enum { PAGE_0 = 1, THROWN_AWAY = 2, PAUSE = 4, CLEARED = 8, RECIPE = PAGE_0 | THROWN_AWAY | PAUSE | CLEARED };

struct state {
    uint8_t session[VL53L0X_SESSION_SIZE];
    uint8_t outcome[VL53L0X_OUTCOME_SIZE];
    struct line line;
};

static uint8_t drive(struct state *state, uint8_t *record)
{
    const struct vl53l0x_bus bus = bus_of(&state->line);
    return vl53l0x_drive(state->session, &bus, record, state->outcome);
}

static uint8_t call(struct state *state, uint8_t code)
{
    uint8_t record[VL53L0X_RECORD_SIZE];
    vl53l0x_put_call(record, code, 0, 0);
    return drive(state, record);
}

static uint8_t read_single(struct state *state)
{
    return call(state, VL53L0X_READ_RANGE_SINGLE_MILLIMETERS_BLOCKING);
}

/* Whether a single reading is Done with this distance. */
static bool reads(struct state *state, uint32_t distance)
{
    return read_single(state) == VL53L0X_DONE && vl53l0x_answer_value(state->outcome) == distance;
}

/* A sensor that has been read once. */
static void bring_up(struct state *state, uint64_t seed)
{
    uint8_t record[VL53L0X_RECORD_SIZE];
    memset(state, 0, sizeof *state);
    simulator_power_up(&state->line.sensor, seed);
    CHECK(vl53l0x_fresh(state->session, sizeof state->session) == 0);
    vl53l0x_put_new(record);
    CHECK(drive(state, record) == VL53L0X_DONE);
    simulator_set_distance(&state->line.sensor, BEFORE);
    CHECK(reads(state, BEFORE));
}

/* These steps of the recipe. Each that is made has to be Done. */
static void recover(struct state *state, unsigned steps)
{
    simulator_set_distance(&state->line.sensor, MEANWHILE);
    if (steps & PAGE_0) {
        const struct vl53l0x_bus bus = bus_of(&state->line);
        CHECK(vl53l0x_select_page_0(&bus, vl53l0x_session_address(state->session)) == 0);
    }
    if (steps & THROWN_AWAY) {
        CHECK(read_single(state) == VL53L0X_DONE);
    }
    if (steps & PAUSE) {
        simulator_pass_time(&state->line.sensor);
    }
    if (steps & CLEARED) {
        CHECK(call(state, VL53L0X_CLEAR_INTERRUPT_STATUS) == VL53L0X_DONE);
    }
}

/* Whether all registers are the same, but for the word of the range. */
static bool same_registers(const struct simulator *one, struct simulator other)
{
    memcpy(&other.pages[0][0x1E], &one->pages[0][0x1E], 2);
    return one->page == other.page && memcmp(one->pages, other.pages, sizeof other.pages) == 0;
}

/* How many readings broke; after how many of them the next one was old, and then the one after that. */
static uint32_t broken, old, behind;

/* At how many places the two kinds of failure leave the sensor in different states. */
static uint32_t kinds_differ;

/* After how many, and these steps, all registers were right, and the next two readings. */
static uint32_t registers[RECIPE + 1], readings[RECIPE + 1];

static void follow(struct state state, unsigned steps, const struct simulator *unbroken)
{
    struct simulator *sensor = &state.line.sensor;
    bool right = true;
    recover(&state, steps);
    registers[steps] += same_registers(sensor, *unbroken);
    for (uint16_t distance = AFTER; distance < AFTER + 2; distance++) {
        simulator_pass_time(sensor);
        simulator_set_distance(sensor, distance);
        right = reads(&state, distance) && right;
    }
    readings[steps] += right;
}

static void after_failure(const struct state *state, const struct simulator *unbroken)
{
    struct state again = *state;
    simulator_set_distance(&again.line.sensor, MEANWHILE);
    if (reads(&again, BEFORE)) {
        old++;
        simulator_pass_time(&again.line.sensor);
        simulator_set_distance(&again.line.sensor, AFTER);
        behind += reads(&again, MEANWHILE);
    }
    broken++;
    for (unsigned steps = 0; steps <= RECIPE; steps++) {
        follow(*state, steps, unbroken);
    }
}

/* A single reading breaks at each of its transfers, in both ways; what comes after it comes at once and later. */
static void break_readings(uint64_t seed)
{
    static const enum simulator_failure kinds[] = {SIMULATOR_NOT_MADE, SIMULATOR_REPLY_LOST};
    static struct state up, unbroken, state[2];
    bring_up(&up, seed);
    unbroken = up;
    CHECK(reads(&unbroken, BEFORE));
    uint32_t transfers = vl53l0x_answer_transfers(unbroken.outcome);
    for (uint32_t good = 0; good < transfers; good++) {
        for (int kind = 0; kind < 2; kind++) {
            struct simulator *sensor = &state[kind].line.sensor;
            state[kind] = up;
            simulator_break_after(sensor, good, kinds[kind], CODE);
            CHECK(read_single(&state[kind]) == VL53L0X_BUS_ERROR);
            CHECK(vl53l0x_answer_value(state[kind].outcome) == CODE);
            after_failure(&state[kind], &unbroken.line.sensor);
            simulator_pass_time(sensor);
            after_failure(&state[kind], &unbroken.line.sensor);
        }
        kinds_differ += !same_registers(&state[0].line.sensor, state[1].line.sensor);
    }
}

int main(void)
{
    static const struct {
        unsigned without;
        const char *name;
    } recipes[] = {{0, "the recipe"},
                   {PAGE_0, "the same without page 0 by hand"},
                   {THROWN_AWAY, "the same without the reading thrown away"},
                   {PAUSE, "the same without the pause"},
                   {CLEARED, "the same without the interrupt cleared"}};
    for (uint64_t seed = 1; seed <= SENSORS; seed++) {
        break_readings(seed);
    }
    CHECK(kinds_differ > 0);
    CHECK(old > 0 && behind > 0);
    printf("of %lu single readings that broke %lu were followed by an old one, and %lu of these by one more\n",
           (unsigned long)broken, (unsigned long)old, (unsigned long)behind);
    for (size_t i = 0; i < sizeof recipes / sizeof *recipes; i++) {
        unsigned steps = RECIPE & ~recipes[i].without;
        bool all_right = registers[steps] == broken && readings[steps] == broken;
        CHECK(all_right == (steps == RECIPE));
        printf("    registers right %lu, readings right %lu: %s\n", (unsigned long)registers[steps],
               (unsigned long)readings[steps], recipes[i].name);
    }
    return failures != 0;
}
