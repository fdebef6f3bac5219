/* The signal rate limit: the word that the sensor holds is read, and set again as it was read. */
#include "state.h"

/* The register of the word. */
enum { LIMIT = 0x44 };

/* A call that has to be Done, in one transfer. Returns its value. */
static uint32_t done(struct state *state, uint8_t code, uint32_t a)
{
    uint8_t record[VL53L0X_RECORD_SIZE];
    uint32_t value = 0;
    vl53l0x_put_call(record, code, a, 0);
    CHECK(drive(state, record) == VL53L0X_DONE);
    CHECK(vl53l0x_done_value(state->outcome, &value));
    CHECK(vl53l0x_answer_transfers(state->outcome) == 1);
    return value;
}

static float read_limit(struct state *state)
{
    return vl53l0x_float_from_bits(done(state, VL53L0X_GET_SIGNAL_RATE_LIMIT, 0));
}

static void set_limit(struct state *state, float limit)
{
    done(state, VL53L0X_SET_SIGNAL_RATE_LIMIT, vl53l0x_float_bits(limit));
}

/* A bring-up sets 0.25. What is set later is read back, cut to a multiple of 1/128. */
static void read_back(struct state state)
{
    CHECK(read_limit(&state) == 0.25f);
    set_limit(&state, 1.5f);
    CHECK(read_limit(&state) == 1.5f);
    set_limit(&state, 0.3f);
    CHECK(read_limit(&state) == 0.296875f);
}

static void hold(struct state *state, uint16_t word)
{
    state->line.sensor.pages[0][LIMIT] = (uint8_t)(word >> 8);
    state->line.sensor.pages[0][LIMIT + 1] = (uint8_t)word;
}

/* Some words, and the bits of the limits that they are. */
static void bits(struct state state)
{
    static const struct {
        uint16_t word;
        uint32_t bits;
    } limits[] = {
        {0, 0}, {1, 0x3C000000}, {32, 0x3E800000}, {128, 0x3F800000}, {65534, 0x43FFFE00}, {65535, 0x43FFFF00}};
    for (size_t i = 0; i < sizeof limits / sizeof *limits; i++) {
        hold(&state, limits[i].word);
        CHECK(done(&state, VL53L0X_GET_SIGNAL_RATE_LIMIT, 0) == limits[i].bits);
    }
}

/* Each word is read as itself / 128, and written when that is set again. Before, the sensor is given another one. */
static void each_word(struct state state)
{
    for (uint16_t word = 0; word < 65535; word++) {
        hold(&state, word);
        float limit = read_limit(&state);
        CHECK(limit == (float)word / 128.0f);
        hold(&state, (uint16_t)~word);
        set_limit(&state, limit);
        CHECK(simulator_word(&state.line.sensor, LIMIT) == word);
    }
}

/* The greatest word reads as a limit that is too high to be set: no transfer is made. */
static void greatest_word(struct state state)
{
    uint8_t record[VL53L0X_RECORD_SIZE];
    hold(&state, 65535);
    float limit = read_limit(&state);
    CHECK(limit == 511.9921875f);
    vl53l0x_put_call(record, VL53L0X_SET_SIGNAL_RATE_LIMIT, vl53l0x_float_bits(limit), 0);
    CHECK(drive(&state, record) == VL53L0X_FALSE);
    CHECK(vl53l0x_answer_transfers(state.outcome) == 0 && state.line.transfers == 0);
}

int main(void)
{
    static struct state up;
    uint8_t record[VL53L0X_RECORD_SIZE];
    a_call(&up, record, VL53L0X_GET_SIGNAL_RATE_LIMIT);
    read_back(up);
    bits(up);
    each_word(up);
    greatest_word(up);
    if (failures == 0) {
        printf("each limit that the sensor can hold is read, and all but the greatest are set again\n");
    }
    return failures != 0;
}
