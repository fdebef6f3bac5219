/* Calls on a bus: driven, taken up again and given up at each of their transfers, recorded, and with plain writes. */
#include "state.h"

static uint8_t go_on(struct state *state)
{
    const struct vl53l0x_bus bus = bus_of(&state->line);
    return vl53l0x_go_on(state->session, &bus, state->outcome);
}

/* A session that is put away and taken up again comes to the same end. */
static void taken_up(const struct state *waiting, const struct state *end)
{
    struct state again = *waiting;
    CHECK(go_on(&again) == VL53L0X_DONE);
    CHECK(same_end(&again, end));
    CHECK(again.line.records == again.line.transfers);
}

/* A call that is given up ends at once, in one record or, at the range read, in two. No transfer is made. */
static void given_up(const struct state *waiting, uint32_t *in_two)
{
    uint32_t records = range_is_read(waiting) ? 2 : 1;
    for (int code = 1; code <= 255; code++) {
        uint8_t failure[VL53L0X_RECORD_SIZE] = {2};
        struct state with_bus = *waiting, without = *waiting;
        const struct vl53l0x_bus bus = bus_of(&with_bus.line);
        failure[1] = (uint8_t)code;

        CHECK(vl53l0x_abandon(with_bus.session, &bus, (uint8_t)code, with_bus.outcome) == VL53L0X_BUS_ERROR);
        CHECK(vl53l0x_answer_value(with_bus.outcome) == (uint32_t)code);
        CHECK(vl53l0x_answer_transfers(with_bus.outcome) == vl53l0x_session_transfers(waiting->session) + records - 1);
        CHECK(at_rest(&with_bus));
        CHECK(with_bus.line.transfers == 0 && with_bus.line.records == records);
        for (uint32_t i = 0; i < records; i++) {
            CHECK(memcmp(with_bus.line.record[i], failure, sizeof failure) == 0);
        }
        CHECK(vl53l0x_abandon(without.session, NULL, (uint8_t)code, without.outcome) == VL53L0X_BUS_ERROR);
        CHECK(same_end(&without, &with_bus));
    }
    *in_two += records == 2;

    struct state kept = *waiting;
    CHECK(vl53l0x_abandon(kept.session, NULL, 0, kept.outcome) == VL53L0X_ILL_FORMED_RECORD);
    CHECK(same_session(&kept, waiting));
}

/* The end of a call as drive makes it, with its records. */
static void driven(const struct state *start, const uint8_t *call, struct state *end)
{
    *end = *start;
    CHECK(drive(end, call) == VL53L0X_DONE);
    CHECK(at_rest(end));
    CHECK(vl53l0x_answer_transfers(end->outcome) == end->line.transfers);
    CHECK(end->line.records == 1 + end->line.transfers && end->line.records <= MOST_RECORDS);
    CHECK(memcmp(end->line.record[0], call, VL53L0X_RECORD_SIZE) == 0);
}

/* The same call step by step, as the comment of vl53l0x.h has it, with all of the above at each of its transfers. */
static void by_hand(const struct state *start, const uint8_t *call, const struct state *end)
{
    struct state state = *start;
    uint8_t record[VL53L0X_RECORD_SIZE];
    uint32_t step = 0, in_two = 0;
    memcpy(record, call, sizeof record);
    for (;;) {
        CHECK(memcmp(record, end->line.record[step], sizeof record) == 0);
        step++;
        if (vl53l0x_step(state.session, sizeof state.session, record, sizeof record, state.outcome,
                         sizeof state.outcome) != VL53L0X_TRANSFER) {
            break;
        }
        taken_up(&state, end);
        given_up(&state, &in_two);
        const uint8_t *outcome = state.outcome;
        memset(record, 0, sizeof record);
        record[0] = 2;
        struct simulator *sensor = &state.line.sensor;
        CHECK(simulator_transfer(sensor, outcome[1], outcome + 3, outcome[2], record + 2, outcome[10]) == 0);
    }
    CHECK(step == end->line.records);
    CHECK(same_end(&state, end));
    CHECK(in_two == (uint32_t)is_reading(call[1]));
}

/* The records that a recorder was handed lead from the start to the same end. */
static void replayed(const struct state *start, const struct line *line, const struct state *end)
{
    struct state again = *start;
    CHECK(line->records == end->line.records);
    for (uint32_t i = 0; i < line->records; i++) {
        vl53l0x_step(again.session, sizeof again.session, line->record[i], VL53L0X_RECORD_SIZE, again.outcome,
                     sizeof again.outcome);
    }
    CHECK(same_end(&again, end));
}

/* The same call with plain writes: no read at a write, the same answer and the same session. */
static void with_plain_writes(const struct state *start, const uint8_t *call, const struct state *end)
{
    struct state plain = *start;
    struct vl53l0x_bus inner = bus_of(&plain.line);
    const struct vl53l0x_bus outer = vl53l0x_with_plain_writes(&inner);
    uint8_t record[VL53L0X_RECORD_SIZE];
    memcpy(record, call, sizeof record);
    CHECK(vl53l0x_drive(plain.session, &outer, record, plain.outcome) == VL53L0X_DONE);
    CHECK(plain.line.reads_at_writes == 0);
    CHECK(plain.line.transfers == end->line.transfers);
    CHECK(same_end(&plain, end));
    replayed(start, &plain.line, end);

    plain = *start;
    inner = bus_of(&plain.line);
    inner.recorder = NULL;
    memcpy(record, call, sizeof record);
    CHECK(vl53l0x_drive(plain.session, &outer, record, plain.outcome) == VL53L0X_DONE);
    CHECK(plain.line.records == 0 && same_end(&plain, end));
}

/* The table has each call of the library once: a record with any other code is none. */
static void all_codes(void)
{
    int rows[256] = {0};
    for (size_t i = 0; i < ALL_CALLS; i++) {
        rows[all_calls[i].code]++;
    }
    for (unsigned code = 0; code <= 255; code++) {
        uint8_t session[VL53L0X_SESSION_SIZE], record[VL53L0X_RECORD_SIZE], outcome[VL53L0X_OUTCOME_SIZE];
        vl53l0x_fresh(session, sizeof session);
        vl53l0x_put_call(record, (uint8_t)code, 0, 0);
        vl53l0x_step(session, sizeof session, record, sizeof record, outcome, sizeof outcome);
        CHECK(rows[code] == (outcome[0] != VL53L0X_ILL_FORMED_RECORD));
    }
}

static void calls(void)
{
    static struct state start, end;
    uint32_t reads_at_writes = 0;
    for (size_t i = 0; i < ALL_CALLS; i++) {
        uint8_t call[VL53L0X_RECORD_SIZE];
        a_call(&start, call, all_calls[i].code);
        driven(&start, call, &end);
        by_hand(&start, call, &end);
        with_plain_writes(&start, call, &end);
        reads_at_writes += end.line.reads_at_writes;
    }
    CHECK(reads_at_writes > 0);
}

/* A sensor that is never ready ends a bring-up at the first of its waits. */
static void never_ready(void)
{
    static struct state state;
    uint8_t call[VL53L0X_RECORD_SIZE];
    a_call(&state, call, VL53L0X_WITH_ADDRESS);
    state.line.sensor.longest_wait = UINT32_MAX - 1;
    CHECK(drive(&state, call) == VL53L0X_TIMEOUT);
    CHECK(at_rest(&state) && state.line.transfers == 65561 && state.line.records == 65562);
}

/* Where no call waits there is nothing to go on with or to give up. */
static void nothing_waits(void)
{
    static struct state state;
    uint8_t call[VL53L0X_RECORD_SIZE];
    a_call(&state, call, VL53L0X_WHO_AM_I);
    const struct state kept = state;
    const struct vl53l0x_bus bus = bus_of(&state.line);
    CHECK(vl53l0x_go_on(state.session, &bus, state.outcome) == VL53L0X_NO_CALL_WAITS);
    CHECK(vl53l0x_abandon(state.session, &bus, 9, state.outcome) == VL53L0X_NO_CALL_WAITS);
    CHECK(same_session(&state, &kept));
    state.session[0] = 2; /* no session */
    CHECK(vl53l0x_go_on(state.session, &bus, state.outcome) == VL53L0X_ILL_FORMED_SESSION);
    CHECK(vl53l0x_abandon(state.session, &bus, 9, state.outcome) == VL53L0X_ILL_FORMED_SESSION);
    CHECK(state.line.transfers == 0 && state.line.records == 0);
}

/* The session as it was when the recorder was handed a record. */
static const uint8_t *watched;
static uint32_t seen_at[2];
static uint32_t seen;

static void watch(void *context, const uint8_t *record)
{
    recorder(context, record);
    CHECK(seen < 2);
    seen_at[seen++ % 2] = vl53l0x_session_transfers(watched);
}

/* The recorder has a record before the session has it: first no transfer is out, then one. It may be left out. */
static void recorded_before(void)
{
    static struct state state;
    uint8_t call[VL53L0X_RECORD_SIZE];
    a_call(&state, call, VL53L0X_WHO_AM_I);
    struct vl53l0x_bus bus = bus_of(&state.line);
    bus.recorder = watch;
    watched = state.session;
    CHECK(vl53l0x_drive(state.session, &bus, call, state.outcome) == VL53L0X_DONE);
    CHECK(seen == 2 && seen_at[0] == 0 && seen_at[1] == 1 && state.line.records == 2);
    bus.recorder = NULL;
    vl53l0x_put_call(call, VL53L0X_WHO_AM_I, 0, 0);
    CHECK(vl53l0x_drive(state.session, &bus, call, state.outcome) == VL53L0X_DONE);
    CHECK(state.line.records == 2);
}

int main(void)
{
    all_codes();
    calls();
    never_ready();
    nothing_waits();
    recorded_before();
    if (failures == 0) {
        printf("calls on a bus go as the header says\n");
    }
    return failures != 0;
}
