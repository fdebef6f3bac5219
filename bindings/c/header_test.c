/* The header: its functions against the layout, and its numbers against the library. Compiles as C and as C++. */
#include "check.h"
#include "vl53l0x.h"

static int same(const uint8_t *bytes, const uint8_t *expected, size_t count)
{
    return memcmp(bytes, expected, count) == 0;
}

static void records(void)
{
    static const uint8_t call[] = {1, 10, 0x12, 0x34, 0x56, 0x78, 0x9A, 0xBC};
    static const uint8_t bring_up[] = {1, 1, 0, 0, 0, 0x29, 0, 0};
    static const uint8_t failure[] = {2, 7, 0, 0, 0, 0, 0, 0};
    static const uint8_t no_kind[VL53L0X_RECORD_SIZE] = {0};
    uint8_t record[VL53L0X_RECORD_SIZE];

    vl53l0x_put_call(record, VL53L0X_SET_INTERRUPT_THRESHOLDS_MM, 0x12345678, 0x9ABC);
    CHECK(same(record, call, sizeof call));
    vl53l0x_put_new(record);
    CHECK(same(record, bring_up, sizeof bring_up));
    vl53l0x_put_failure(record, 7);
    CHECK(same(record, failure, sizeof failure));
    vl53l0x_put_failure(record, 0);
    CHECK(same(record, no_kind, sizeof no_kind));
    CHECK(vl53l0x_float_bits(0.25f) == 0x3E800000);
    CHECK(vl53l0x_float_from_bits(0x3E800000) == 0.25f);
}

static void outcomes(void)
{
    static const uint8_t transfer[] = {255, 0x29, 3, 0x71, 0x02, 0x92, 0, 0, 0, 0, 1, 0, 0,
                                       0,   0,    0, 0,    0,    0,    0, 0, 0, 0, 0, 0};
    static const uint8_t answer[] = {0, 0x78, 0x56, 0x34, 0x12, 0, 0, 0, 0, 0,    0,    0, 0,
                                     0, 0,    0,    0,    0,    0, 0, 0, 0xB8, 0x4E, 1, 0};

    CHECK(sizeof transfer == VL53L0X_OUTCOME_SIZE && sizeof answer == VL53L0X_OUTCOME_SIZE);
    CHECK(transfer[0] == VL53L0X_TRANSFER && answer[0] == VL53L0X_DONE);
    CHECK(VL53L0X_OUTCOME_SIZE == 1 + 4 * VL53L0X_MOST_VALUES + 4);
    CHECK(vl53l0x_transfer_address(transfer) == 0x29);
    CHECK(vl53l0x_transfer_count(transfer) == 3);
    CHECK(vl53l0x_transfer_written(transfer) == transfer + 3);
    CHECK(vl53l0x_transfer_reads(transfer) == 1);
    CHECK(vl53l0x_answer_value(answer) == 0x12345678);
    CHECK(vl53l0x_answer_transfers(answer) == 85688);
}

/* Byte i of this session is i. */
static void sessions(void)
{
    uint8_t session[VL53L0X_SESSION_SIZE];
    for (uint8_t i = 0; i < sizeof session; i++) {
        session[i] = i;
    }
    CHECK(vl53l0x_session_up(session) == 0);
    CHECK(vl53l0x_session_address(session) == 1);
    CHECK(vl53l0x_session_stop(session) == 2);
    CHECK(vl53l0x_session_budget(session) == 0x06050403);
    CHECK(vl53l0x_session_code(session) == 7);
    CHECK(vl53l0x_session_a(session) == 0x0B0A0908);
    CHECK(vl53l0x_session_b(session) == 0x0D0C);
    CHECK(vl53l0x_session_step(session) == 14);
    CHECK(vl53l0x_session_idle(session) == 0x1211100F);
    CHECK(vl53l0x_session_transfers(session) == 0x16151413);
    CHECK(vl53l0x_session_failed(session) == 23);
    CHECK(vl53l0x_session_found_budget(session) == 0x1B1A1918);
    CHECK(vl53l0x_session_carried(session) == session + 28);
}

/* Of all outcomes only the answer Done has a value to be taken. */
static void done_values(void)
{
    for (unsigned number = 0; number <= 255; number++) {
        uint8_t outcome[VL53L0X_OUTCOME_SIZE] = {(uint8_t)number, 0x78, 0x56, 0x34, 0x12};
        uint32_t value = 505;
        outcome[21] = 17;
        if (number == VL53L0X_DONE) {
            CHECK(vl53l0x_done_value(outcome, &value) == 1 && value == 0x12345678);
        } else {
            CHECK(vl53l0x_done_value(outcome, &value) == 0 && value == 505);
        }
    }
    static const uint8_t nothing[VL53L0X_OUTCOME_SIZE] = {0};
    uint32_t value = 505;
    CHECK(vl53l0x_done_value(nothing, &value) == 0 && value == 505);
}

/* What the library says to one record. */
static uint8_t step(uint8_t *session, const uint8_t *record)
{
    uint8_t outcome[VL53L0X_OUTCOME_SIZE];
    uint8_t returned =
        vl53l0x_step(session, VL53L0X_SESSION_SIZE, record, VL53L0X_RECORD_SIZE, outcome, sizeof outcome);
    CHECK(returned == outcome[0]);
    return returned;
}

static uint8_t begin(uint8_t *session, uint8_t code, uint32_t a, uint16_t b)
{
    uint8_t record[VL53L0X_RECORD_SIZE];
    vl53l0x_put_call(record, code, a, b);
    return step(session, record);
}

static uint8_t fail(uint8_t *session, uint8_t code)
{
    uint8_t record[VL53L0X_RECORD_SIZE];
    vl53l0x_put_failure(record, code);
    return step(session, record);
}

/* A good reply whose first byte and last, at this count, are as given. */
static uint8_t reply(uint8_t *session, uint8_t byte, size_t count)
{
    uint8_t record[VL53L0X_RECORD_SIZE] = {2};
    record[2] = byte;
    record[1 + count] = byte;
    return step(session, record);
}

static void numbers(void)
{
    uint8_t session[VL53L0X_SESSION_SIZE];
    uint8_t outcome[VL53L0X_OUTCOME_SIZE];
    uint8_t record[VL53L0X_RECORD_SIZE];

    CHECK(vl53l0x_fresh(session, sizeof session - 1) == VL53L0X_ILL_FORMED_SESSION);
    CHECK(vl53l0x_fresh(session, sizeof session) == 0);
    CHECK(begin(session, VL53L0X_WHO_AM_I, 0, 0) == VL53L0X_NOT_UP);
    CHECK(fail(session, 7) == VL53L0X_NO_CALL_WAITS);
    CHECK(begin(session, 0, 0, 0) == VL53L0X_ILL_FORMED_RECORD);
    CHECK(vl53l0x_outstanding(session, sizeof session, outcome, sizeof outcome) == VL53L0X_NO_CALL_WAITS);

    CHECK(begin(session, VL53L0X_WITH_ADDRESS, VL53L0X_DEFAULT_ADDRESS, 0) == VL53L0X_TRANSFER);
    CHECK(vl53l0x_session_code(session) == VL53L0X_WITH_ADDRESS);
    CHECK(vl53l0x_session_a(session) == VL53L0X_DEFAULT_ADDRESS);
    CHECK(vl53l0x_session_transfers(session) == 1);
    CHECK(vl53l0x_outstanding(session, sizeof session, outcome, sizeof outcome) == VL53L0X_TRANSFER);
    CHECK(vl53l0x_transfer_address(outcome) == 0x29);
    CHECK(vl53l0x_outstanding(session, sizeof session, outcome, sizeof outcome - 1) == VL53L0X_NOT_PUT);
    CHECK(begin(session, VL53L0X_WHO_AM_I, 0, 0) == VL53L0X_CALL_WAITS);
    CHECK(reply(session, 1, 2) == VL53L0X_STRAY_BYTE);
    CHECK(fail(session, 0) == VL53L0X_ILL_FORMED_RECORD);
    vl53l0x_put_failure(record, 7);
    CHECK(vl53l0x_step(session, sizeof session, record, sizeof record - 1, outcome, sizeof outcome) ==
          VL53L0X_SPARE_BYTES);
    CHECK(vl53l0x_step(session, sizeof session - 1, record, sizeof record, outcome, sizeof outcome) ==
          VL53L0X_ILL_FORMED_SESSION);
    CHECK(vl53l0x_step(session, sizeof session, record, sizeof record, outcome, sizeof outcome + 1) ==
          VL53L0X_NOT_PUT);
    CHECK(reply(session, 0xED, 1) == VL53L0X_INVALID_DEVICE);
    CHECK(begin(session, VL53L0X_WITH_ADDRESS, VL53L0X_DEFAULT_ADDRESS, 0) == VL53L0X_TRANSFER);
    CHECK(fail(session, 7) == VL53L0X_BUS_ERROR);

    session[0] = 1; /* up */
    CHECK(begin(session, VL53L0X_SET_ADDRESS, 0x78, 0) == VL53L0X_INVALID_ADDRESS);
    CHECK(begin(session, VL53L0X_SET_INTERRUPT_THRESHOLDS_MM, 301, 300) == VL53L0X_INVALID_ARGUMENT);
    CHECK(begin(session, VL53L0X_SET_MEASUREMENT_TIMING_BUDGET, 19999, 0) == VL53L0X_FALSE);
    CHECK(begin(session, VL53L0X_SET_SIGNAL_RATE_LIMIT, vl53l0x_float_bits(-1.0f), 0) == VL53L0X_FALSE);
    CHECK(begin(session, VL53L0X_SET_SIGNAL_RATE_LIMIT, vl53l0x_float_bits(512.0f), 0) == VL53L0X_FALSE);
    CHECK(begin(session, VL53L0X_SET_SIGNAL_RATE_LIMIT, 0x7FC00000 /* a NaN */, 0) == VL53L0X_FALSE);
    CHECK(begin(session, VL53L0X_GET_SIGNAL_RATE_LIMIT, 1, 0) == VL53L0X_ILL_FORMED_RECORD);
    CHECK(begin(session, VL53L0X_GET_SIGNAL_RATE_LIMIT, 0, 1) == VL53L0X_ILL_FORMED_RECORD);
    CHECK(begin(session, VL53L0X_SET_GPIO_CONFIG, VL53L0X_OUT_OF_WINDOW + 1, 0) == VL53L0X_ILL_FORMED_RECORD);
    CHECK(begin(session, VL53L0X_SET_GPIO_CONFIG, 0, VL53L0X_ACTIVE_HIGH + 1) == VL53L0X_ILL_FORMED_RECORD);
    CHECK(begin(session, VL53L0X_READ_RANGE_MM, 0, 0) == VL53L0X_TRANSFER);
    CHECK(reply(session, 0, 1) == VL53L0X_WOULD_BLOCK);
    CHECK(begin(session, VL53L0X_WHO_AM_I, 0, 0) == VL53L0X_TRANSFER);
    CHECK(reply(session, 0xEE, 1) == VL53L0X_DONE);
    CHECK(begin(session, VL53L0X_GET_MEASUREMENT_TIMING_BUDGET, 0, 0) == VL53L0X_TRANSFER);
    CHECK(reply(session, 0, 1) == VL53L0X_TRANSFER);
    CHECK(reply(session, 0x10, 2) == VL53L0X_PANIC);
}

/* Whether a call of a sensor that is up, after so many replies of zeros, writes these two bytes. */
static int writes(uint8_t code, uint32_t a, uint16_t b, int replies, uint8_t first, uint8_t second)
{
    uint8_t session[VL53L0X_SESSION_SIZE];
    uint8_t outcome[VL53L0X_OUTCOME_SIZE];
    vl53l0x_fresh(session, sizeof session);
    session[0] = 1; /* up */
    begin(session, code, a, b);
    for (int i = 0; i < replies; i++) {
        reply(session, 0, 1);
    }
    vl53l0x_outstanding(session, sizeof session, outcome, sizeof outcome);
    const uint8_t *written = vl53l0x_transfer_written(outcome);
    return outcome[0] == VL53L0X_TRANSFER && written[0] == first && written[1] == second;
}

static void calls(void)
{
    CHECK(writes(VL53L0X_SET_ADDRESS, 0x30, 0, 0, 0x8A, 0x30));
    CHECK(writes(VL53L0X_START_CONTINUOUS, 0, 0, 7, 0x00, 0x02));
    CHECK(writes(VL53L0X_STOP_CONTINUOUS, 0, 0, 3, 0x91, 0x00));
    CHECK(writes(VL53L0X_READ_RANGE_CONTINUOUS_MILLIMETERS_BLOCKING, 0, 0, 1, 0x13, 0));
    CHECK(writes(VL53L0X_READ_RANGE_SINGLE_MILLIMETERS_BLOCKING, 0, 0, 7, 0x00, 0x01));
    CHECK(writes(VL53L0X_SET_MEASUREMENT_TIMING_BUDGET, 33000, 0, 0, 0x01, 0));
    CHECK(writes(VL53L0X_SET_INTERRUPT_THRESHOLDS_MM, 0x0200, 0x0300, 0, 0x0E, 0x01));
    CHECK(writes(VL53L0X_GET_INTERRUPT_THRESHOLDS_MM, 0, 0, 1, 0x0C, 0));
    CHECK(writes(VL53L0X_SET_GPIO_CONFIG, VL53L0X_NEW_SAMPLE_READY, VL53L0X_ACTIVE_LOW, 0, 0x0A, 0x04));
    CHECK(writes(VL53L0X_SET_GPIO_CONFIG, VL53L0X_LEVEL_LOW, VL53L0X_ACTIVE_LOW, 0, 0x0A, 0x01));
    CHECK(writes(VL53L0X_SET_GPIO_CONFIG, VL53L0X_LEVEL_HIGH, VL53L0X_ACTIVE_LOW, 2, 0x84, 0x00));
    CHECK(writes(VL53L0X_SET_GPIO_CONFIG, VL53L0X_LEVEL_HIGH, VL53L0X_ACTIVE_HIGH, 0, 0x0A, 0x02));
    CHECK(writes(VL53L0X_SET_GPIO_CONFIG, VL53L0X_OUT_OF_WINDOW, VL53L0X_ACTIVE_HIGH, 0, 0x0A, 0x03));
    CHECK(writes(VL53L0X_SET_GPIO_CONFIG, VL53L0X_OUT_OF_WINDOW, VL53L0X_ACTIVE_HIGH, 2, 0x84, 0x10));
    CHECK(writes(VL53L0X_CLEAR_INTERRUPT_STATUS, 0, 0, 0, 0x0B, 0x01));
    CHECK(writes(VL53L0X_SET_SIGNAL_RATE_LIMIT, vl53l0x_float_bits(2.0f), 0, 0, 0x44, 0x01));
    CHECK(writes(VL53L0X_GET_SIGNAL_RATE_LIMIT, 0, 0, 0, 0x44, 0));
}

/* The status is read 10,000 times and shows no reading. */
static void timeout(void)
{
    uint8_t session[VL53L0X_SESSION_SIZE];
    vl53l0x_fresh(session, sizeof session);
    session[0] = 1; /* up */
    CHECK(begin(session, VL53L0X_READ_RANGE_CONTINUOUS_MILLIMETERS_BLOCKING, 0, 0) == VL53L0X_TRANSFER);
    for (int i = 1; i < 10000; i++) {
        CHECK(reply(session, 0, 1) == VL53L0X_TRANSFER);
    }
    CHECK(vl53l0x_session_idle(session) == 9999);
    CHECK(reply(session, 0, 1) == VL53L0X_TIMEOUT);
}

/*
 * Goes through a call of a sensor that is up, with replies of the identity's byte, to its first transfer that reads so
 * many bytes. There a reply with any other count of them is refused.
 */
static void reply_counts(uint8_t code, uint8_t a, uint8_t reads)
{
    static const uint8_t data[] = {0xEE, 0xEE, 0xEE, 0xEE, 0xEE, 0xEE, 0xEE};
    uint8_t session[VL53L0X_SESSION_SIZE], kept[VL53L0X_SESSION_SIZE];
    uint8_t outcome[VL53L0X_OUTCOME_SIZE], again[VL53L0X_OUTCOME_SIZE];
    uint8_t record[VL53L0X_RECORD_SIZE];

    vl53l0x_fresh(session, sizeof session);
    session[0] = 1; /* up */
    CHECK(begin(session, code, a, 0) == VL53L0X_TRANSFER);
    vl53l0x_outstanding(session, sizeof session, outcome, sizeof outcome);
    while (outcome[0] == VL53L0X_TRANSFER && vl53l0x_transfer_reads(outcome) != reads) {
        vl53l0x_put_reply_to(record, outcome, data, vl53l0x_transfer_reads(outcome));
        vl53l0x_step(session, sizeof session, record, sizeof record, outcome, sizeof outcome);
    }
    CHECK(outcome[0] == VL53L0X_TRANSFER);

    memcpy(kept, session, sizeof kept);
    for (size_t count = 0; count <= sizeof data; count++) {
        vl53l0x_put_reply_to(record, outcome, data, count);
        if (count == reads) {
            CHECK(record[0] == 2 && record[1] == 0 && same(record + 2, data, count));
            CHECK(count == VL53L0X_MOST_READ || record[2 + count] == 0);
            uint8_t next = step(session, record);
            CHECK(next == VL53L0X_DONE || (next == VL53L0X_TRANSFER && !same(session, kept, sizeof kept)));
            memcpy(session, kept, sizeof kept);
        } else {
            CHECK(step(session, record) == VL53L0X_ILL_FORMED_RECORD);
            CHECK(same(session, kept, sizeof kept));
            CHECK(vl53l0x_outstanding(session, sizeof session, again, sizeof again) == VL53L0X_TRANSFER);
            CHECK(same(again, outcome, sizeof again));
        }
    }
}

/* To an answer there is no reply, of whatever count. */
static void no_reply_to_an_answer(void)
{
    static const uint8_t data[VL53L0X_MOST_READ] = {0};
    static const uint8_t no_kind[VL53L0X_RECORD_SIZE] = {0};
    for (uint8_t number = 0; number < VL53L0X_TRANSFER; number++) {
        for (uint8_t count = 0; count <= VL53L0X_MOST_READ; count++) {
            uint8_t outcome[VL53L0X_OUTCOME_SIZE] = {0};
            uint8_t record[VL53L0X_RECORD_SIZE];
            outcome[0] = number;
            outcome[10] = count;
            vl53l0x_put_reply_to(record, outcome, data, count);
            CHECK(same(record, no_kind, sizeof record));
        }
    }
}

static void replies(void)
{
    reply_counts(VL53L0X_SET_ADDRESS, 0x30, 0);
    reply_counts(VL53L0X_WHO_AM_I, 0, 1);
    reply_counts(VL53L0X_GET_INTERRUPT_THRESHOLDS_MM, 0, 2);
    reply_counts(VL53L0X_GET_SIGNAL_RATE_LIMIT, 0, 2);
    reply_counts(VL53L0X_WITH_ADDRESS, VL53L0X_DEFAULT_ADDRESS, 6);
    no_reply_to_an_answer();
}

/* Bytes that were put away: 52 of them with byte 0 at most 1 are a session, all others make a fresh one. */
static void bytes_put_away(void)
{
    static const uint8_t first[] = {0, 1, 2, 255};
    uint8_t fresh[VL53L0X_SESSION_SIZE], bytes[60];
    CHECK(vl53l0x_fresh(fresh, sizeof fresh) == 0);
    for (size_t i = 0; i < sizeof first; i++) {
        for (size_t count = 0; count <= sizeof bytes; count++) {
            uint8_t session[VL53L0X_SESSION_SIZE];
            memset(session, 0xAA, sizeof session);
            memset(bytes, 0, sizeof bytes);
            bytes[0] = first[i];
            bytes[1] = 0x29;
            bytes[VL53L0X_SESSION_SIZE - 1] = 0x55;
            uint8_t result = vl53l0x_session_from_bytes(session, bytes, count);
            if (count == 52 && first[i] <= 1) {
                CHECK(result == 0 && same(session, bytes, sizeof session));
            } else {
                CHECK(result == VL53L0X_ILL_FORMED_SESSION && same(session, fresh, sizeof session));
                CHECK(begin(session, VL53L0X_READ_RANGE_SINGLE_MILLIMETERS_BLOCKING, 0, 0) == VL53L0X_NOT_UP);
            }
        }
    }
}

/* Each number of the library has words of its own, and no other number has any. */
static void texts(void)
{
    for (unsigned i = 0; i <= 255; i++) {
        const char *text = vl53l0x_answer_text((uint8_t)i);
        int is_number = i <= VL53L0X_ILL_FORMED_SESSION || i == VL53L0X_NOT_PUT || i == VL53L0X_TRANSFER;
        CHECK(text[0] != 0);
        CHECK((strcmp(text, "no number of the library") != 0) == is_number);
        for (unsigned k = i + 1; is_number && k <= 255; k++) {
            CHECK(strcmp(text, vl53l0x_answer_text((uint8_t)k)) != 0);
        }
    }
}

int main(void)
{
    records();
    outcomes();
    done_values();
    sessions();
    numbers();
    calls();
    timeout();
    replies();
    bytes_put_away();
    texts();
    if (failures == 0) {
        printf("the header agrees with the layout and the library\n");
    }
    return failures != 0;
}
