/*
 * What a transfer function returns and tells, at each transfer of each call, with and without plain writes, and where
 * page 0 is selected by hand. Whatever is no good transfer is a failure with its code, and never a distance.
 */
#include "state.h"

#include <limits.h>

/* What is returned and is no code. Each of them is VL53L0X_FAILURE_OTHER. */
static const int no_codes[] = {INT_MIN, -300, -256, -255, -254, -2, -1, 254, 255, 256, 0x103, 511, 512, 65537, INT_MAX};

enum { NO_CODES = sizeof no_codes / sizeof *no_codes, CODES = 253 };

/* The next transfer ends so. */
static struct vl53l0x_bus odd_bus(struct line *line, int result, size_t told)
{
    struct vl53l0x_bus bus = bus_of(line);
    line->odd_at = 1;
    line->odd = result;
    line->odd_got = told;
    return bus;
}

/*
 * The transfer that is out ends so. The answer has to be this one, with this code if it is a failure. After a range
 * read that failed the interrupt is still cleared, in two writes.
 */
static void ends_so(const struct state *waiting, bool plain, int result, size_t told, uint8_t answer, uint8_t code)
{
    struct state odd = *waiting;
    struct vl53l0x_bus inner = odd_bus(&odd.line, result, told);
    const struct vl53l0x_bus outer = plain ? vl53l0x_with_plain_writes(&inner) : inner;
    uint32_t value = 12345;
    CHECK(vl53l0x_go_on(odd.session, &outer, odd.outcome) == answer);
    CHECK(vl53l0x_done_value(odd.outcome, &value) == (answer == VL53L0X_DONE));
    CHECK(at_rest(&odd));
    if (answer == VL53L0X_BUS_ERROR) {
        CHECK(value == 12345 && vl53l0x_answer_value(odd.outcome) == code);
        CHECK(odd.line.transfers == (range_is_read(waiting) ? 3U : 1U));
    }
}

/* All that the transfer that is out may end with. `right` is the count of bytes that the bus is asked for. */
static void odd_ends(const struct state *waiting, bool plain)
{
    size_t right = vl53l0x_transfer_reads(waiting->outcome);
    if (plain && vl53l0x_transfer_count(waiting->outcome) > 1) {
        right = 0;
    }
    const size_t tolds[] = {
        right,         right + 1,   right > 0 ? right - 1 : 3, UNTOUCHED, 0, 1, 2, 5, 6, 7, 255, 256 + right, 256,
        65536 + right, SIZE_MAX - 1};
    for (size_t i = 0; i < sizeof tolds / sizeof *tolds; i++) {
        bool good = (tolds[i] == UNTOUCHED ? 0 : tolds[i]) == right;
        ends_so(waiting, plain, 0, tolds[i], good ? VL53L0X_DONE : VL53L0X_BUS_ERROR, VL53L0X_FAILURE_SHORT_READ);
        for (size_t k = 0; k < NO_CODES; k++) {
            ends_so(waiting, plain, no_codes[k], tolds[i], VL53L0X_BUS_ERROR, VL53L0X_FAILURE_OTHER);
        }
    }
    for (int code = 1; code <= CODES; code++) {
        ends_so(waiting, plain, code, right, VL53L0X_BUS_ERROR, (uint8_t)code);
        ends_so(waiting, plain, code, right + 1, VL53L0X_BUS_ERROR, (uint8_t)code);
        ends_so(waiting, plain, code, UNTOUCHED, VL53L0X_BUS_ERROR, (uint8_t)code);
    }
}

static void each_transfer(uint8_t code)
{
    static struct state state;
    uint8_t record[VL53L0X_RECORD_SIZE];
    a_call(&state, record, code);
    const struct vl53l0x_bus bus = bus_of(&state.line);
    while (vl53l0x_hand_in(state.session, &bus, record, state.outcome) == VL53L0X_TRANSFER) {
        odd_ends(&state, false);
        odd_ends(&state, true);
        vl53l0x_make_transfer(&bus, state.outcome, record);
    }
    CHECK(state.outcome[0] == VL53L0X_DONE && state.line.transfers > 0);
}

/* The status of a HAL, handed through as it is: 2 is HAL_BUSY, and as many as the bytes of a range. */
enum { HAL_BUSY = 2 };

static int busy_at_range(void *context, uint8_t address, const uint8_t *written, size_t count, uint8_t *read,
                         size_t reads, size_t *got)
{
    return count == 1 && reads == 2 ? HAL_BUSY : transfer(context, address, written, count, read, reads, got);
}

/* One byte of the range does not come, and it is told so. */
static int short_at_range(void *context, uint8_t address, const uint8_t *written, size_t count, uint8_t *read,
                          size_t reads, size_t *got)
{
    int result = transfer(context, address, written, count, read, reads, got);
    *got -= count == 1 && reads == 2;
    return result;
}

/* What was read is never told. */
static int forgetful(void *context, uint8_t address, const uint8_t *written, size_t count, uint8_t *read, size_t reads,
                     size_t *got)
{
    size_t untold = *got;
    return transfer(context, address, written, count, read, reads, &untold);
}

/* The call on a bus with this function has to break with this code. Returns at which transfer. */
static uint32_t breaks(const struct state *start, const uint8_t *call, vl53l0x_transfer *function, uint8_t code)
{
    struct state state = *start;
    struct vl53l0x_bus bus = bus_of(&state.line);
    uint8_t record[VL53L0X_RECORD_SIZE];
    memcpy(record, call, sizeof record);
    bus.transfer = function;
    CHECK(vl53l0x_drive(state.session, &bus, record, state.outcome) == VL53L0X_BUS_ERROR);
    CHECK(vl53l0x_answer_value(state.outcome) == code);
    return vl53l0x_answer_transfers(state.outcome);
}

/* The distance is 511 mm, 0x01FF. A range read of one byte less is no 256 mm, and HAL_BUSY no 0 mm. */
static void ranges(void)
{
    static struct state start, end;
    for (size_t i = 0; i < ALL_CALLS; i++) {
        uint8_t call[VL53L0X_RECORD_SIZE];
        uint32_t distance = 0;
        if (!is_reading(all_calls[i].code)) {
            continue;
        }
        a_call(&start, call, all_calls[i].code);
        end = start;
        CHECK(drive(&end, call) == VL53L0X_DONE);
        CHECK(vl53l0x_done_value(end.outcome, &distance) && distance == 511);
        const uint32_t last = vl53l0x_answer_transfers(end.outcome);
        CHECK(breaks(&start, call, short_at_range, VL53L0X_FAILURE_SHORT_READ) == last);
        CHECK(breaks(&start, call, busy_at_range, HAL_BUSY) == last);
    }
}

/* Who forgets to tell sees every call break at its first read; call 3 is a write alone. */
static void untold(void)
{
    static struct state start;
    for (size_t i = 0; i < ALL_CALLS; i++) {
        uint8_t call[VL53L0X_RECORD_SIZE];
        a_call(&start, call, all_calls[i].code);
        if (all_calls[i].code != VL53L0X_SET_ADDRESS) {
            CHECK(breaks(&start, call, forgetful, VL53L0X_FAILURE_SHORT_READ) == 1);
        }
    }
}

/* What the inner bus says of a write alone, and of a read, is what plain writes say of them. */
static void plain_writes(void)
{
    static const uint8_t write[] = {0x0B, 0x01}, read[] = {0x1E};
    static struct state state;
    uint8_t call[VL53L0X_RECORD_SIZE];
    a_call(&state, call, VL53L0X_WHO_AM_I);
    struct vl53l0x_bus inner = bus_of(&state.line);
    const struct vl53l0x_bus plain = vl53l0x_with_plain_writes(&inner);
    uint8_t data[2] = {0xAA, 0xAA};
    size_t got = 0;
    CHECK(plain.transfer(plain.context, 0x29, write, 2, data, 2, &got) == 0 && got == 2);
    CHECK(state.line.count == 2 && state.line.reads == 0 && data[0] == 0 && data[1] == 0);
    got = 0;
    CHECK(plain.transfer(plain.context, 0x29, write, 2, data, 0, &got) == 0 && got == 0);
    CHECK(state.line.count == 2 && state.line.reads == 0);
    CHECK(plain.transfer(plain.context, 0x29, read, 1, data, 2, &got) == 0 && got == 2);
    CHECK(state.line.count == 1 && state.line.reads == 2);
    for (size_t i = 0; i < NO_CODES; i++) {
        inner = odd_bus(&state.line, no_codes[i], 0);
        got = 0;
        CHECK(plain.transfer(plain.context, 0x29, write, 2, data, 1, &got) == no_codes[i] && got == 0);
        inner = odd_bus(&state.line, no_codes[i], 1);
        CHECK(plain.transfer(plain.context, 0x29, read, 1, data, 2, &got) == no_codes[i] && got == 1);
    }
}

/* One write alone, FF 00, which no recorder sees. A failure is returned with its code, and bytes that were read too. */
static void page_0(void)
{
    static const size_t tolds[] = {1, 2, 255, 256, 65536, SIZE_MAX - 1};
    static struct state state;
    uint8_t call[VL53L0X_RECORD_SIZE];
    a_call(&state, call, VL53L0X_WHO_AM_I);
    struct vl53l0x_bus bus = bus_of(&state.line);
    state.line.sensor.page = 1;
    CHECK(vl53l0x_select_page_0(&bus, 0x29) == 0);
    CHECK(state.line.sensor.page == 0 && state.line.transfers == 1 && state.line.records == 0);
    CHECK(state.line.address == 0x29 && state.line.count == 2 && state.line.reads == 0);
    CHECK(state.line.written[0] == 0xFF && state.line.written[1] == 0x00);
    CHECK(vl53l0x_select_page_0(&bus, 0x30) == SIMULATOR_NOBODY_ANSWERS);
    CHECK(state.line.address == 0x30);
    bus = odd_bus(&state.line, 0, UNTOUCHED);
    CHECK(vl53l0x_select_page_0(&bus, 0x29) == 0);
    for (size_t i = 0; i < sizeof tolds / sizeof *tolds; i++) {
        bus = odd_bus(&state.line, 0, tolds[i]);
        CHECK(vl53l0x_select_page_0(&bus, 0x29) == VL53L0X_FAILURE_SHORT_READ);
    }
    for (size_t i = 0; i < NO_CODES; i++) {
        bus = odd_bus(&state.line, no_codes[i], 0);
        CHECK(vl53l0x_select_page_0(&bus, 0x29) == VL53L0X_FAILURE_OTHER);
    }
    for (int code = 1; code <= CODES; code++) {
        bus = odd_bus(&state.line, code, UNTOUCHED);
        CHECK(vl53l0x_select_page_0(&bus, 0x29) == code);
    }
}

int main(void)
{
    for (size_t i = 0; i < ALL_CALLS; i++) {
        each_transfer(all_calls[i].code);
    }
    ranges();
    untold();
    plain_writes();
    page_0();
    if (failures == 0) {
        printf("what a bus returns and tells is taken as the header says\n");
    }
    return failures != 0;
}
