/* A board's commands over restarts, and what the ground has for them, as a program in C meets them: octets worked out
 * by Python's struct and zlib, each refusal by its number, and damaged structs. Ends with 0 where all is as wanted, and
 * says each line that is not. */
#include <sedgechisel.h>
#include <stdio.h>
#include <string.h>

/* ---- The octets at a place: boot count 6, last 300, known 1; and after the start, with command 301 begun, and after
 * it; those of a new board; those of a record that was brought. Command 301, two orders, four statuses. ---- */

static const uint8_t BEFORE[50] = {
    0x00, 0x00, 0x00, 0x06, 0x00, 0x00, 0x01, 0x2c, 0x00, 0x00, 0x00, 0x00, 0x00, 0x00, 0x00, 0x01,
    0x8a, 0x3b, 0x0c, 0x5d, 0x00, 0x00, 0x3d, 0x95, 0x58, 0x00, 0x00, 0x00, 0x06, 0x00, 0x00, 0x01,
    0x2c, 0x00, 0x00, 0x00, 0x00, 0x00, 0x00, 0x00, 0x01, 0x8a, 0x3b, 0x0c, 0x5d, 0x00, 0x00, 0x3d,
    0x95, 0x58};
static const uint8_t STARTED[50] = {
    0x00, 0x00, 0x00, 0x07, 0x00, 0x00, 0x01, 0x2c, 0x00, 0x00, 0x00, 0x00, 0x00, 0x00, 0x00, 0x01,
    0x8a, 0x3b, 0x0c, 0x5d, 0x00, 0xef, 0x6f, 0x23, 0xb9, 0x00, 0x00, 0x00, 0x07, 0x00, 0x00, 0x01,
    0x2c, 0x00, 0x00, 0x00, 0x00, 0x00, 0x00, 0x00, 0x01, 0x8a, 0x3b, 0x0c, 0x5d, 0x00, 0xef, 0x6f,
    0x23, 0xb9};
static const uint8_t BEGUN[50] = {
    0x00, 0x00, 0x00, 0x07, 0x00, 0x00, 0x01, 0x2c, 0x00, 0x00, 0x00, 0x00, 0x00, 0x00, 0x00, 0x01,
    0x43, 0x13, 0xd2, 0x01, 0x01, 0x88, 0xf2, 0x14, 0x36, 0x00, 0x00, 0x00, 0x07, 0x00, 0x00, 0x01,
    0x2c, 0x00, 0x00, 0x00, 0x00, 0x00, 0x00, 0x00, 0x01, 0x43, 0x13, 0xd2, 0x01, 0x01, 0x88, 0xf2,
    0x14, 0x36};
static const uint8_t PASSED[50] = {
    0x00, 0x00, 0x00, 0x07, 0x00, 0x00, 0x01, 0x2d, 0x00, 0x00, 0x00, 0x00, 0x00, 0x00, 0x00, 0x03,
    0x43, 0x13, 0xd2, 0x01, 0x00, 0x2f, 0x32, 0x64, 0xdd, 0x00, 0x00, 0x00, 0x07, 0x00, 0x00, 0x01,
    0x2d, 0x00, 0x00, 0x00, 0x00, 0x00, 0x00, 0x00, 0x03, 0x43, 0x13, 0xd2, 0x01, 0x00, 0x2f, 0x32,
    0x64, 0xdd};
static const uint8_t NEW[50] = {
    0x00, 0x00, 0x00, 0x00, 0x00, 0x00, 0x00, 0x00, 0x00, 0x00, 0x00, 0x00, 0x00, 0x00, 0x00, 0x00,
    0x00, 0x00, 0x00, 0x00, 0x00, 0x41, 0x04, 0xc5, 0x8b, 0x00, 0x00, 0x00, 0x00, 0x00, 0x00, 0x00,
    0x00, 0x00, 0x00, 0x00, 0x00, 0x00, 0x00, 0x00, 0x00, 0x00, 0x00, 0x00, 0x00, 0x00, 0x41, 0x04,
    0xc5, 0x8b};
static const uint8_t BROUGHT[50] = {
    0x00, 0x01, 0x00, 0x07, 0x00, 0x00, 0x01, 0x2d, 0x00, 0x00, 0x00, 0x00, 0x00, 0x00, 0x00, 0x00,
    0x00, 0x00, 0x00, 0x00, 0x00, 0x06, 0x28, 0x27, 0xc2, 0x00, 0x01, 0x00, 0x07, 0x00, 0x00, 0x01,
    0x2d, 0x00, 0x00, 0x00, 0x00, 0x00, 0x00, 0x00, 0x00, 0x00, 0x00, 0x00, 0x00, 0x00, 0x06, 0x28,
    0x27, 0xc2};
static const uint8_t COMMAND[17] = {
    0x10, 0x05, 0xc0, 0x2c, 0x00, 0x0a, 0x00, 0x00, 0x01, 0x2d, 0x01, 0x02, 0x03, 0x83, 0x1d, 0x43,
    0xf2};
static const uint8_t RESTART[23] = {
    0x10, 0x06, 0xc0, 0x2d, 0x00, 0x10, 0x01, 0x00, 0x00, 0x00, 0x07, 0x00, 0x00, 0x00, 0x00, 0x00,
    0x00, 0x00, 0x00, 0xe1, 0xcc, 0x51, 0xf8};
static const uint8_t REBUILD[23] = {
    0x10, 0x06, 0xc0, 0x2e, 0x00, 0x10, 0x02, 0x00, 0x01, 0x00, 0x07, 0x00, 0x00, 0x01, 0x2d, 0x12,
    0x34, 0x56, 0x78, 0x2d, 0x00, 0xbf, 0x90};
static const uint8_t SAYS[27] = {
    0x00, 0x00, 0x00, 0x00, 0x07, 0x00, 0x00, 0x01, 0x2d, 0x00, 0x00, 0x00, 0x00, 0x00, 0x00, 0x00,
    0x03, 0x43, 0x13, 0xd2, 0x01, 0x00, 0x03, 0x69, 0xcf, 0xb7, 0x9e};
static const uint8_t LOST[27] = {
    0x03, 0x12, 0x34, 0x56, 0x78, 0x00, 0x00, 0x00, 0x00, 0x00, 0x00, 0x00, 0x00, 0x00, 0x00, 0x00,
    0x00, 0x00, 0x00, 0x00, 0x00, 0x00, 0xff, 0x40, 0x47, 0x68, 0xef};
static const uint8_t CHANGES[27] = {
    0x01, 0x00, 0x00, 0x00, 0x00, 0x00, 0x00, 0x00, 0x00, 0x00, 0x00, 0x00, 0x00, 0x00, 0x00, 0x00,
    0x00, 0x00, 0x00, 0x00, 0x00, 0x00, 0x00, 0xe9, 0xd3, 0xce, 0x90};
static const uint8_t STARTS[27] = {
    0x02, 0x00, 0x00, 0x00, 0x00, 0x00, 0x00, 0x00, 0x00, 0x00, 0x00, 0x00, 0x00, 0x00, 0x00, 0x00,
    0x00, 0x00, 0x00, 0x00, 0x00, 0x00, 0x00, 0x9f, 0x36, 0xf7, 0xad};

/* No octets, at a place that is one. */
static const uint8_t NULL_OCTETS[1] = {0};

static int failures;

#define WANT(holds)                                                                                                    \
    do {                                                                                                               \
        if (!(holds)) {                                                                                                \
            printf("%s:%d: not so: %s\n", __FILE__, __LINE__, #holds);                                                 \
            failures++;                                                                                                \
        }                                                                                                              \
    } while (0)

/* The next action is this one, with these octets of a write or none, and this number; then it is done. */
static int acts(struct sedge_log *log, uint8_t action, const uint8_t *octets, uint32_t number) {
    uint8_t out[50];
    uint32_t found = 99;
    int holds;
    memset(out, 0x55, sizeof out);
    holds = sedge_log_next(log, out, sizeof out, &found) == action && found == number;
    if (octets) {
        holds = holds && memcmp(out, octets, sizeof out) == 0;
    } else {
        for (size_t i = 0; i < sizeof out; i++) holds = holds && out[i] == 0x55;
    }
    return holds && sedge_log_done(log, action, number) == SEDGE_OK;
}

static int writes(struct sedge_log *log, const uint8_t *octets) {
    return acts(log, SEDGE_LOG_WRITE_FIRST, octets, 0) && acts(log, SEDGE_LOG_WRITE_SECOND, octets, 0);
}

static int is_same(const struct sedge_log *one, const struct sedge_log *other) {
    return one->kept.known == other->kept.known && one->kept.boot == other->kept.boot
           && one->kept.last == other->kept.last && one->kept.history == other->kept.history
           && one->kept.begun == other->kept.begun && one->mark == other->mark && one->stage == other->stage;
}

/* A packet that is refused changes nothing, and nothing is written. */
static uint8_t refused(struct sedge_log *log, const uint8_t *octets, size_t count) {
    struct sedge_log before = *log;
    struct sedge_part content = {98, 99};
    uint8_t answer = sedge_log_offer(log, octets, count, &content);
    WANT(answer != SEDGE_OK && is_same(log, &before) && content.from == 98 && content.count == 99);
    return answer;
}

static uint8_t disobeyed(struct sedge_log *log, const uint8_t *octets, size_t count) {
    struct sedge_log before = *log;
    uint8_t answer = sedge_log_obey(log, octets, count);
    WANT(answer != SEDGE_OK && is_same(log, &before));
    return answer;
}

static int tells(const struct sedge_log *log, size_t waiting, const uint8_t *wanted) {
    uint8_t out[27] = {0};
    return sedge_log_status(log, waiting, out, sizeof out) == SEDGE_OK && memcmp(out, wanted, sizeof out) == 0;
}

static void a_command_is_executed(void) {
    struct sedge_log log;
    struct sedge_part content = {0, 0};
    sedge_log_start(&log, NULL_OCTETS, 0, BEFORE, sizeof BEFORE, 5);
    WANT(refused(&log, COMMAND, sizeof COMMAND) == SEDGE_LOG_STARTING && tells(&log, 0, STARTS));
    WANT(acts(&log, SEDGE_LOG_WRITE_FIRST, BEFORE, 0) && tells(&log, 0, CHANGES) && writes(&log, STARTED));
    WANT(acts(&log, SEDGE_LOG_NOTHING, NULL, 0));
    WANT(refused(&log, COMMAND, 16) == SEDGE_LOG_LAYOUT && refused(&log, RESTART, 23) == SEDGE_LOG_AHEAD);
    WANT(sedge_log_offer(&log, COMMAND, sizeof COMMAND, &content) == SEDGE_OK);
    WANT(content.from == 10 && content.count == 3);
    WANT(refused(&log, COMMAND, sizeof COMMAND) == SEDGE_LOG_BUSY && writes(&log, BEGUN));
    WANT(acts(&log, SEDGE_LOG_EXECUTE, NULL, 301) && writes(&log, PASSED) && tells(&log, 3, SAYS));
    WANT(refused(&log, COMMAND, sizeof COMMAND) == SEDGE_LOG_BEHIND);
    WANT(disobeyed(&log, REBUILD, sizeof REBUILD) == SEDGE_LOG_NOT_LOST);
    WANT(disobeyed(&log, RESTART, 22) == SEDGE_LOG_LAYOUT);
    WANT(sedge_log_obey(&log, RESTART, sizeof RESTART) == SEDGE_OK && acts(&log, SEDGE_LOG_RESTART, NULL, 0));
    WANT(disobeyed(&log, RESTART, sizeof RESTART) == SEDGE_LOG_BUSY);
}

/* What was begun and not finished is passed over: nothing is known of it. */
static void a_restart_in_a_command(void) {
    struct sedge_log log;
    sedge_log_start(&log, BEGUN, sizeof BEGUN, STARTED, sizeof STARTED, 5);
    WANT(acts(&log, SEDGE_LOG_WRITE_SECOND, BEGUN, 0));
    WANT(log.kept.boot == 8 && log.kept.last == 301 && log.kept.known == 2 && log.kept.begun == 0);
    WANT(log.kept.history == 0x4313d201);
}

static void a_record_is_lost(void) {
    uint8_t torn[50];
    struct sedge_log log;
    memcpy(torn, BEFORE, 50);
    torn[49] ^= 1;
    sedge_log_start(&log, torn, 50, BEFORE, 49, 0x12345678);
    WANT(acts(&log, SEDGE_LOG_NOTHING, NULL, 0) && tells(&log, 1000, LOST));
    WANT(refused(&log, COMMAND, sizeof COMMAND) == SEDGE_LOG_LOST);
    WANT(disobeyed(&log, RESTART, sizeof RESTART) == SEDGE_LOG_LOST);
    WANT(sedge_log_obey(&log, REBUILD, sizeof REBUILD) == SEDGE_OK && writes(&log, BROUGHT));
    WANT(disobeyed(&log, RESTART, sizeof RESTART) == SEDGE_LOG_OTHER_BOOT);
    sedge_log_start(&log, torn, 50, torn, 50, 0x12345679);
    WANT(disobeyed(&log, REBUILD, sizeof REBUILD) == SEDGE_LOG_OTHER_MARK);
}

static void a_new_board(void) {
    uint8_t out[50] = {0};
    struct sedge_log log;
    WANT(sedge_log_new_record(out, 50) == SEDGE_OK && memcmp(out, NEW, 50) == 0);
    WANT(sedge_log_new_record(out, 49) == SEDGE_WRONG_COUNT);
    sedge_log_start(&log, out, 50, out, 50, 0);
    WANT(acts(&log, SEDGE_LOG_WRITE_SECOND, NEW, 0));
    WANT(log.kept.boot == 1 && log.kept.last == 0 && log.kept.history == 0);
}

/* An action is done only as sedge_log_next returned it, and nothing is written where the room is wrong. */
static void actions_that_are_others(void) {
    uint8_t out[51];
    uint32_t number = 99;
    struct sedge_log log, before;
    sedge_log_start(&log, BEGUN, sizeof BEGUN, BEGUN, sizeof BEGUN, 0);
    before = log;
    WANT(sedge_log_done(&log, SEDGE_LOG_NOTHING, 0) == SEDGE_ABSENT && sedge_log_done(&log, 5, 0) == SEDGE_ABSENT);
    WANT(sedge_log_done(&log, SEDGE_LOG_WRITE_FIRST, 0) == SEDGE_ABSENT);
    WANT(sedge_log_done(&log, SEDGE_LOG_WRITE_SECOND, 1) == SEDGE_ABSENT && is_same(&log, &before));
    memset(out, 0x55, sizeof out);
    WANT(sedge_log_next(&log, out, 49, &number) == SEDGE_WRONG_COUNT && number == 99);
    WANT(sedge_log_next(&log, out, 51, &number) == SEDGE_WRONG_COUNT && out[0] == 0x55);
    WANT(sedge_log_status(&log, 0, out, 26) == SEDGE_WRONG_COUNT && out[0] == 0x55);
}

static void is_damaged(struct sedge_log log) {
    uint8_t out[50];
    uint32_t number = 99;
    struct sedge_log before = log;
    WANT(sedge_log_next(&log, out, 50, &number) == SEDGE_DAMAGED && number == 99);
    WANT(sedge_log_done(&log, SEDGE_LOG_NOTHING, 0) == SEDGE_DAMAGED && is_same(&log, &before));
    WANT(refused(&log, COMMAND, sizeof COMMAND) == SEDGE_DAMAGED);
    WANT(disobeyed(&log, RESTART, sizeof RESTART) == SEDGE_DAMAGED);
    WANT(sedge_log_status(&log, 0, out, 27) == SEDGE_DAMAGED);
}

static void damaged_structs(void) {
    struct sedge_log log;
    memset(&log, 0, sizeof log);
    is_damaged(log);
    sedge_log_start(&log, STARTED, sizeof STARTED, STARTED, sizeof STARTED, 0);
    log.stage = 9;
    is_damaged(log);
    log.stage = 8;
    log.kept.begun = 2;
    is_damaged(log);
}

static void statuses_on_the_ground(void) {
    struct sedge_board_status status;
    WANT(sedge_log_status_decode(SAYS, 27, &status) == SEDGE_OK && status.kind == SEDGE_LOG_STATUS_SAYS);
    WANT(status.kept.boot == 7 && status.kept.last == 301 && status.kept.known == 3 && status.kept.begun == 0);
    WANT(status.kept.history == 0x4313d201 && status.mark == 0 && status.waiting == 3);
    WANT(sedge_log_status_decode(SAYS, 26, &status) == SEDGE_LOG_LAYOUT && status.waiting == 3);
    WANT(sedge_log_status_decode(NEW, 27, &status) == SEDGE_LOG_CHECK && status.waiting == 3);
    WANT(sedge_log_status_decode(LOST, 27, &status) == SEDGE_OK && status.kind == SEDGE_LOG_STATUS_LOST);
    WANT(status.mark == 0x12345678 && status.kept.boot == 0 && status.waiting == 255);
    WANT(sedge_log_status_decode(CHANGES, 27, &status) == SEDGE_OK && status.kind == SEDGE_LOG_STATUS_CHANGES);
    WANT(sedge_log_status_decode(STARTS, 27, &status) == SEDGE_OK && status.kind == SEDGE_LOG_STATUS_STARTS);
    WANT(sedge_log_history_after(0, COMMAND, sizeof COMMAND) == 0x42b1791c);
    WANT(sedge_log_history_after(0x42b1791c, COMMAND, sizeof COMMAND) == 0x66527da1);
}

static void packets_that_go_up(void) {
    static const uint8_t content[3] = {1, 2, 3};
    static uint8_t most[65529];
    struct sedge_log_order order = {7, 0, 0, SEDGE_LOG_ORDER_RESTART};
    uint8_t out[24];
    size_t total = 99;
    memset(out, 0x55, sizeof out);
    WANT(sedge_log_command_encode(5, 44, 301, content, 3, out, 16, &total) == SEDGE_LOG_ROOM);
    WANT(sedge_log_command_encode(2048, 44, 301, content, 3, out, 24, &total) == SEDGE_LOG_FIELD_RANGE);
    WANT(sedge_log_command_encode(5, 16384, 301, content, 3, out, 24, &total) == SEDGE_LOG_FIELD_RANGE);
    WANT(sedge_log_command_encode(5, 44, 0, content, 3, out, 24, &total) == SEDGE_LOG_FIELD_RANGE);
    WANT(sedge_log_command_encode(5, 44, 301, most, 65529, out, 24, &total) == SEDGE_LOG_FIELD_RANGE);
    WANT(sedge_log_command_encode(5, 44, 301, most, 65528, out, 24, &total) == SEDGE_LOG_ROOM);
    WANT(total == 99 && out[0] == 0x55);
    WANT(sedge_log_command_encode(5, 44, 301, content, 3, out, 24, &total) == SEDGE_OK && total == 17);
    WANT(memcmp(out, COMMAND, 17) == 0 && out[17] == 0x55);
    WANT(sedge_log_order_encode(&order, 6, 45, out, 24, &total) == SEDGE_OK && total == 23);
    WANT(memcmp(out, RESTART, 23) == 0 && out[23] == 0x55);
    order.last = 1;
    WANT(sedge_log_order_encode(&order, 6, 45, out, 24, &total) == SEDGE_DAMAGED);
    order.kind = SEDGE_LOG_ORDER_REBUILD;
    order.boot = 65543;
    order.last = 301;
    order.mark = 0x12345678;
    WANT(sedge_log_order_encode(&order, 2048, 46, out, 24, &total) == SEDGE_LOG_FIELD_RANGE);
    WANT(sedge_log_order_encode(&order, 6, 46, out, 22, &total) == SEDGE_LOG_ROOM);
    WANT(sedge_log_order_encode(&order, 6, 46, out, 24, &total) == SEDGE_OK && memcmp(out, REBUILD, 23) == 0);
    order.kind = 3;
    WANT(sedge_log_order_encode(&order, 6, 46, out, 24, &total) == SEDGE_DAMAGED);
}

int main(void) {
    WANT(sizeof(struct sedge_log) <= 96);
    a_command_is_executed();
    a_restart_in_a_command();
    a_record_is_lost();
    a_new_board();
    actions_that_are_others();
    damaged_structs();
    statuses_on_the_ground();
    packets_that_go_up();
    printf(failures ? "%d failed\n" : "all as wanted\n", failures);
    return failures != 0;
}
