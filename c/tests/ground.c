/* A ground that runs against c/examples/board.c: `ground SEED COMMAND ..` runs the board as that command. Between them
 * are delays, and a link that loses a quarter of the frames in each direction and damages some. The sender runs
 * sessions that end by Terminate and by Lockout, and recovers after each as docs/CONTROL.md states. The board must
 * execute each packet of an open MAP once and in sequence, and exactly the bypass packets that arrived. Its answers in
 * telemetry must match what it executed, and FARM-B what arrived. The status is 0 if all of this holds. */
#define _POSIX_C_SOURCE 200809L
#include <sedgechisel.h>
#include <signal.h>
#include <stdio.h>
#include <stdlib.h>
#include <string.h>
#include <sys/wait.h>
#include <unistd.h>

/* What is agreed with the board, and the slots of time that each way takes. */
enum { SPACECRAFT = 42, TC_CHANNEL = 2, WIDTH = 32, TM_CHANNEL = 1, TM_LENGTH = 64, ANSWER = 10, MAX_PACKET = 2048 };
enum { DELAY = 3, SUBMISSIONS = 1500, MOST = 16384, SLOT = 1030, LAST_SLOT = 200000, SHORT = 7, MANY = 1016 / SHORT };

static FILE *executed; /* the board's standard error */

/* Ends with 1 where it does not hold, and says what the board said last. */
static void need(bool holds, const char *what) {
    char line[200];
    if (holds) return;
    printf("not so: %s; the board said\n", what);
    if (fseek(executed, -1500, SEEK_END) != 0) rewind(executed);
    while (fgets(line, sizeof line, executed) != NULL) fputs(line, stdout);
    exit(1);
}

static uint64_t state;

/* A number below the limit (xorshift64*, Marsaglia and Vigna). */
static uint32_t below(uint32_t limit) {
    state ^= state >> 12;
    state ^= state << 25;
    state ^= state >> 27;
    return (uint32_t)((state * 2685821657736338717u) >> 33) % limit;
}

/* ---- What is submitted. ---- */

/* What the board is to execute, and the first four octets of its packet. */
struct packet {
    uint8_t map, first[4];
    size_t count;
    uint16_t check;
};

/* The submission that was made last: its octets, or with twins those of two packets of one length, on MAPs 0 and 5, the
 * segments of which go in turn. */
static uint8_t octets[8192], map;
static size_t octets_count;
static bool twins;
static struct sedge_limits limits;

static void put_packet(uint8_t *at, size_t count, unsigned apid, unsigned number) {
    size_t k;
    at[0] = (uint8_t)(0x10 | apid >> 8);
    at[1] = (uint8_t)apid;
    at[2] = (uint8_t)(0xc0 | (number >> 8 & 0x3f));
    at[3] = (uint8_t)number;
    at[4] = (uint8_t)((count - SHORT) >> 8);
    at[5] = (uint8_t)(count - SHORT);
    for (k = 6; k < count; k++) at[k] = (uint8_t)below(256);
}

/* Makes submission k, the same each time: short packets, several in a segment, or as many as may be; long ones; twins;
 * some of a closed MAP. */
static void make_submission(unsigned k) {
    uint64_t kept = state;
    unsigned at, packets;
    state = 88172645463325252u + k * 7919u;
    for (at = 0; at < 20; at++) below(2);
    map = below(20) == 0 ? 9 : below(2) ? 5 : 0;
    limits = (struct sedge_limits){k % 3 == 0 ? 1016 : 20 + below(300), MAX_PACKET, 1};
    packets = below(4) > 0 ? 1 : 2 + below(8);
    twins = k % 10 == 5;
    if (k % 200 == 99) limits.part = 1016, packets = MANY, map = 5;
    if (twins) limits.part = 20 + below(300), packets = 2, map = 0;
    octets_count = 0;
    for (at = 0; at < packets; at++) {
        size_t count = packets == 1 && below(3) == 0 ? SHORT + below(MAX_PACKET - SHORT + 1) : SHORT + below(60);
        if (packets == MANY) count = SHORT;
        if (twins) count = 1000 + k % 200;
        put_packet(octets + octets_count, count, 100 + at, k);
        octets_count += count;
    }
    state = kept;
}

static struct packet packet_at(uint8_t on, const uint8_t *at, size_t count) {
    struct packet packet = {on, {at[0], at[1], at[2], at[3]}, count, sedge_check(at, count)};
    return packet;
}

/* ---- The sender. A unit is a segment of a submission; with twins of n segments each 0 to 2n - 1 are those of both in
 * turn, and 2n to 3n - 1 those of the second alone, where the first was accepted whole. ---- */

struct unit {
    unsigned k;
    size_t segment;
};

/* How many segments the submission, or each of the twins, is cut into. */
static size_t segments(void) {
    size_t count;
    need(sedge_map_count(octets, twins ? octets_count / 2 : octets_count, &limits, &count) == SEDGE_OK, "it is cut");
    return count;
}

/* Makes the submission of a unit, and cuts the unit out: its MAP, its flags, and where in the octets its data are. */
static uint8_t cut(struct unit unit, uint8_t *flags, struct sedge_part *data) {
    size_t count, n, k = unit.segment, from = 0;
    make_submission(unit.k);
    n = segments();
    if (twins) map = k < 2 * n && k % 2 == 0 ? 0 : 5, k = k < 2 * n ? k / 2 : k - 2 * n;
    count = twins ? octets_count / 2 : octets_count;
    if (twins && map == 5) from = count;
    need(sedge_map_segment(octets + from, count, &limits, k, flags, data) == SEDGE_OK, "a segment is cut");
    data->from += from;
    return map;
}

static struct sedge_fop fop;
static struct unit sent[256], waits, to_submit, unsent;
static bool alerted, recovered;
static unsigned quiet, frames, lost, again, waited, sessions, lockouts;

static struct unit after(struct unit unit) {
    size_t n;
    make_submission(unit.k);
    n = segments();
    unit.segment++;
    if (twins ? unit.segment % (2 * n) != 0 && unit.segment < 3 * n : unit.segment < n) return unit;
    return (struct unit){unit.k + 1, 0};
}

/* Where to begin again with a packet of which this unit was not accepted. */
static struct unit beginning(struct unit unit) {
    struct sedge_part data;
    uint8_t flags;
    cut(unit, &flags, &data);
    if (twins) {
        unit.segment = unit.segment < 2 * segments() - 1 ? 0 : 2 * segments();
    } else if (flags != SEDGE_SEGMENT_FIRST && flags != SEDGE_SEGMENT_ALONE) {
        unit.segment--;
        return beginning(unit);
    }
    return unit;
}

/* What goes up: a frame and fill; and the packet that is executed if the frame arrives, of 0 octets where none is. */
struct record {
    size_t count, frame;
    struct packet packet;
    bool is_counted; /* by FARM-B */
    uint8_t octets[SLOT];
};

static void put_frame(struct record *record, struct sedge_tc_frame frame, const uint8_t *data, size_t count) {
    size_t fill = below(7);
    need(sedge_tc_encode(&frame, data, count, true, record->octets, 1024, &record->frame) == SEDGE_OK, "a frame");
    memset(record->octets + record->frame, 0x55, fill);
    record->count = record->frame + fill;
    record->packet.count = 0;
    record->is_counted = frame.kind != SEDGE_TC_AD && frame.scid == SPACECRAFT && frame.vcid == TC_CHANNEL;
    frames++;
}

static void put_unit(struct record *record, struct unit unit, uint8_t n) {
    struct sedge_tc_frame frame = {SPACECRAFT, TC_CHANNEL, SEDGE_TC_AD, n, 0, 0, 0, 0};
    struct sedge_part data;
    frame.map = cut(unit, &frame.flags, &data);
    put_frame(record, frame, octets + data.from, data.count);
}

/* A packet past the sequence control; at times what is none, on a closed MAP, or of another spacecraft. */
static void put_bypass(struct record *record) {
    static unsigned number;
    uint8_t data[100];
    size_t count = SHORT + below(80);
    struct sedge_tc_frame frame = {SPACECRAFT, TC_CHANNEL, SEDGE_TC_BD, 0, SEDGE_SEGMENT_ALONE, 5, 0, 0};
    unsigned kind = below(8);
    put_packet(data, count, 1000, number++);
    if (kind == 0) frame.scid++;
    if (kind == 1) frame.vcid++;
    if (kind == 2) frame.map = 9;
    if (kind == 3) frame.flags = SEDGE_SEGMENT_FIRST;
    put_frame(record, frame, data, kind == 4 ? count - 1 : kind == 5 ? count + 1 : count);
    if (kind > 5) record->packet = packet_at(frame.map, data, count);
}

/* The sender locks the receiver out, as a wrong configuration would. */
static void put_lockout(struct record *record) {
    struct sedge_tc_frame frame = {SPACECRAFT, TC_CHANNEL, SEDGE_TC_AD, (uint8_t)(fop.vs + 100), 3, 5, 0, 0};
    put_frame(record, frame, octets, 1);
    lockouts++;
}

static void put_command(struct record *record, uint8_t command, uint8_t vr) {
    struct sedge_tc_frame frame = {SPACECRAFT, TC_CHANNEL, SEDGE_TC_BC, 0, 0, 0, command, vr};
    put_frame(record, frame, octets, 0);
}

/* What goes up in a slot. */
static void send(struct record *record) {
    uint8_t n;
    record->count = 0;
    if (alerted) return;
    if (fop.state == SEDGE_FOP_S1 && below(400) == 0) {
        put_lockout(record);
        return;
    }
    if (below(15) == 0) {
        put_bypass(record);
        return;
    }
    if (to_submit.k < SUBMISSIONS && sedge_fop_submit(&fop) == SEDGE_OK)
        waits = to_submit, to_submit = after(to_submit);
    switch (sedge_fop_next(&fop, &n)) {
    case SEDGE_NEXT_UNLOCK: put_command(record, SEDGE_UNLOCK, 0); break;
    case SEDGE_NEXT_SET_VR: put_command(record, SEDGE_SET_VR, n); break;
    case SEDGE_NEXT_FIRST: sent[n] = waits, unsent = after(waits), put_unit(record, waits, n); break;
    case SEDGE_NEXT_AGAIN: again++, put_unit(record, sent[n], n); break;
    default: break;
    }
}

/* After an alert, by a report that was made when nothing was on its way up: the packet that was not accepted whole goes
 * again from its first segment on, and then what comes after it. */
static void go_on(const struct sedge_clcw *word) {
    uint8_t accepted;
    struct unit unit = unsent;
    need(sedge_fop_accepted_beyond(&fop, word->value, &accepted) == SEDGE_OK, "the report says what was accepted");
    if (accepted < (uint8_t)(fop.vs - fop.nn)) unit = sent[(uint8_t)(fop.nn + accepted)];
    to_submit = unsent = unit.k < SUBMISSIONS ? beginning(unit) : unit;
    recovered |= to_submit.segment != unit.segment;
    if ((word->flags & SEDGE_CLCW_LOCKOUT) == 0 && below(2) == 0) {
        need(sedge_fop_init_set_vr(&fop, (uint8_t)(word->value + 50)) == SEDGE_OK, "a session begins by Set V(R)");
        return;
    }
    need(sedge_fop_set_vs(&fop, word->value) == SEDGE_OK, "V(S) is set");
    need(sedge_fop_init_unlock(&fop) == SEDGE_OK, "a session begins by Unlock");
}

/* ---- Telemetry. ---- */

static struct sedge_tm_extractor extractor;
static uint8_t memory[4096], answers[MOST][ANSWER];
static unsigned answered, next_answer;

static void answer(const uint8_t *at, size_t count, bool gap) {
    unsigned number = (unsigned)(at[2] & 0x3f) << 8 | at[3];
    need(count == ANSWER && answered < MOST, "an answer has 10 octets");
    need(gap ? number >= next_answer : number == next_answer, "answers are numbered, and missing only with frames");
    next_answer = number + 1;
    memcpy(answers[answered++], at, count);
}

static void extract(const struct sedge_tm_frame *frame, const uint8_t *data, size_t count) {
    struct sedge_tm_extracted extracted;
    struct sedge_part part;
    static bool gap;
    need(sedge_tm_extractor_frame(&extractor, frame, data, count, memory, sizeof memory, &extracted) == SEDGE_OK,
         "packets are extracted");
    gap |= extracted.lost > 0 || extracted.first == 1;
    if (extracted.joined > 0) answer(memory, extracted.joined, gap), gap = false;
    for (part = extracted.packets; sedge_tm_packet(data, count, &part); gap = false)
        answer(data + part.from, part.count, gap);
}

/* A telemetry frame, and how many frames FARM-B had counted when it was made. */
struct heard {
    bool came;
    unsigned counted;
    uint8_t octets[TM_LENGTH];
};

static void hear(const struct heard *heard) {
    struct sedge_tm_frame frame;
    struct sedge_clcw word;
    struct sedge_part data;
    uint8_t released, alert;
    need(sedge_tm_decode(heard->octets, TM_LENGTH, TM_LENGTH, &frame, &data) == SEDGE_OK, "a telemetry frame");
    need(frame.scid == SPACECRAFT && frame.vcid == TM_CHANNEL, "a frame of the board's channel");
    need(sedge_clcw_decode(frame.ocf, 4, &word) == SEDGE_OK && word.vcid == TC_CHANNEL, "a report");
    need(word.farm_b == heard->counted % 4, "FARM-B counts the frames past the sequence control");
    extract(&frame, heard->octets + data.from, data.count);
    waited += (word.flags & SEDGE_CLCW_WAIT) != 0;
    alert = sedge_fop_clcw(&fop, TC_CHANNEL, &word, &released);
    if (alert == SEDGE_ALERT_LOCKOUT) alerted = true, quiet = 0;
    else need(alert == SEDGE_NO_ALERT, "no alert but Lockout");
    if (alerted && quiet > 2 * DELAY) alerted = false, sessions++, go_on(&word);
}

/* ---- The link. ---- */

static int to_board, from_board;
static struct packet bypassed[MOST];
static unsigned arrived, counted;

static void to(const uint8_t *at, size_t count) {
    ssize_t moved;
    for (; count > 0; at += moved, count -= (size_t)moved)
        need((moved = write(to_board, at, count)) > 0, "the board reads");
}

static void from(uint8_t *at, size_t count) {
    ssize_t moved;
    for (; count > 0; at += moved, count -= (size_t)moved)
        need((moved = read(from_board, at, count)) > 0, "the board writes");
}

/* What arrives on board in a slot: nothing, or the record as it is, or damaged. */
static void arrive(struct record *record) {
    uint8_t head[2];
    bool damaged = below(20) == 0;
    if (record->count > 0 && below(4) == 0) record->count = 0, lost++;
    head[0] = (uint8_t)(record->count >> 8);
    head[1] = (uint8_t)record->count;
    if (record->count > 0 && damaged) record->octets[below((uint32_t)record->frame)] ^= (uint8_t)(1 << below(8));
    if (record->count > 0 && !damaged && record->packet.count > 0) bypassed[arrived++] = record->packet;
    counted += record->count > 0 && !damaged && record->is_counted;
    to(head, 2);
    to(record->octets, record->count);
}

static void play(void) {
    static struct record up[DELAY];
    static struct heard down[DELAY];
    unsigned slot, last = 0;
    for (slot = 0; slot < LAST_SLOT && (last == 0 || slot < last); slot++) {
        unsigned at = slot % DELAY;
        if (!alerted && fop.state == SEDGE_FOP_S1 && fop.sent > 0 && below(500) == 0)
            need(sedge_fop_terminate(&fop) == SEDGE_OK, "terminated"), alerted = true, quiet = 0;
        arrive(&up[at]);
        send(&up[at]);
        if (down[at].came) hear(&down[at]);
        from(down[at].octets, TM_LENGTH);
        down[at].counted = counted;
        down[at].came = below(4) > 0;
        lost += !down[at].came;
        quiet++;
        need(sedge_fop_tick(&fop) == SEDGE_NO_ALERT, "no alert of a tick");
        if (last == 0 && to_submit.k == SUBMISSIONS && fop.state == SEDGE_FOP_S1 && fop.sent == 0 && fop.waiting == 0)
            last = slot + 3 * 2 * MANY + 100;
    }
    need(slot < LAST_SLOT, "all is acknowledged");
}

/* ---- What the board executed. ---- */

/* The next packet that is executed in sequence. */
static struct packet next_in_sequence(void) {
    static unsigned k;
    static struct sedge_part part;
    for (;; k++, part.from = part.count = 0) {
        make_submission(k);
        if (k == SUBMISSIONS) return (struct packet){0, {0}, 0, 0};
        if (map != 9 && sedge_map_packet(octets, octets_count, &part))
            return packet_at(twins && part.from > 0 ? 5 : map, octets + part.from, part.count);
    }
}

static void compare(void) {
    char line[200], wanted[200];
    unsigned past = 0, number = 0, at = 0;
    while (fgets(line, sizeof line, executed) != NULL) {
        bool bypass = strncmp(line, "past", 4) == 0;
        struct packet packet = bypass ? bypassed[past++] : next_in_sequence();
        snprintf(wanted, sizeof wanted, "%s on MAP %d: %d octets, check %04X\n",
                 bypass ? "past the sequence control" : "in sequence", packet.map, (int)packet.count, packet.check);
        if (strcmp(line, wanted) != 0) printf("executed: %swanted: %s", line, wanted), need(false, "as wanted");
        if (at < answered && ((unsigned)(answers[at][2] & 0x3f) << 8 | answers[at][3]) == number)
            need(memcmp(answers[at++] + 6, packet.first, 4) == 0, "an answer is that of the packet");
        number++;
    }
    need(past == arrived && next_in_sequence().count == 0, "all that arrived was executed");
    need(at == answered && number < MOST, "all answers are of packets");
    printf("%u packets executed, %u past the sequence control, %u answers; ", number, past, answered);
    printf("%u frames, %u lost on both ways, %u again; ", frames, lost, again);
    printf("%u sessions, %u lockouts, %u reports with Wait\n", sessions, lockouts, waited);
    need(past > 0 && answered > 0 && again > 0 && waited > 0 && lockouts > 0 && recovered, "each of these was met");
}

/* Runs the board. */
static pid_t run(char **words) {
    int up[2], down[2];
    pid_t board = -1;
    need(pipe(up) == 0 && pipe(down) == 0, "two pipes");
    need((board = fork()) >= 0, "a process");
    if (board == 0) {
        if (dup2(up[0], 0) < 0 || dup2(down[1], 1) < 0 || dup2(fileno(executed), 2) < 0) _exit(3);
        close(up[1]);
        close(down[0]);
        execvp(words[0], words);
        _exit(3);
    }
    close(up[0]);
    close(down[1]);
    to_board = up[1];
    from_board = down[0];
    return board;
}

int main(int count, char **words) {
    int status;
    pid_t board;
    if (count < 3 || (executed = tmpfile()) == NULL) return 2;
    state = 0x9e3779b97f4a7c15u ^ strtoul(words[1], NULL, 10);
    signal(SIGPIPE, SIG_IGN);
    board = run(words + 2);
    need(sedge_fop_open(&fop, WIDTH, WIDTH / 2, 255, 4 * DELAY) == SEDGE_OK, "a sender");
    need(sedge_fop_init_unlock(&fop) == SEDGE_OK, "a session begins");
    play();
    close(to_board);
    need(waitpid(board, &status, 0) == board && status == 0, "the board ends with 0");
    rewind(executed);
    compare();
    return 0;
}
