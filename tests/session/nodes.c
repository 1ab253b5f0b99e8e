/* Runs a script of the simulated link with the two nodes of libsedgechisel_nodes, and writes the lines of `tctool sim`.
 * The link between them is here: a list of frames in transit for each direction. The lines of `show` are left out. */
#include "lines.h"

enum { ON_THEIR_WAY = 4096 };

struct frame {
    size_t count;
    uint8_t octets[2048];
};

/* Frames on their way in one direction, the first of them at `first`. */
struct way {
    size_t first, count;
    struct frame frames[ON_THEIR_WAY];
};

static struct way up, down;
static struct sedge_ground ground;
static struct sedge_spacecraft spacecraft;
/* The next place on the way, to be written. */
static struct frame *last_of(struct way *way) {
    if (way->count == ON_THEIR_WAY) give_up("too many frames are on their way");
    return &way->frames[(way->first + way->count) % ON_THEIR_WAY];
}

static struct frame *first_of(struct way *way) {
    struct frame *frame = &way->frames[way->first];
    way->first = (way->first + 1) % ON_THEIR_WAY;
    way->count--;
    return frame;
}

/* What a call answered that is done, or refused. */
static void write_done(uint8_t answer, struct sedge_text (*name)(uint8_t)) {
    if (answer == 0) {
        printf("ok\n");
    } else {
        write_fault("refused", answer, name(answer));
    }
}

static void goes_up(const uint8_t *from, size_t count) {
    struct sedge_received received;
    if (sedge_spacecraft_receive(&spacecraft, from, count, &received) != 0) give_up("memory");
    write_received(&received);
}

static void goes_down(const uint8_t *from, size_t count) {
    struct sedge_heard heard;
    if (sedge_ground_telemetry(&ground, from, count, &heard) != 0) give_up("memory");
    write_heard(&heard);
}

/* The control word of a telemetry frame, before its check, arrives by itself. */
static void word_arrives(const struct frame *frame) {
    struct sedge_heard heard;
    if (sedge_ground_clcw(&ground, frame->octets + frame->count - 6, 4, &heard) != 0) give_up("word");
    write_word(&heard);
}

/* The first frame up or down arrives, or is lost, or its report alone arrives, or these octets in its place. */
static void moves(int is_up, char how, size_t count) {
    struct way *way = is_up ? &up : &down;
    struct sedge_tc_frame tc;
    struct sedge_tm_frame tm;
    struct sedge_part data;
    struct frame *frame;
    if (way->count == 0) {
        write_fault("refused", 7, sedge_sim_fault_name(7));
        return;
    }
    if (how == 'a' && (is_up ? sedge_tc_decode(octets, count, true, &tc, &data)
                             : sedge_tm_decode(octets, count, config.frame_length, &tm, &data)) == 0) {
        write_fault("refused", 8, sedge_sim_fault_name(8));
        return;
    }
    frame = first_of(way);
    if (how == 'o') {
        printf("lost\n");
    } else if (how == 'l') {
        word_arrives(frame);
    } else {
        (is_up ? goes_up : goes_down)(how == 'a' ? octets : frame->octets, how == 'a' ? count : frame->count);
    }
}

static void sends(void) {
    struct frame *frame = last_of(&up);
    if (sedge_ground_pull(&ground, frame->octets, sizeof frame->octets, &frame->count) != 0) give_up("pull");
    if (frame->count == 0) {
        printf("nothing\n");
    } else {
        up.count++;
        write_digits("sent", frame->octets, frame->count);
    }
}

static void reports(void) {
    struct frame *frame = last_of(&down);
    if (sedge_spacecraft_telemetry_frame(&spacecraft, frame->octets, sizeof frame->octets, &frame->count) != 0) {
        give_up("report");
    }
    down.count++;
    write_digits("report", frame->octets + frame->count - 6, 4);
}

static void takes(int is_bypass) {
    size_t count;
    uint8_t map, answer;
    char word[16];
    answer = is_bypass ? sedge_spacecraft_take_bypass(&spacecraft, &map, packet, sizeof packet, &count)
                       : sedge_spacecraft_take(&spacecraft, &map, packet, sizeof packet, &count);
    if (answer != 0) give_up("take");
    if (count == 0) {
        printf("nothing\n");
    } else {
        sprintf(word, "packet %d", map);
        write_digits(word, packet, count);
    }
}

static void resumes(uint8_t value) {
    uint64_t whole;
    uint8_t answer = sedge_ground_resume(&ground, value, &whole);
    if (answer == 0) {
        printf("resumed %llu\n", (unsigned long long)whole);
    } else {
        write_fault("refused", answer, sedge_link_fault_name(answer));
    }
}

static void ticks(void) {
    uint8_t alert = sedge_ground_tick(&ground);
    printf(alert == 0 ? "ok\n" : "alert %s\n", sedge_alert_name(alert).text);
}

static void directs(const char *word, const char *argument, unsigned number) {
    uint8_t answer;
    if (strcmp(word, "terminate") == 0) {
        answer = sedge_ground_terminate(&ground);
        if (answer == 0) {
            printf("alert Terminated\n");
            return;
        }
    } else if (strcmp(word, "vs") == 0) {
        answer = sedge_ground_set_vs(&ground, (uint8_t)number);
    } else if (strcmp(word, "window") == 0) {
        answer = sedge_ground_set_window(&ground, (uint8_t)number);
    } else if (strcmp(word, "limit") == 0) {
        answer = sedge_ground_set_limit(&ground, (uint8_t)number);
    } else if (strcmp(word, "timer") == 0) {
        answer = sedge_ground_set_timer(&ground, (uint16_t)number);
    } else if (strcmp(argument, "none") == 0) {
        answer = sedge_ground_init_without_check(&ground);
    } else if (strcmp(argument, "check") == 0) {
        answer = sedge_ground_init_with_check(&ground);
    } else if (strcmp(argument, "unlock") == 0) {
        answer = sedge_ground_init_unlock(&ground);
    } else {
        answer = sedge_ground_init_set_vr(&ground, (uint8_t)number);
    }
    write_done(answer, sedge_cop_fault_name);
}

/* An event, of which the words are these; those that it lacks are "". */
static void plays(const char *word, const char *one, const char *two) {
    uint8_t map = (uint8_t)strtoul(one, NULL, 10);
    if (strcmp(word, "show") == 0) return;
    if (ground.node == NULL &&
        (sedge_ground_open(&ground, &config) != 0 || sedge_spacecraft_open(&spacecraft, &config) != 0)) {
        give_up("the nodes are not opened");
    }
    if (strcmp(word, "submit") == 0) {
        size_t count = octets_of(two);
        write_done(sedge_ground_submit(&ground, map, octets, count), sedge_link_fault_name);
    } else if (strcmp(word, "bypass") == 0) {
        size_t count = octets_of(two);
        write_done(sedge_ground_bypass(&ground, map, octets, count), sedge_link_fault_name);
    } else if (strcmp(word, "telemetry") == 0) {
        size_t count = octets_of(one);
        write_done(sedge_spacecraft_telemetry(&spacecraft, octets, count), sedge_tm_fault_name);
    } else if (strcmp(word, "send") == 0) {
        sends();
    } else if (strcmp(word, "report") == 0) {
        reports();
    } else if (strcmp(word, "up") == 0 || strcmp(word, "down") == 0) {
        moves(*word == 'u', one[1], octets_of(two));
    } else if (strcmp(word, "take") == 0 || strcmp(word, "takebypass") == 0) {
        takes(word[4] != 0);
    } else if (strcmp(word, "tick") == 0) {
        ticks();
    } else if (strcmp(word, "resume") == 0) {
        resumes((uint8_t)strtoul(one, NULL, 10));
    } else {
        directs(word, one, (unsigned)strtoul(strcmp(word, "init") == 0 ? two : one, NULL, 10));
    }
}

int main(void) {
    read_script(plays);
    sedge_ground_close(&ground);
    sedge_spacecraft_close(&spacecraft);
    return 0;
}
