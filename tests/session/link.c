/* Runs a script of the simulated link with that of libsedgechisel_nodes, and writes the lines of `tctool sim`. */
#include "lines.h"

static struct sedge_sim sim;

static void write_refused(const struct sedge_reply *reply) {
    struct sedge_text (*const names[])(uint8_t) = {NULL, sedge_link_fault_name, sedge_cop_fault_name,
                                                   sedge_tm_fault_name};
    write_fault("refused", reply->fault, names[reply->by](reply->fault));
}

/* The octets of the frame that was sent, or of the packet that was taken. */
static void write_octets(const char *word, size_t wanted) {
    size_t count = 0;
    if (sedge_sim_octets(&sim, packet, sizeof packet, &count) != 0 || count != wanted) give_up("octets");
    write_digits(word, packet, count);
}

static void write_reply(const struct sedge_reply *reply) {
    char word[16];
    uint8_t report[4];
    switch (reply->kind) {
    case SEDGE_REPLY_DONE: printf("ok\n"); break;
    case SEDGE_REPLY_NOTHING: printf("nothing\n"); break;
    case SEDGE_REPLY_LOST: printf("lost\n"); break;
    case SEDGE_REPLY_REFUSED: write_refused(reply); break;
    case SEDGE_REPLY_ALERT: printf("alert %s\n", sedge_alert_name(reply->alert).text); break;
    case SEDGE_REPLY_SENT: write_octets("sent", reply->count); break;
    case SEDGE_REPLY_REPORTED:
        if (sedge_clcw_encode(&reply->report, report, sizeof report) != 0) give_up("report");
        write_digits("report", report, sizeof report);
        break;
    case SEDGE_REPLY_UP: write_received(&reply->up); break;
    case SEDGE_REPLY_DOWN: write_heard(&reply->down); break;
    case SEDGE_REPLY_DOWN_CLCW: write_word(&reply->down); break;
    case SEDGE_REPLY_RESUMED: printf("resumed %llu\n", (unsigned long long)reply->whole); break;
    default: sprintf(word, "packet %d", reply->map); write_octets(word, reply->count);
    }
}

/* How many entries a record has, over all MAPs or of its own. */
static size_t count_of(uint8_t record) {
    size_t all = 0, entries;
    uint8_t map, maps = record == SEDGE_SUBMITTED || record == SEDGE_DELIVERED ? 64 : 1;
    for (map = 0; map < maps; map++) {
        if (sedge_sim_count(&sim, record, map, &entries) != 0) give_up("count");
        all += entries;
    }
    return all;
}

static void shows(void) {
    struct sedge_sim_reading read;
    if (sedge_sim_read(&sim, &read) != 0) give_up("read");
    printf("clean=%s state=S%d submitted=%zu delivered=%zu sent=%zu accepted=%zu acknowledged=%zu outstanding=%zu\n",
           read.begun == SEDGE_BEGUN_NOT ? "none" : read.clean ? "yes" : "no", read.state, count_of(SEDGE_SUBMITTED),
           count_of(SEDGE_DELIVERED), count_of(SEDGE_SENT), count_of(SEDGE_RECEIVED), read.acknowledged,
           read.outstanding);
}

static uint8_t directs(const char *word, const char *argument, unsigned number, struct sedge_reply *reply) {
    if (strcmp(word, "terminate") == 0) return sedge_sim_terminate(&sim, reply);
    if (strcmp(word, "resume") == 0) return sedge_sim_resume(&sim, (uint8_t)number, reply);
    if (strcmp(word, "vs") == 0) return sedge_sim_set_vs(&sim, (uint8_t)number, reply);
    if (strcmp(word, "window") == 0) return sedge_sim_set_window(&sim, (uint8_t)number, reply);
    if (strcmp(word, "limit") == 0) return sedge_sim_set_limit(&sim, (uint8_t)number, reply);
    if (strcmp(word, "timer") == 0) return sedge_sim_set_timer(&sim, (uint16_t)number, reply);
    if (strcmp(argument, "none") == 0) return sedge_sim_init_without_check(&sim, reply);
    if (strcmp(argument, "check") == 0) return sedge_sim_init_with_check(&sim, reply);
    if (strcmp(argument, "unlock") == 0) return sedge_sim_init_unlock(&sim, reply);
    return sedge_sim_init_set_vr(&sim, (uint8_t)number, reply);
}

static uint8_t moves(int is_up, char how, size_t count, struct sedge_reply *reply) {
    switch (how) {
    case 'e': return (is_up ? sedge_sim_up_deliver : sedge_sim_down_deliver)(&sim, reply);
    case 'o': return (is_up ? sedge_sim_up_lose : sedge_sim_down_lose)(&sim, reply);
    case 'l': return sedge_sim_down_clcw(&sim, reply);
    default: return (is_up ? sedge_sim_up_damage : sedge_sim_down_damage)(&sim, octets, count, reply);
    }
}

static uint8_t happens(const char *word, const char *one, const char *two, struct sedge_reply *reply) {
    uint8_t map = (uint8_t)strtoul(one, NULL, 10);
    if (strcmp(word, "submit") == 0) return sedge_sim_submit(&sim, map, octets, octets_of(two), reply);
    if (strcmp(word, "bypass") == 0) return sedge_sim_bypass(&sim, map, octets, octets_of(two), reply);
    if (strcmp(word, "telemetry") == 0) return sedge_sim_telemetry(&sim, octets, octets_of(one), reply);
    if (strcmp(word, "send") == 0) return sedge_sim_send(&sim, reply);
    if (strcmp(word, "report") == 0) return sedge_sim_report(&sim, reply);
    if (strcmp(word, "up") == 0) return moves(1, one[1], octets_of(two), reply);
    if (strcmp(word, "down") == 0) return moves(0, one[1], octets_of(two), reply);
    if (strcmp(word, "take") == 0) return sedge_sim_take(&sim, reply);
    if (strcmp(word, "takebypass") == 0) return sedge_sim_take_bypass(&sim, reply);
    if (strcmp(word, "tick") == 0) return sedge_sim_tick(&sim, reply);
    return directs(word, one, (unsigned)strtoul(strcmp(word, "init") == 0 ? two : one, NULL, 10), reply);
}

static void plays(const char *word, const char *one, const char *two) {
    struct sedge_reply reply;
    uint8_t answer;
    if (sim.link == NULL && sedge_sim_open(&sim, &config) != 0) give_up("the link is not opened");
    if (strcmp(word, "show") == 0) {
        shows();
        return;
    }
    answer = happens(word, one, two, &reply);
    if (answer == 0) {
        write_reply(&reply);
    } else {
        write_fault("refused", answer, sedge_sim_fault_name(answer));
    }
}

int main(void) {
    read_script(plays);
    sedge_sim_close(&sim);
    return 0;
}
